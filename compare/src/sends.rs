//! Bodies and frame numbers for the sender.

use crate::call::send_frame;
use crate::harness::Harness;
use crate::lines::body_length;
use crate::rng::Rng;
use second::sender;

/// The lengths at both sides of each step of the frame count, and about the frames that carry the CRC alone.
const EDGES: [usize; 11] = [88, 89, 90, 91, 92, 93, 182, 183, 184, 275, 276];

/// Every frame of a body at an edge of the frame count, and the frame number behind the last.
pub fn edge(harness: &mut Harness, rng: &mut Rng) {
    harness.kind("sender: every frame at an edge of the count");
    // The edge of a single frame more often, since it has the fewest frames.
    let length = if rng.once_in(3) { rng.range(88, 90) } else { rng.pick(&EDGES) };
    let body = rng.bytes(length);
    for k in 0..=sender::cut(length).len() as u64 {
        let out = rng.bytes(127);
        harness.check(send_frame(body.clone(), k, out, [rng.word(), rng.word()]));
    }
}

/// One frame of a body of any length, with any frame number and output.
pub fn single(harness: &mut Harness, rng: &mut Rng) {
    harness.kind("sender: a frame of a body");
    let length = match rng.below(20) {
        0 => rng.below(9),
        1 if rng.once_in(40) => rng.range(65_520, 65_550),
        // Long enough that its checksum takes every entry of a table by the byte.
        2 => rng.range(3_000, 4_000),
        _ => body_length(rng),
    };
    let count = if length >= 8 { sender::cut(length.min(65_533)).len() } else { 1 };
    let k = match rng.below(12) {
        0 => count as u64,
        1 => count as u64 + 1,
        2 => rng.number(),
        _ if length >= 3_000 => count as u64 - 1,
        3..=5 => count as u64 - 1,
        _ => rng.below(count) as u64,
    };
    let room = match rng.below(12) {
        0 => 126,
        1 => rng.below(127),
        2..=7 => 127,
        _ => rng.range(127, 200),
    };
    let body = rng.bytes(length);
    let out = rng.bytes(room);
    harness.check(send_frame(body, k, out, [rng.word(), rng.word()]));
}

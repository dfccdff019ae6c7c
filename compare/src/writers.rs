//! Values at the edges for the request writers.

use crate::call::{most_data, next_sequence, write_echo, write_plain, write_upload, Kind};
use crate::harness::Harness;
use crate::rng::Rng;

/// An output near to the length that a packet needs.
fn room(rng: &mut Rng, needed: usize) -> usize {
    match rng.below(8) {
        0 => needed.saturating_sub(1),
        1 => rng.below(needed + 1),
        2 => needed + 1,
        3 => 0,
        4 | 5 => needed,
        _ => needed + rng.below(60),
    }
}

/// A string's length at the edges of the head widths, now and then at the longest packet.
fn length(rng: &mut Rng) -> usize {
    match rng.below(12) {
        0 => rng.pick(&[0, 1, 22, 23, 24, 25, 254, 255, 256, 257]),
        1 if rng.once_in(100) => rng.range(65_440, 65_560),
        2 => rng.below(700),
        _ => rng.below(64),
    }
}

/// One request of any kind.
pub fn single(harness: &mut Harness, rng: &mut Rng) {
    let sequence = rng.byte();
    let packet_len = rng.word();
    match rng.below(10) {
        0..=2 => {
            harness.kind("writers: echo");
            let length = length(rng);
            let text = rng.bytes(length);
            let head = if length < 24 {
                1
            } else if length < 256 {
                2
            } else {
                3
            };
            let room = room(rng, 11 + head + length);
            harness.check(write_echo(sequence, text, rng.bytes(room), packet_len));
        }
        3 => {
            harness.kind("writers: reset, erase, next sequence");
            for kind in [Kind::WriteReset, Kind::WriteErase, Kind::WriteReset, Kind::WriteErase] {
                let room = room(rng, 9);
                harness.check(write_plain(kind, sequence, rng.bytes(room), packet_len));
            }
            harness.check(next_sequence(sequence));
        }
        4 => {
            harness.kind("writers: most data");
            let off = if rng.once_in(2) { 0 } else { rng.number() };
            let whole = if rng.once_in(2) { rng.number() } else { rng.below(700) as u64 };
            let tag = rng.pick(&[0, 0, 32, 32, 1, 31, 33]);
            let room = match rng.below(4) {
                0 if rng.once_in(20) => rng.range(65_440, 65_700) as u64,
                1 if rng.once_in(20) => rng.number(),
                2 => rng.range(18, 110) as u64,
                _ => rng.below(700) as u64,
            };
            harness.check(most_data(room, off, whole, tag));
        }
        _ => {
            harness.kind("writers: upload");
            let size = length(rng);
            let data = rng.bytes(size);
            let off = if rng.once_in(2) { 0 } else { rng.number() };
            let whole = match rng.below(4) {
                0 => size as u64,
                1 => (size as u64).saturating_sub(1),
                2 => rng.number(),
                _ => size as u64 + rng.below(3000) as u64,
            };
            let tag = match rng.below(4) {
                0 => rng.tag().to_vec(),
                1 => {
                    let length = rng.pick(&[1, 31, 32, 33, 64]);
                    rng.bytes(length)
                }
                2 => rng.bytes(32),
                _ => vec![],
            };
            let width = |number: u64| match number {
                0..=23 => 1,
                24..=255 => 2,
                256..=65_535 => 3,
                _ => 5,
            };
            let mut needed = 8 + 1 + 5 + width(size as u64) + size + 4 + width(off);
            if off == 0 {
                needed += 4 + width(whole) + if tag.is_empty() { 0 } else { 4 + 2 + tag.len() };
            }
            let room = room(rng, needed);
            harness.check(write_upload(sequence, data, off, whole, tag, rng.bytes(room), packet_len));
        }
    }
}

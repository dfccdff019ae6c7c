//! Replies of many shapes for the host's reader.

use crate::call::read_reply;
use crate::harness::Harness;
use crate::maps::{packet, payload, Item, Pair};
use crate::rng::Rng;

/// One reply, well formed or not.
pub fn single(harness: &mut Harness, rng: &mut Rng) {
    harness.kind("replies");
    let mut pairs: Vec<Pair> = Vec::new();
    if rng.once_in(2) {
        let rc = if rng.once_in(2) { rng.below(10) as u64 } else { rng.number() };
        pairs.push((b"rc".to_vec(), Item::Unsigned(rc)));
    }
    if rng.once_in(2) {
        pairs.push((b"off".to_vec(), Item::Unsigned(rng.number())));
    }
    if rng.once_in(2) {
        let length = match rng.below(10) {
            0 => rng.pick(&[0, 23, 24, 255, 256]),
            1 if rng.once_in(200) => rng.pick(&[65_519, 65_520, 65_535]),
            _ => rng.below(50),
        };
        pairs.push((b"r".to_vec(), Item::Text(rng.bytes(length))));
    }
    let spoil = rng.once_in(3);
    let payload = match rng.below(30) {
        0 => vec![],
        1 => {
            let length = rng.below(40);
            rng.bytes(length)
        }
        _ => payload(rng, pairs, spoil),
    };
    let op = if rng.once_in(12) { rng.pick(&[0, 2, 4, 5, 9, 11, 129, 255]) } else { rng.pick(&[1, 3]) };
    let group = if rng.once_in(4) { rng.word() as u16 } else { rng.below(2) as u16 };
    let command = rng.byte();
    let packet = packet(rng, op, group, command, &payload);
    let reply = std::array::from_fn(|_| rng.word());
    harness.check(read_reply(packet, reply));
}

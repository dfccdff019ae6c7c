//! Lumps for the collector: single steps with any record, and streams lumped two ways.

use crate::call::collect;
use crate::harness::Harness;
use crate::rng::Rng;

/// A collector's record and its bytes.
pub type Collector = ([u32; 2], [u8; 126]);

/// Some bytes without an 0A.
fn plain(rng: &mut Rng, length: usize) -> Vec<u8> {
    let mut bytes = rng.bytes(length);
    bytes.iter_mut().filter(|byte| **byte == 0x0A).for_each(|byte| *byte = 0x0B);
    bytes
}

/// A possible record, with any bytes behind those that it holds.
fn possible(rng: &mut Rng) -> Collector {
    let count = match rng.below(6) {
        0 => 0,
        1 | 2 => 126,
        3 => rng.range(120, 125),
        _ => rng.below(127),
    };
    let mut held: [u8; 126] = plain(rng, 126).try_into().unwrap();
    if count < 126 && rng.once_in(3) {
        let behind = if rng.once_in(2) { count } else { rng.range(count, 125) };
        held[behind] = 0x0A;
    }
    ([count as u32, rng.once_in(3) as u32], held)
}

/// A record: possible, or with too high a count or an 0A among the held bytes; skipping by any number.
fn record(rng: &mut Rng) -> Collector {
    let ([mut count, mut skipping], mut held) = possible(rng);
    match rng.below(12) {
        0 => count = rng.range(127, 130) as u32,
        1 => count = rng.pick(&[256, 257, 65_536, 0x8000_0000, 0xFFFF_FF82, u32::MAX]),
        2 if count > 0 => held[rng.below(count as usize)] = 0x0A,
        3 if count > 0 => held[count as usize - 1] = 0x0A,
        _ => {}
    }
    if skipping == 1 && rng.once_in(3) {
        skipping = rng.pick(&[2, 256, 0x8000_0000, u32::MAX]);
    }
    ([count, skipping], held)
}

/// A lump of any length to 300, with rare or frequent 0A.
fn lump(rng: &mut Rng) -> Vec<u8> {
    let length = match rng.below(12) {
        0 => 0,
        1 => 256,
        2 => rng.range(254, 258),
        3 => rng.range(257, 300),
        4..=6 => rng.below(9),
        _ => rng.below(257),
    };
    let mut lump = plain(rng, length);
    let times = rng.pick(&[1, 2, 10, 60, 200, 100_000]);
    lump.iter_mut().filter(|_| rng.once_in(times)).for_each(|byte| *byte = 0x0A);
    lump
}

/// A place in a lump of some length, at its end or beyond.
fn place(rng: &mut Rng, length: usize) -> u64 {
    match rng.below(12) {
        0 => length as u64,
        1 => length as u64 + rng.range(1, 3) as u64,
        2 => rng.number(),
        // Its lower half is a place in the lump.
        3 => (rng.range(1, 3) as u64) << 32 | rng.below(length + 1) as u64,
        4..=6 => rng.below(length + 1) as u64,
        _ => 0,
    }
}

/// One step, by itself, for any record, lump and place.
pub fn single(harness: &mut Harness, rng: &mut Rng) {
    harness.kind("lumps: single steps, any record and place");
    let (record, held) = record(rng);
    let mut lump = lump(rng);
    let at = place(rng, lump.len());
    if record[0] <= 126 && at <= lump.len() as u64 && rng.once_in(3) {
        // The line's first 0A is about its 127th byte.
        let from = at as usize;
        let end = from + rng.range(126, 129).saturating_sub(record[0] as usize + 1);
        if end < lump.len() {
            lump[from..end].iter_mut().for_each(|byte| *byte |= 0x80);
            lump[end] = 0x0A;
        }
    }
    let line = rng.bytes(127).try_into().unwrap();
    harness.check(collect(record, held, lump, at, line, [rng.word(), rng.word()]));
}

/// A line's length before its 0A: none, short, about the longest, or too long.
fn before_0a(rng: &mut Rng) -> usize {
    match rng.below(6) {
        0 => 0,
        1 => rng.below(20),
        2 => rng.below(127),
        3 | 4 => rng.range(124, 129),
        _ => rng.range(127, 600),
    }
}

/// Goes through a lump to its end; gives its lines, an empty one for each refusal 2.
pub fn through(
    harness: &mut Harness,
    rng: &mut Rng,
    (record, held): &mut Collector,
    lump: &[u8],
) -> Vec<Vec<u8>> {
    let mut lines = Vec::new();
    let mut at = 0;
    loop {
        let line = rng.bytes(127).try_into().unwrap();
        let got = [rng.word(), rng.word()];
        let outcome = harness.check(collect(*record, *held, lump.to_vec(), at, line, got));
        *record = outcome.words[..2].try_into().unwrap();
        *held = outcome.buffers[0][..].try_into().unwrap();
        at = outcome.words[3] as u64;
        let length = outcome.words[2] as usize;
        if outcome.returned == 0 && length == 0 {
            return lines;
        }
        lines.push(outcome.buffers[2][..length].to_vec());
    }
}

/// Cuts a stream into lumps of any length up to some, mostly long ones; gives its lines, and the record at its end.
fn lumped(
    harness: &mut Harness,
    rng: &mut Rng,
    mut collector: Collector,
    stream: &[u8],
) -> (Vec<Vec<u8>>, Collector) {
    let most = if rng.once_in(10) { rng.pick(&[1, 3]) } else { rng.pick(&[20, 127, 128, 256, 256]) };
    let mut lines = Vec::new();
    let mut left = stream;
    while !left.is_empty() {
        let (lump, rest) = left.split_at(rng.range(0, most).min(left.len()));
        lines.extend(through(harness, rng, &mut collector, lump));
        left = rest;
    }
    (lines, collector)
}

/// One stream lumped in two ways, each gone through to its end.
pub fn stream(harness: &mut Harness, rng: &mut Rng) {
    harness.kind("lumps: streams, each lumped two ways");
    let mut stream = Vec::new();
    for _ in 0..rng.below(6) {
        let length = before_0a(rng);
        stream.extend(plain(rng, length));
        stream.push(0x0A);
    }
    let length = before_0a(rng);
    stream.extend(plain(rng, length));
    let begin = if rng.once_in(2) { ([0; 2], [0; 126]) } else { possible(rng) };
    let one = lumped(harness, rng, begin, &stream);
    let other = lumped(harness, rng, begin, &stream);
    assert!(one == other, "lumped two ways the stream gives the same: {stream:02X?}");
}

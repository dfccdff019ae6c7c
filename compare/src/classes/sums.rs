//! The classes of the checksums that are computed: in a body's last frame, and where a line completes a packet.

use super::{reads::REPLIES, Group};
use crate::call::{Call, Outcome};
use second::{base64, crc};

/// A checksum, as far as its class depends on it.
pub struct Sum {
    /// It was read from a line, not sent.
    read: bool,
    agrees: bool,
    /// How many bytes it is over, and how many of them came before this line.
    length: usize,
    before: usize,
    /// How many entries of a table by the byte it takes.
    entries: usize,
    /// In how many bits the checksum that came differs.
    bits: u32,
}

impl Sum {
    /// Says whether a packet was completed.
    fn completes(&self) -> bool {
        self.read && self.agrees
    }

    /// Says whether the checksum takes every entry of a table by the byte.
    fn takes_all(&self) -> bool {
        self.entries == 256
    }
}

pub(super) const SUMS: Group<Sum> = Group {
    name: "checksums",
    first: REPLIES.end(),
    classes: &[
        ("sent", |it| !it.read),
        ("sent, by all 256 entries", |it| !it.read && it.takes_all()),
        ("read, in one run", |it| it.completes() && it.before == 0),
        ("read, continued", |it| it.completes() && 0 < it.before && it.before < it.length),
        ("read, nothing to continue with", |it| it.completes() && it.before == it.length),
        ("read, by all 256 entries", |it| it.completes() && it.takes_all()),
        ("refused 9", |it| it.read && !it.agrees),
        ("refused 9 for one bit", |it| it.read && it.bits == 1),
        ("refused 9 for one bit, continued", |it| it.read && it.bits == 1 && 0 < it.before),
    ],
};

/// How many entries of a table by the byte the checksum of a body takes.
fn entries(body: &[u8]) -> usize {
    let mut taken = [false; 256];
    let mut register = 0;
    for byte in body {
        taken[((register >> 8) as u8 ^ byte) as usize] = true;
        register = crc::extend(register, &[*byte]);
    }
    taken.iter().filter(|taken| **taken).count()
}

/// Adds the numbers of the classes that the checksum of a sent frame is of, where the frame has one.
pub fn add_sent(call: &Call, outcome: &Outcome, list: &mut Vec<usize>) {
    let body = &call.buffers[0];
    if outcome.returned == 0 && call.numbers[0] + 1 == outcome.words[1] as u64 {
        let length = body.len();
        SUMS.add(
            &Sum { read: false, agrees: true, length, before: 0, entries: entries(body), bits: 0 },
            list,
        );
    }
}

/// Adds the numbers of the classes that the checksum of a line is of, where the line brings its last byte.
pub fn add_read(call: &Call, outcome: &Outcome, list: &mut Vec<usize>) {
    let agrees = outcome.returned == 0 && outcome.words[4] > 0;
    if !agrees && outcome.returned != 9 {
        return;
    }
    let (line, packet) = (&call.buffers[0], &call.buffers[1]);
    let raw = base64::decode(&line[2..line.len() - 1]).unwrap();
    let (total, come, bytes) = match line[0] {
        6 => (u16::from_be_bytes([raw[0], raw[1]]) as usize, 0, &raw[2..]),
        _ => (call.words[1] as usize, call.words[2] as usize, &raw[..]),
    };
    let length = total - 2;
    let before = come.min(length);
    let (rest, came) = bytes.split_at(length - before);
    let body = [&packet[..before], rest].concat();
    let came = match *came {
        [high, low] => u16::from_be_bytes([high, low]),
        _ => u16::from_be_bytes([call.words[3] as u8, came[0]]),
    };
    let bits = (came ^ crc::crc16(&body)).count_ones();
    SUMS.add(&Sum { read: true, agrees, length, before, entries: entries(&body), bits }, list);
}

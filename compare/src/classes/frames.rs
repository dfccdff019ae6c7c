//! The classes of the frames that are sent, by the edges of the frame count.

use super::{sums::SUMS, Group};
use crate::call::{Call, Outcome};

/// A frame that was asked for, as far as its class depends on it.
pub struct Frame {
    body: usize,
    k: u64,
    returned: u32,
    length: u32,
    count: u32,
}

impl Frame {
    /// Says whether it was sent, as one of so many of a body of this length.
    fn of(&self, body: usize, count: u32) -> bool {
        self.returned == 0 && self.body == body && self.count == count
    }

    /// Says whether it was refused as the one behind the last of a body of this length.
    fn behind(&self, body: usize, count: u64) -> bool {
        self.returned == 13 && self.body == body && self.k == count
    }

    /// Says whether it was sent with the CRC and no byte of the body.
    fn only_crc(&self) -> bool {
        self.returned == 0 && self.length == 7 && self.k > 0 && self.body as u64 <= 93 * self.k - 2
    }
}

pub(super) const FRAMES: Group<Frame> = Group {
    name: "bg_send_frame",
    first: SUMS.end(),
    classes: &[
        ("88 bytes in one frame", |it| it.of(88, 1) && it.length == 127),
        ("89 bytes in one frame", |it| it.of(89, 1) && it.length == 127),
        ("90 bytes in two frames", |it| it.of(90, 2)),
        ("91 bytes in two frames", |it| it.of(91, 2)),
        ("92 bytes in two frames", |it| it.of(92, 2)),
        ("93 bytes in two frames", |it| it.of(93, 2)),
        ("182 bytes in two frames", |it| it.of(182, 2)),
        ("183 bytes in three frames", |it| it.of(183, 3)),
        ("184 bytes in three frames", |it| it.of(184, 3)),
        ("275 bytes in three frames", |it| it.of(275, 3)),
        ("276 bytes in four frames", |it| it.of(276, 4)),
        ("the CRC alone", Frame::only_crc),
        ("the CRC alone, of 90 bytes", |it| it.only_crc() && it.body == 90),
        ("refused 13: frame 1 of 89 bytes", |it| it.behind(89, 1)),
        ("refused 13: frame 2 of 90 bytes", |it| it.behind(90, 2)),
    ],
};

/// Adds the numbers of the classes that a frame is of.
pub fn add(call: &Call, outcome: &Outcome, list: &mut Vec<usize>) {
    let frame = Frame {
        body: call.buffers[0].len(),
        k: call.numbers[0],
        returned: outcome.returned,
        length: outcome.words[0],
        count: outcome.words[1],
    };
    FRAMES.add(&frame, list);
}

//! The collector: goes through lumps of bytes, as the driver delivers them, and hands on each line that they complete.

use crate::reader::LINE;
use crate::refusal::Refusal;

/// The most bytes of a line that are held before its 0A.
pub const HELD: usize = LINE - 1;
/// The longest lump.
pub const LUMP: usize = 256;

/// What a step through a lump came to.
#[derive(Clone, Copy, Debug, PartialEq, Eq)]
pub enum Step {
    /// The lump's end.
    UsedUp,
    /// The 0A of a line of so many bytes.
    Line(usize),
    /// The 0A of a line that was too long.
    TooLong,
}

/// Says whether a record holds more than is ever held, or an 0A.
fn impossible(record: &[u32; 2], held: &[u8; HELD]) -> bool {
    held.get(..record[0] as usize).map_or(true, |held| held.contains(&0x0A))
}

/// Takes one byte, and gives what ended with it, if anything: a line, which it then writes, or one that was too long.
fn take(record: &mut [u32; 2], held: &mut [u8; HELD], byte: u8, line: &mut [u8; LINE]) -> Option<Step> {
    let [count, skipping] = *record;
    let count = count as usize;
    let (next, ended) = match byte {
        0x0A if skipping != 0 => ([0, 0], Some(Step::TooLong)),
        0x0A => {
            line[..count].copy_from_slice(&held[..count]);
            line[count] = byte;
            ([0, 0], Some(Step::Line(count + 1)))
        }
        _ if skipping != 0 => return None,
        _ if count < HELD => {
            held[count] = byte;
            record[0] += 1;
            return None;
        }
        _ => ([0, 1], None),
    };
    *record = next;
    *held = [0; HELD];
    ended
}

/// Goes through a lump from a place to the next 0A or the lump's end; gives which it was and the place behind it, or
/// refuses 1 or 12.
pub fn collect(
    record: &mut [u32; 2],
    held: &mut [u8; HELD],
    lump: &[u8],
    at: usize,
    line: &mut [u8; LINE],
) -> Result<(Step, usize), Refusal> {
    if impossible(record, held) {
        return Err(Refusal::Impossible);
    }
    if lump.len() > LUMP {
        return Err(Refusal::CannotSend);
    }
    record[1] = (record[1] != 0) as u32;
    for (place, byte) in lump.iter().enumerate().skip(at) {
        if let Some(ended) = take(record, held, *byte, line) {
            return Ok((ended, place + 1));
        }
    }
    Ok((Step::UsedUp, lump.len()))
}

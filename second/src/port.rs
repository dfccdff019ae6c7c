//! The calls with the C header's parameters: each returns 0 or the number of a refusal, and fills its out-parameters at 0
//! only, but for [`collect`], which fills them at 2 too, and [`take_line`], which fills the place at 4 alone.

use crate::collector::{self, Step};
use crate::reader::{self, Taken};
use crate::refusal::Refusal;
use crate::replay::{self, Bench, BUFFER, MEMORY};
use crate::{controller, host, recording, sender, slot};

/// The number that a call returns, once its out-parameters are filled by `fill` where it was not refused.
fn number<T>(answer: Result<T, Refusal>, fill: impl FnOnce(T)) -> u32 {
    match answer {
        Ok(value) => {
            fill(value);
            0
        }
        Err(refusal) => refusal.number(),
    }
}

/// Goes through a lump to the next 0A or its end; `got` is the completed line's length, or 0, and the place to go on from.
pub fn collect(
    record: &mut [u32; 2],
    held: &mut [u8; 126],
    lump: &[u8],
    at: usize,
    line: &mut [u8; 127],
    got: &mut [u32; 2],
) -> u32 {
    match collector::collect(record, held, lump, at, line) {
        Ok((step, place)) => {
            let (returned, length) = match step {
                Step::UsedUp => (0, 0),
                Step::Line(length) => (0, length as u32),
                Step::TooLong => (Refusal::LineTooLong.number(), 0),
            };
            *got = [length, place as u32];
            returned
        }
        Err(refusal) => refusal.number(),
    }
}

/// Takes one line; `body` is 0 where the packet wants more, else the body's length; `place` is that of a bad text.
pub fn take_line(
    record: &mut [u32; 4],
    line: &[u8],
    packet: &mut [u8],
    body: &mut u32,
    place: &mut u32,
) -> u32 {
    let answer = reader::take_line(record, line, packet);
    if let Some(bad) = answer.err().and_then(Refusal::place) {
        *place = bad;
    }
    number(answer, |taken| {
        *body = match taken {
            Taken::More => 0,
            Taken::Complete(length) => length as u32,
        }
    })
}

/// Writes frame number k of a body; `sent` is the line's length and the frame count.
pub fn send_frame(body: &[u8], k: usize, out: &mut [u8], sent: &mut [u32; 2]) -> u32 {
    number(sender::send_frame(body, k, out), |(length, count)| *sent = [length as u32, count as u32])
}

/// Fixes the two slots, the start and size of slot 0 and then of the upload slot, and closes the session, or refuses 1.
pub fn configure(layout: &[usize; 4], memory: usize, record: &mut [u32; 4], tag: &mut [u8; 32]) -> u32 {
    number(slot::regions(layout, memory), |_| slot::store(None, record, tag))
}

/// Takes one request; `answer` is the reply's length, and 1 where a reset is asked.
#[allow(clippy::too_many_arguments)]
pub fn handle(
    layout: &[usize; 4],
    memory: &mut [u8],
    record: &mut [u32; 4],
    tag: &mut [u8; 32],
    packet: &[u8],
    reply: &mut [u8],
    answer: &mut [u32; 2],
) -> u32 {
    let handled = controller::handle(layout, memory, record, tag, packet, reply);
    number(handled, |(length, reset)| *answer = [length as u32, reset as u32])
}

/// Writes an echo of a text.
pub fn write_echo(sequence: u8, text: &[u8], out: &mut [u8], packet_len: &mut u32) -> u32 {
    number(host::write_echo(sequence, text, out), |length| *packet_len = length as u32)
}

/// Writes a reset.
pub fn write_reset(sequence: u8, out: &mut [u8], packet_len: &mut u32) -> u32 {
    number(host::write_reset(sequence, out), |length| *packet_len = length as u32)
}

/// Writes an erase of the slot.
pub fn write_erase(sequence: u8, out: &mut [u8], packet_len: &mut u32) -> u32 {
    number(host::write_erase(sequence, out), |length| *packet_len = length as u32)
}

/// Writes an upload of data at an offset; an empty tag is none.
pub fn write_upload(
    sequence: u8,
    data: &[u8],
    off: u64,
    length: u64,
    tag: &[u8],
    out: &mut [u8],
    packet_len: &mut u32,
) -> u32 {
    let written = host::write_upload(sequence, data, off, length, tag, out);
    number(written, |length| *packet_len = length as u32)
}

/// Reads a packet as a reply, to the header's twelve numbers.
pub fn read_reply(packet: &[u8], reply: &mut [u32; 12]) -> u32 {
    number(host::read_reply(packet), |read| {
        let text = read.text.clone().unwrap_or(0..0);
        *reply = [
            read.header.op as u32,
            read.header.flags as u32,
            read.header.length as u32,
            read.header.group as u32,
            read.header.sequence as u32,
            read.header.command as u32,
            read.rc,
            read.off.is_some() as u32,
            read.off.unwrap_or(0),
            read.text.is_some() as u32,
            text.start as u32,
            text.len() as u32,
        ];
    })
}

/// The most data bytes of an upload into an output of this many bytes.
pub fn most_data(out: usize, off: u64, length: u64, tag: usize) -> u32 {
    host::most_data(out, off, length, tag) as u32
}

/// The sequence number after this one.
pub fn next_sequence(sequence: u8) -> u8 {
    host::next_sequence(sequence)
}

/// Finds a recording's first record; `first` is its place, and the number of records.
pub fn first_record(file: &[u8], first: &mut [usize; 2]) -> u32 {
    number(recording::read(file), |(place, records)| *first = [place, records.len()])
}

/// Reads the record at a place; `record` is its first byte, where its line starts and how long that is, or 0 and the place
/// where the records are over.
pub fn next_record(file: &[u8], at: usize, record: &mut [usize; 3]) -> u32 {
    number(recording::next(file, at), |read| {
        *record = match read {
            Some(read) => [read.way as usize, read.line.start, read.line.len()],
            None => [0, at, 0],
        }
    })
}

/// Replays a recording on what is lent; `count` is the number of answers.
#[allow(clippy::too_many_arguments)]
pub fn replay(
    file: &[u8],
    memory: &mut [u8; MEMORY],
    session: &mut [u32; 4],
    tag: &mut [u8; 32],
    reader: &mut [u32; 4],
    packet: &mut [u8; BUFFER],
    reply: &mut [u8; BUFFER],
    answers: &mut [u32],
    count: &mut usize,
) -> u32 {
    let mut bench = Bench { memory, session, tag, reader, packet, reply };
    number(replay::replay(file, &mut bench, answers), |answered| *count = answered)
}

/// Writes the transcript of a replay; `text_len` is its length.
pub fn write_transcript(
    answers: &[u32],
    count: usize,
    session: &[u32; 4],
    out: &mut [u8],
    text_len: &mut usize,
) -> u32 {
    number(replay::write_transcript(answers, count, session, out), |length| *text_len = length)
}

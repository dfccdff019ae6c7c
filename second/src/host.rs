//! The host's end: writes requests, reads replies, counts sequence numbers.

use crate::cbor;
use crate::packet::{self, Header, HEADER, LONGEST};
use crate::refusal::Refusal;
use crate::slot::LARGEST_NUMBER;
use std::ops::Range;

/// Puts a request of op 2 to the start of the output, and gives its length; or refuses 12.
fn put(group: u16, sequence: u8, command: u8, payload: &[u8], out: &mut [u8]) -> Result<usize, Refusal> {
    let length = HEADER + payload.len();
    if length > LONGEST || length > out.len() {
        return Err(Refusal::CannotSend);
    }
    out[..length].copy_from_slice(&packet::build(2, group, sequence, command, payload));
    Ok(length)
}

/// Writes an echo of a text.
pub fn write_echo(sequence: u8, text: &[u8], out: &mut [u8]) -> Result<usize, Refusal> {
    let mut map = Vec::new();
    cbor::write_head(&mut map, cbor::MAP, 1);
    cbor::write_string(&mut map, cbor::TEXT, b"d");
    cbor::write_string(&mut map, cbor::TEXT, text);
    put(0, sequence, 0, &map, out)
}

/// Writes a reset.
pub fn write_reset(sequence: u8, out: &mut [u8]) -> Result<usize, Refusal> {
    put(0, sequence, 5, &[0xA0], out)
}

/// Writes an erase of the slot.
pub fn write_erase(sequence: u8, out: &mut [u8]) -> Result<usize, Refusal> {
    put(1, sequence, 5, &[0xA0], out)
}

/// Writes an upload of data at an offset; at offset 0 with the image's length and its tag, if any.
pub fn write_upload(
    sequence: u8,
    data: &[u8],
    off: u64,
    length: u64,
    tag: &[u8],
    out: &mut [u8],
) -> Result<usize, Refusal> {
    if off > LARGEST_NUMBER || data.is_empty() {
        return Err(Refusal::CannotSend);
    }
    let tagged = off == 0 && !tag.is_empty();
    if off == 0 {
        let bad_length = length == 0 || length > LARGEST_NUMBER || data.len() as u64 > length;
        if bad_length || (tagged && tag.len() != 32) {
            return Err(Refusal::CannotSend);
        }
    }
    let mut map = Vec::new();
    cbor::write_head(&mut map, cbor::MAP, 2 + (off == 0) as u64 + tagged as u64);
    cbor::write_string(&mut map, cbor::TEXT, b"data");
    cbor::write_string(&mut map, cbor::BYTES, data);
    if off == 0 {
        cbor::write_unsigned(&mut map, "len", length);
    }
    cbor::write_unsigned(&mut map, "off", off);
    if tagged {
        cbor::write_string(&mut map, cbor::TEXT, b"sha");
        cbor::write_string(&mut map, cbor::BYTES, tag);
    }
    put(1, sequence, 1, &map, out)
}

/// Says whether an upload with this many data bytes can be written into an output of this many bytes.
fn can_write(data: usize, off: u64, length: u64, tag: usize, room: usize) -> bool {
    let mut out = vec![0; room.min(LONGEST)];
    write_upload(0, &vec![0; data], off, length, &vec![0; tag], &mut out).is_ok()
}

/// The most data bytes that an upload can carry into an output of this many bytes; 0 where it can carry none. Found by
/// halving, with the writer itself: what can be written with n bytes of data can be with fewer, down to one.
pub fn most_data(room: usize, off: u64, length: u64, tag: usize) -> usize {
    if off == 0 && tag != 0 && tag != 32 {
        return 0;
    }
    let (mut fits, mut beyond) = (0, room.min(LONGEST) + 1);
    while beyond - fits > 1 {
        let middle = fits + (beyond - fits) / 2;
        if can_write(middle, off, length, if off == 0 { tag } else { 0 }, room) {
            fits = middle;
        } else {
            beyond = middle;
        }
    }
    fits
}

/// A well-formed reply; the text's place is counted from the packet's first byte.
#[derive(Clone, Debug, PartialEq, Eq)]
pub struct Reply {
    pub header: Header,
    pub rc: u32,
    pub off: Option<u32>,
    pub text: Option<Range<usize>>,
}

/// Reads a packet as a reply, or refuses 10.
pub fn read_reply(packet: &[u8]) -> Result<Reply, Refusal> {
    let header = packet::header(packet).ok_or(Refusal::NotSuchAPacket)?;
    if header.op != 1 && header.op != 3 {
        return Err(Refusal::NotSuchAPacket);
    }
    let malformed = |_| Refusal::NotSuchAPacket;
    let map = cbor::read_map(&packet[HEADER..]).map_err(malformed)?;
    let number = |key| match map.unsigned(key) {
        Ok(Some(number)) => u32::try_from(number).map(Some).map_err(|_| Refusal::NotSuchAPacket),
        Ok(None) => Ok(None),
        Err(_) => Err(Refusal::NotSuchAPacket),
    };
    let text = map.text("r").map_err(malformed)?;
    Ok(Reply {
        header,
        rc: number("rc")?.unwrap_or(0),
        off: number("off")?,
        text: text.map(|place| HEADER + place.start..HEADER + place.end),
    })
}

/// The sequence number after this one: 0 after 255.
pub fn next_sequence(sequence: u8) -> u8 {
    if sequence == 255 {
        0
    } else {
        sequence + 1
    }
}

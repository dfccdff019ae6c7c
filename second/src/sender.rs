//! The sender: cuts a packet's body into frames, and writes one of them as a line.

use crate::base64;
use crate::crc;
use crate::reader::{INITIAL, LINE, PARTIAL};
use crate::refusal::Refusal;

/// The longest body that goes in one frame.
pub const ONE_FRAME: usize = 89;
/// The shortest and the longest body.
pub const BODY: std::ops::RangeInclusive<usize> = 8..=65_533;

/// The frames of a body in order, each with its marker and how many body bytes it carries; the last carries the CRC too.
pub fn cut(body: usize) -> Vec<([u8; 2], usize)> {
    if body <= ONE_FRAME {
        return vec![(INITIAL, body)];
    }
    let mut left = body;
    let first = left.min(91);
    let mut frames = vec![(INITIAL, first)];
    left -= first;
    while left > 91 {
        let next = left.min(93);
        frames.push((PARTIAL, next));
        left -= next;
    }
    frames.push((PARTIAL, left));
    frames
}

/// A frame's raw bytes as a line: marker, text, 0A.
pub fn line(marker: [u8; 2], raw: &[u8]) -> Vec<u8> {
    [&marker[..], &base64::encode(raw), &[0x0A]].concat()
}

/// Writes frame number k of a body to the start of the output; gives its length and the frame count, or refuses 12 or 13.
pub fn send_frame(body: &[u8], k: usize, out: &mut [u8]) -> Result<(usize, usize), Refusal> {
    if out.len() < LINE || !BODY.contains(&body.len()) {
        return Err(Refusal::CannotSend);
    }
    let frames = cut(body.len());
    let (marker, carried) = frames.get(k).copied().ok_or(Refusal::NoSuchFrame)?;
    let before: usize = frames[..k].iter().map(|(_, carried)| carried).sum();
    let mut raw = Vec::with_capacity(93);
    if k == 0 {
        raw.extend_from_slice(&(body.len() as u16 + 2).to_be_bytes());
    }
    raw.extend_from_slice(&body[before..before + carried]);
    if k + 1 == frames.len() {
        raw.extend_from_slice(&crc::crc16(body).to_be_bytes());
    }
    let line = line(marker, &raw);
    out[..line.len()].copy_from_slice(&line);
    Ok((line.len(), frames.len()))
}

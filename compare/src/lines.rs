//! Lines for the reader: cut from bodies, damaged, and noise.

use crate::call::take_line;
use crate::harness::Harness;
use crate::rng::Rng;
use second::{base64, crc, sender};

const INITIAL: [u8; 2] = [6, 9];
const PARTIAL: [u8; 2] = [4, 20];

/// A body's length: at an edge, short, or now and then long.
pub fn body_length(rng: &mut Rng) -> usize {
    match rng.below(40) {
        0..=9 => {
            rng.pick(&[8, 9, 10, 86, 87, 88, 89, 90, 91, 92, 93, 94, 181, 182, 183, 184, 274, 275, 276, 277])
        }
        10..=29 => rng.range(8, 100),
        30..=37 => rng.range(8, 400),
        38 => rng.range(400, 2000),
        _ if rng.once_in(150) => rng.pick(&[65_533, 65_532, 65_531, 40_000, 20_000]),
        _ => rng.range(8, 600),
    }
}

/// The lines of a body, as the sender cuts it.
pub fn sent(body: &[u8]) -> Vec<Vec<u8>> {
    let mut out = [0; 127];
    let frame = |k| {
        let (length, _) = sender::send_frame(body, k, &mut out).expect("a body and a frame of it");
        out[..length].to_vec()
    };
    (0..sender::cut(body.len()).len()).map(frame).collect()
}

/// The lines of a body: as the sender cuts it, or cut anywhere after total.
pub fn cut(rng: &mut Rng, body: &[u8]) -> Vec<Vec<u8>> {
    if rng.once_in(2) {
        return sent(body);
    }
    let mut lines = Vec::new();
    let total = (body.len() as u16 + 2).to_be_bytes();
    let crc = crc::crc16(body).to_be_bytes();
    let raw = [&total[..], body, &crc].concat();
    let most = rng.pick(&[1, 2, 3, 5, 17, 60, 93, 93]).max(raw.len() / 400);
    let mut at = rng.range(2, (2 + most).min(93).min(raw.len()));
    lines.push(sender::line(INITIAL, &raw[..at]));
    while at < raw.len() {
        // The last two bytes are often cut apart.
        let left = raw.len() - at;
        let take = if left <= 3 { rng.range(1, left) } else { rng.range(1, most.min(left).min(93)) };
        lines.push(sender::line(PARTIAL, &raw[at..at + take]));
        at += take;
    }
    lines
}

/// Good groups of a text.
fn groups(rng: &mut Rng, number: usize) -> Vec<u8> {
    base64::encode(&rng.bytes(number * 3))
}

/// A byte that has no value in a text, nor pads one: a line end, near to a character that has, or any.
fn no_value(rng: &mut Rng) -> u8 {
    let byte = match rng.below(4) {
        0 => rng.pick(b"\n\r\r"),
        1 => rng.byte(),
        _ => rng.pick(b"-_.,:;@[`{ *\0\x09\x7F\x80\xC1\xFF"),
    };
    if byte.is_ascii_alphanumeric() || b"+/=".contains(&byte) {
        return b'-';
    }
    byte
}

/// A group at which a text goes wrong, in each of the ways that it can; behind a padded group something more.
fn bad_group(rng: &mut Rng) -> Vec<u8> {
    let mut group = groups(rng, 1);
    match rng.below(13) {
        0..=3 => group[rng.below(4)] = no_value(rng),
        4 => group[0] = b'=',
        5 => group[1] = b'=',
        // The lower four bits of the second, then the lower two of the third.
        6 => {
            group[1] = rng.pick(b"BCPRxz159/");
            group[2..].fill(b'=');
        }
        7 => group[1..3].copy_from_slice(rng.pick(&[b"B=", b"P=", b"/="])),
        8 => {
            group[2] = rng.pick(b"BCDFxz159/");
            group[3] = b'=';
        }
        9 => group[1..3].copy_from_slice(b"A="),
        10 => group[1..].copy_from_slice(&[b'A', b'=', no_value(rng)]),
        _ => {
            group.truncate(1);
            group.extend_from_slice(rng.pick(&[b"A==", b"AA=", b"w==", b"/8="]));
            group.push(rng.pick(b"A/===-"));
            group.extend(groups(rng, 1));
            group.truncate(rng.range(5, 8));
        }
    }
    group
}

/// A text that is not well-formed Base64, or nearly so.
fn bad_text(rng: &mut Rng) -> Vec<u8> {
    let texts: [&[u8]; 24] = [
        b"",
        b"A",
        b"AA",
        b"AAA",
        b"AAAAA",
        b"A===",
        b"====",
        b"AA==AAAA",
        b"AA=A",
        b"A=AA",
        b"=AAA",
        b"AAAA=",
        b"AAAA==",
        b"AAAA====",
        b"Zh==",
        b"Zm9=",
        b"AA-A",
        b"AA_A",
        b"AA A",
        b"AA\nA",
        b"AAA\r",
        b"AA\0A",
        b"AB==",
        b"AAB=",
    ];
    let before = if rng.once_in(4) { rng.pick(&[0, 0, 0, 1, 29, 30]) } else { rng.below(31) };
    let mut text = groups(rng, before);
    match rng.below(14) {
        0 => text.extend_from_slice(rng.pick(&texts)),
        // Only too short.
        1 | 2 => {
            text.extend(groups(rng, 1));
            text.truncate(text.len() - rng.range(1, 3));
        }
        3 => text.extend_from_slice(rng.pick(&[b"AA=", b"Zg="])),
        4 => text.clear(),
        // A good line that ends in 0D 0A.
        5 => text.push(b'\r'),
        // The last group of a full line.
        6 => {
            text = groups(rng, 31);
            text[rng.range(120, 123)] = no_value(rng);
        }
        _ => {
            text.extend(bad_group(rng));
            if before < 29 && rng.once_in(2) {
                let behind = rng.range(1, 29 - before);
                text.extend(groups(rng, behind));
            }
            if rng.once_in(4) {
                let at = rng.below(text.len());
                text[at] = no_value(rng);
            }
        }
    }
    text
}

/// A line with such a text.
pub fn with_bad_text(rng: &mut Rng) -> Vec<u8> {
    let marker = rng.pick(&[INITIAL, PARTIAL]);
    [&marker[..], &bad_text(rng), b"\n"].concat()
}

/// Damages a line in one of the ways that lines are damaged.
pub fn damage(rng: &mut Rng, line: &mut Vec<u8>) {
    let text = line.len().saturating_sub(3);
    match rng.below(12) {
        0 if text > 0 => {
            let at = rng.range(2, 1 + text);
            line[at] = rng.byte();
        }
        1 if !line.is_empty() => {
            let at = rng.below(line.len());
            line[at] ^= 1 << rng.below(8);
        }
        2 if !line.is_empty() => {
            let at = rng.below(line.len());
            line.remove(at);
        }
        3 => {
            let at = rng.range(0, line.len());
            let byte = rng.byte();
            line.insert(at, byte);
        }
        4 => {
            let length = rng.below(line.len() + 1);
            line.truncate(length);
        }
        5 if line.len() > 1 => {
            let marker = rng.pick(&[[6, 9], [4, 20], [6, 20], [4, 9], [9, 6], [0, 0]]);
            line[..2].copy_from_slice(&marker);
        }
        // The text stays well formed and says something else.
        6..=8 if text > 0 => {
            if let Some(mut raw) = base64::decode(&line[2..2 + text]) {
                match rng.below(5) {
                    0 => {
                        let at = rng.below(raw.len());
                        raw[at] ^= 1 << rng.below(8);
                    }
                    1 => raw.truncate(rng.range(1, raw.len())),
                    2 if raw.len() < 93 => raw.push(rng.byte()),
                    3 => {
                        let last = raw.len() - 1;
                        raw[last] = raw[last].wrapping_add(1);
                    }
                    _ => raw[0] = rng.byte(),
                }
                *line = sender::line([line[0], line[1]], &raw);
            }
        }
        9 if text > 1 => {
            let at = 2 + text - 1 - rng.below(2);
            line[at] = b'=';
        }
        10 => *line = with_bad_text(rng),
        _ => line.extend_from_slice(rng.pick(&[&b"\n"[..], b"\r\n", b"AAAA", b"\0"])),
    }
}

/// A line that is not a frame's.
pub fn noise(rng: &mut Rng) -> Vec<u8> {
    match rng.below(5) {
        0 => b"uart:~$ \r\n".to_vec(),
        1 => {
            let length = rng.below(140);
            rng.bytes(length)
        }
        2 => {
            let length = rng.below(140);
            [&rng.bytes(length)[..], b"\n"].concat()
        }
        3 => {
            let length = rng.range(124, 132);
            [&b"\x06\x09"[..], &vec![b'A'; length - 3], b"\n"].concat()
        }
        _ => {
            let length = rng.below(6);
            rng.pick(&[&b"\x06\x09AA\n"[..], b"\x04\x14AAAA\n", b"\x06\x09", b"\n\n\n"])[..]
                .iter()
                .copied()
                .take(length)
                .collect()
        }
    }
}

/// A record: idle, possible, or impossible.
pub fn record(rng: &mut Rng) -> [u32; 4] {
    let total = match rng.below(4) {
        0 => rng.pick(&[10, 11, 12, 65_534, 65_535]),
        1 => rng.range(10, 40) as u32,
        _ => rng.range(10, 300) as u32,
    };
    let come = match rng.below(4) {
        0 => total - 1,
        1 => total - 2,
        2 => total - rng.range(1, 10) as u32,
        _ => rng.below(total as usize) as u32,
    };
    let first = if come == total - 1 || rng.once_in(8) { rng.byte() as u32 } else { 0 };
    let open = if rng.once_in(8) { rng.word() } else { 1 };
    match rng.below(20) {
        0 => [0; 4],
        1 => [0, total, come, first],
        2 => [open, rng.pick(&[0, 1, 2, 9, 65_536, 65_537, u32::MAX]), come, first],
        3 => [open, total, total, first],
        4 => [open, total, rng.pick(&[total + 1, u32::MAX, 0x8000_0000]), first],
        5 => [open, total, come, rng.pick(&[256, 257, 511, u32::MAX])],
        6 => [rng.number() as u32, rng.number() as u32, rng.number() as u32, rng.number() as u32],
        _ => [open, total, come, first],
    }
}

/// One body's lines in a row, with damage, noise and a changing buffer in between.
pub fn history(harness: &mut Harness, rng: &mut Rng) {
    harness.kind("lines: the lines of a body, some damaged");
    let length = body_length(rng);
    let body = rng.bytes(length);
    let room = match rng.below(10) {
        0 => length - 1,
        1 => rng.below(length),
        2..=5 => length,
        _ => length + rng.below(40),
    };
    let mut packet = rng.bytes(room);
    let mut reader = if rng.once_in(3) { record(rng) } else { [0; 4] };
    let mut lines = cut(rng, &body);
    let clean = rng.once_in(2);
    if !clean {
        for _ in 0..rng.range(1, 3) {
            let at = rng.below(lines.len());
            match rng.below(6) {
                0 => lines.insert(at, noise(rng)),
                1 => {
                    lines.remove(at);
                }
                2 => lines.insert(at, lines[at].clone()),
                _ => damage(rng, &mut lines[at]),
            }
            if lines.is_empty() {
                return;
            }
        }
    }
    for line in lines {
        if !clean && rng.once_in(20) {
            match rng.below(4) {
                0 => packet.truncate(rng.range(0, packet.len())),
                1 if !packet.is_empty() => {
                    let at = rng.below(packet.len());
                    packet[at] ^= 1;
                }
                2 => reader[rng.below(4)] = rng.word() >> rng.below(32),
                _ => reader[3] = rng.byte() as u32,
            }
        }
        let outcome = harness.check(take_line(reader, line, packet, [rng.word(), rng.word()]));
        reader = outcome.words[..4].try_into().unwrap();
        packet = outcome.buffers.into_iter().nth(1).unwrap();
    }
}

/// A CRC, now and then with one bit wrong.
fn flawed(rng: &mut Rng, crc: u16) -> u16 {
    if rng.once_in(5) {
        crc ^ 1 << rng.below(16)
    } else {
        crc
    }
}

/// One line, by itself, for any record and any buffer.
pub fn single(harness: &mut Harness, rng: &mut Rng) {
    harness.kind("lines: single, any record and buffer");
    let mut reader = record(rng);
    let mut room = match rng.below(3) {
        0 => (reader[1] as usize).min(300).saturating_sub(rng.below(5)),
        1 => rng.below(300),
        _ => (reader[1] as usize).min(70_000).saturating_sub(2),
    };
    if room > 400 && !rng.once_in(30) {
        room = 400;
    }
    if rng.once_in(16) {
        // The end of a packet so long that its checksum takes every entry of a table by the byte.
        let total = rng.range(3_002, 4_002);
        reader = [1, total as u32, (total - rng.range(1, 93)) as u32, rng.byte() as u32];
        room = total - 2;
    }
    let mut packet = rng.bytes(room);
    let mut line = match rng.below(10) {
        // A whole packet in one line.
        0..=2 => {
            let length = rng.range(8, 89);
            let body = rng.bytes(length);
            let total = (length as u16 + 2).to_be_bytes();
            let crc = flawed(rng, crc::crc16(&body)).to_be_bytes();
            sender::line(INITIAL, &[&total[..], &body, &crc].concat())
        }
        // The beginning of a packet.
        3 => {
            let length = rng.range(0, 93);
            let mut raw = rng.bytes(length);
            if raw.len() >= 2 {
                raw[0] = 0;
                raw[1] = rng.pick(&[0, 1, 2, 8, 9, 10, 11, 12, 50, 92, 93, 94, 200, 255]);
            }
            sender::line(INITIAL, &raw)
        }
        // The rest of the record's packet.
        4..=6 if reader[0] != 0 && (10..=65_535).contains(&reader[1]) && reader[2] < reader[1] => {
            let (total, come) = (reader[1] as usize, reader[2] as usize);
            let left = total - come;
            if left > 93 || total - 2 > packet.len() {
                let length = rng.range(1, left.min(93));
                sender::line(PARTIAL, &rng.bytes(length))
            } else {
                let from = come.min(total - 2);
                let body = rng.bytes(total - 2 - from);
                let crc = flawed(rng, crc::extend(crc::crc16(&packet[..from]), &body)).to_be_bytes();
                let raw = [&body[..], &crc].concat();
                let skip = raw.len() - left;
                if skip == 1 {
                    reader[3] = if rng.once_in(4) { rng.byte() as u32 } else { crc[0] as u32 };
                }
                sender::line(PARTIAL, &raw[skip..])
            }
        }
        4..=7 => {
            let length = rng.range(1, 93);
            sender::line(PARTIAL, &rng.bytes(length))
        }
        8 => with_bad_text(rng),
        _ => noise(rng),
    };
    if rng.once_in(3) {
        damage(rng, &mut line);
    }
    if rng.once_in(50) {
        packet.clear();
    }
    harness.check(take_line(reader, line, packet, [rng.word(), rng.word()]));
}

/// One line with a bad text, for any record.
pub fn bad(harness: &mut Harness, rng: &mut Rng) {
    harness.kind("lines: bad texts");
    let line = with_bad_text(rng);
    let room = rng.below(120);
    harness.check(take_line(record(rng), line, rng.bytes(room), [rng.word(), rng.word()]));
}

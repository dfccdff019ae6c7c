//! Maps for packets: well formed in every head width, and malformed in every way.

use crate::rng::Rng;

/// A value to be written; `Raw` goes out as it is.
#[derive(Clone)]
pub enum Item {
    Unsigned(u64),
    Negative(u64),
    Bytes(Vec<u8>),
    Text(Vec<u8>),
    Raw(Vec<u8>),
}

/// A key and its value.
pub type Pair = (Vec<u8>, Item);

/// Writes a head of the shortest width, or now and then of any that holds the number.
pub fn head(rng: &mut Rng, wide: bool, out: &mut Vec<u8>, major: u8, number: u64) {
    let shortest = match number {
        0..=23 => 0,
        24..=0xFF => 1,
        0x100..=0xFFFF => 2,
        0x1_0000..=0xFFFF_FFFF => 3,
        _ => 4,
    };
    let width = if wide { rng.range(shortest, 4) } else { shortest };
    if width == 0 {
        out.push(major << 5 | number as u8);
        return;
    }
    out.push(major << 5 | (23 + width as u8));
    let bytes = number.to_be_bytes();
    out.extend_from_slice(&bytes[8 - (1 << (width - 1))..]);
}

/// Writes a value.
fn item(rng: &mut Rng, wide: bool, out: &mut Vec<u8>, item: &Item) {
    match item {
        Item::Unsigned(number) => head(rng, wide, out, 0, *number),
        Item::Negative(number) => head(rng, wide, out, 1, *number),
        Item::Bytes(bytes) => {
            head(rng, wide, out, 2, bytes.len() as u64);
            out.extend_from_slice(bytes);
        }
        Item::Text(bytes) => {
            head(rng, wide, out, 3, bytes.len() as u64);
            out.extend_from_slice(bytes);
        }
        Item::Raw(bytes) => out.extend_from_slice(bytes),
    }
}

/// Writes a map with a count of its own.
fn write(rng: &mut Rng, wide: bool, count: u64, pairs: &[Pair]) -> Vec<u8> {
    let mut out = Vec::new();
    head(rng, wide, &mut out, 5, count);
    for (key, value) in pairs {
        item(rng, wide, &mut out, &Item::Text(key.clone()));
        item(rng, wide, &mut out, value);
    }
    out
}

/// A value that an unknown key may have.
fn simple(rng: &mut Rng) -> Item {
    match rng.below(8) {
        0 => Item::Raw(vec![0xF4]),
        1 => Item::Raw(vec![0xF5]),
        2 => Item::Raw(vec![0xF6]),
        3 => Item::Negative(rng.number()),
        4 => {
            let length = rng.below(40);
            Item::Bytes(rng.bytes(length))
        }
        5 => {
            let length = rng.below(40);
            Item::Text(rng.bytes(length))
        }
        _ => Item::Unsigned(rng.number()),
    }
}

/// A value that no key may have.
fn forbidden(rng: &mut Rng) -> Item {
    let values: [&[u8]; 34] = [
        &[0xF7],
        &[0xF0],
        &[0xE0],
        &[0xF3],
        &[0xF8, 0x14],
        &[0xF8, 0x15],
        &[0xF8, 0x16],
        &[0xF8, 0xFF],
        &[0xF9, 0x3E, 0x00],
        &[0xFA, 0x47, 0xC3, 0x50, 0x00],
        &[0xFB, 0x3F, 0xF1, 0x99, 0x99, 0x99, 0x99, 0x99, 0x9A],
        &[0x80],
        &[0x81, 0x00],
        &[0x82, 0x02, 0x03],
        &[0xA0],
        &[0xA1, 0x61, 0x61, 0x01],
        &[0xC0, 0x60],
        &[0xC1, 0x00],
        &[0xD8, 0x18, 0x41, 0x00],
        &[0x5F, 0x41, 0x01, 0xFF],
        &[0x7F, 0x61, 0x61, 0xFF],
        &[0x9F, 0xFF],
        &[0xBF, 0xFF],
        &[0x1C],
        &[0x1D],
        &[0x1E],
        &[0x1F],
        &[0x3C],
        &[0x5C],
        &[0x7D],
        &[0xFF],
        &[0xFC],
        &[0x5B, 0xFF, 0xFF, 0xFF, 0xFF, 0xFF, 0xFF, 0xFF, 0xFF],
        &[0x7B, 0xFF, 0xFF, 0xFF, 0xFF, 0xFF, 0xFF, 0xFF, 0xF8],
    ];
    Item::Raw(rng.pick(&values).to_vec())
}

/// A key of any command, near to one, or any.
fn key(rng: &mut Rng) -> Vec<u8> {
    let keys: [&[u8]; 26] = [
        b"d",
        b"r",
        b"rc",
        b"off",
        b"data",
        b"len",
        b"image",
        b"sha",
        b"upgrade",
        b"slot",
        b"",
        b"D",
        b"Off",
        b"of",
        b"offf",
        b"dat",
        b"data\0",
        b"le",
        b"len ",
        b"upgrad",
        b"upgraded",
        b"force",
        b"x",
        b"y",
        b"\xFF",
        b"sh",
    ];
    match rng.below(8) {
        0 => {
            let length = rng.below(6);
            rng.bytes(length)
        }
        1 if rng.once_in(6) => {
            let length = rng.range(20, 300);
            rng.bytes(length)
        }
        _ => rng.pick(&keys).to_vec(),
    }
}

/// The payload of some known pairs: with other pairs among them, in any order and width, and perhaps malformed.
pub fn payload(rng: &mut Rng, mut pairs: Vec<Pair>, spoil: bool) -> Vec<u8> {
    let known = pairs.len();
    if rng.once_in(3) {
        for _ in 0..rng.range(1, 3) {
            let at = rng.range(0, pairs.len());
            let pair = (key(rng), simple(rng));
            pairs.insert(at, pair);
        }
        if rng.once_in(40) {
            for _ in 0..rng.range(20, 40) {
                pairs.push((key(rng), simple(rng)));
            }
        }
    }
    if rng.once_in(3) && pairs.len() > 1 {
        let (a, b) = (rng.below(pairs.len()), rng.below(pairs.len()));
        pairs.swap(a, b);
    }
    let wide = rng.once_in(3);
    let mut count = pairs.len() as u64;
    let way = if spoil { rng.range(1, 14) } else { 0 };
    match way {
        1 if known > 0 => {
            let again = pairs[rng.below(pairs.len())].clone();
            pairs.insert(rng.range(0, pairs.len()), again);
            count += 1;
        }
        2 if known > 0 => {
            let at = rng.below(pairs.len());
            pairs[at].1 = simple(rng);
        }
        3 => {
            let at = rng.range(0, pairs.len());
            let pair = (key(rng), forbidden(rng));
            pairs.insert(at, pair);
            count += 1;
        }
        4 if known > 0 => {
            let at = rng.below(pairs.len());
            pairs[at].1 = forbidden(rng);
        }
        5 => {
            count = rng.pick(&[count + 1, count.wrapping_sub(1), 0, u64::MAX, 1 << 63, 1 << 32, count + 256])
        }
        6 if known > 0 => {
            pairs.remove(rng.below(pairs.len()));
            count -= 1;
        }
        _ => {}
    }
    let mut out = write(rng, wide, count, &pairs);
    match way {
        7 => out.truncate(rng.below(out.len() + 1)),
        8 => {
            let length = rng.range(1, 9);
            out.extend_from_slice(&rng.bytes(length));
        }
        9 => {
            let at = rng.below(out.len());
            out[at] = rng.byte();
        }
        10 => {
            let at = rng.below(out.len());
            out[at] ^= 1 << rng.below(8);
        }
        11 => {
            let at = rng.below(out.len());
            out.remove(at);
        }
        12 => {
            let at = rng.range(0, out.len());
            let byte = rng.byte();
            out.insert(at, byte);
        }
        13 => {
            out[0] = rng.pick(&[0x00, 0x40, 0x60, 0x80, 0x81, 0xA0, 0xBF, 0xBC, 0xBE, 0xC0, 0xE1, 0xF6, 0xFF])
        }
        14 => {
            // A key that is no text.
            let key = forbidden(rng);
            let key = if rng.once_in(2) { simple(rng) } else { key };
            out = Vec::new();
            head(rng, wide, &mut out, 5, 1);
            item(rng, wide, &mut out, &key);
            out.push(0);
        }
        _ => {}
    }
    out
}

/// A packet with a header over a payload, its length mostly right.
pub fn packet(rng: &mut Rng, op: u8, group: u16, command: u8, payload: &[u8]) -> Vec<u8> {
    let mut length = payload.len() as u16;
    if rng.once_in(60) {
        length = rng.pick(&[
            length.wrapping_add(1),
            length.wrapping_sub(1),
            length.swap_bytes(),
            0,
            length.wrapping_add(8),
        ]);
    }
    let flags = if rng.once_in(3) { rng.byte() } else { 0 };
    let [high, low] = length.to_be_bytes();
    let [group_high, group_low] = group.to_be_bytes();
    let mut packet = vec![op, flags, high, low, group_high, group_low, rng.byte(), command];
    packet.extend_from_slice(payload);
    if rng.once_in(100) {
        packet.truncate(rng.below(packet.len() + 1));
    }
    packet
}

//! The part of CBOR that a packet's map has: heads of any width, strings, integers, false, true and null.

use std::ops::Range;

/// The map is not as the paper says.
#[derive(Clone, Copy, Debug, PartialEq, Eq)]
pub struct Malformed;

/// A value of a map's pair; a string is given by its place in the payload.
#[derive(Clone, Debug, PartialEq, Eq)]
pub enum Value {
    Unsigned(u64),
    Negative,
    Bytes(Range<usize>),
    Text(Range<usize>),
    Bool(bool),
    Null,
}

/// A payload read as a map, its pairs in order.
pub struct Map<'a> {
    payload: &'a [u8],
    pairs: Vec<(Range<usize>, Value)>,
}

/// Reads a head at a place: its major type, its number and the place after it.
fn read_head(payload: &[u8], at: usize) -> Result<(u8, u64, usize), Malformed> {
    let initial = *payload.get(at).ok_or(Malformed)?;
    let width = match initial & 31 {
        small @ 0..=23 => return Ok((initial >> 5, small as u64, at + 1)),
        24 => 1,
        25 => 2,
        26 => 4,
        27 => 8,
        _ => return Err(Malformed),
    };
    let bytes = payload.get(at + 1..at + 1 + width).ok_or(Malformed)?;
    let number = bytes.iter().fold(0, |number, byte| number << 8 | *byte as u64);
    Ok((initial >> 5, number, at + 1 + width))
}

/// The places of a string's bytes, which must end inside the payload.
fn string(payload: &[u8], at: usize, length: u64) -> Result<Range<usize>, Malformed> {
    if length > (payload.len() - at) as u64 {
        return Err(Malformed);
    }
    Ok(at..at + length as usize)
}

/// Reads one value at a place, and gives the place after it.
fn read_value(payload: &[u8], at: usize) -> Result<(Value, usize), Malformed> {
    match payload.get(at) {
        Some(0xF4) => return Ok((Value::Bool(false), at + 1)),
        Some(0xF5) => return Ok((Value::Bool(true), at + 1)),
        Some(0xF6) => return Ok((Value::Null, at + 1)),
        _ => {}
    }
    let (major, number, next) = read_head(payload, at)?;
    match major {
        0 => Ok((Value::Unsigned(number), next)),
        1 => Ok((Value::Negative, next)),
        2 => string(payload, next, number).map(|place| (Value::Bytes(place.clone()), place.end)),
        3 => string(payload, next, number).map(|place| (Value::Text(place.clone()), place.end)),
        _ => Err(Malformed),
    }
}

/// Reads a payload: empty, meaning an empty map, or one definite-length map with text keys and nothing after it.
pub fn read_map(payload: &[u8]) -> Result<Map<'_>, Malformed> {
    let mut pairs = Vec::new();
    if payload.is_empty() {
        return Ok(Map { payload, pairs });
    }
    let (major, count, mut at) = read_head(payload, 0)?;
    if major != 5 {
        return Err(Malformed);
    }
    let mut read = 0;
    while read < count {
        let (key, after_key) = match read_value(payload, at)? {
            (Value::Text(key), after_key) => (key, after_key),
            _ => return Err(Malformed),
        };
        let (value, after_value) = read_value(payload, after_key)?;
        pairs.push((key, value));
        at = after_value;
        read += 1;
    }
    if at != payload.len() {
        return Err(Malformed);
    }
    Ok(Map { payload, pairs })
}

impl Map<'_> {
    /// The pairs in order, each key by its place in the payload.
    pub fn pairs(&self) -> &[(Range<usize>, Value)] {
        &self.pairs
    }

    /// The value of a known key, which occurs at most once.
    fn known(&self, key: &str) -> Result<Option<&Value>, Malformed> {
        let mut found = None;
        for (place, value) in &self.pairs {
            if &self.payload[place.clone()] == key.as_bytes() && found.replace(value).is_some() {
                return Err(Malformed);
            }
        }
        Ok(found)
    }

    /// The number of a known key whose type is unsigned.
    pub fn unsigned(&self, key: &str) -> Result<Option<u64>, Malformed> {
        match self.known(key)? {
            None => Ok(None),
            Some(Value::Unsigned(number)) => Ok(Some(*number)),
            Some(_) => Err(Malformed),
        }
    }

    /// The place of a known key's bytes.
    pub fn bytes(&self, key: &str) -> Result<Option<Range<usize>>, Malformed> {
        match self.known(key)? {
            None => Ok(None),
            Some(Value::Bytes(place)) => Ok(Some(place.clone())),
            Some(_) => Err(Malformed),
        }
    }

    /// The place of a known key's text.
    pub fn text(&self, key: &str) -> Result<Option<Range<usize>>, Malformed> {
        match self.known(key)? {
            None => Ok(None),
            Some(Value::Text(place)) => Ok(Some(place.clone())),
            Some(_) => Err(Malformed),
        }
    }

    /// The truth value of a known key.
    pub fn bool(&self, key: &str) -> Result<Option<bool>, Malformed> {
        match self.known(key)? {
            None => Ok(None),
            Some(Value::Bool(value)) => Ok(Some(*value)),
            Some(_) => Err(Malformed),
        }
    }
}

/// The major types that the writers use.
pub const UNSIGNED: u8 = 0;
pub const BYTES: u8 = 2;
pub const TEXT: u8 = 3;
pub const ARRAY: u8 = 4;
pub const MAP: u8 = 5;

/// Writes a head, the shortest for its number.
pub fn write_head(out: &mut Vec<u8>, major: u8, number: u64) {
    let major = major << 5;
    if number < 24 {
        out.push(major | number as u8);
    } else if number <= 0xFF {
        out.push(major | 24);
        out.push(number as u8);
    } else if number <= 0xFFFF {
        out.push(major | 25);
        out.extend_from_slice(&(number as u16).to_be_bytes());
    } else if number <= 0xFFFF_FFFF {
        out.push(major | 26);
        out.extend_from_slice(&(number as u32).to_be_bytes());
    } else {
        out.push(major | 27);
        out.extend_from_slice(&number.to_be_bytes());
    }
}

/// Writes a string: its head, then its bytes.
pub fn write_string(out: &mut Vec<u8>, major: u8, bytes: &[u8]) {
    write_head(out, major, bytes.len() as u64);
    out.extend_from_slice(bytes);
}

/// Writes a key and an unsigned number.
pub fn write_unsigned(out: &mut Vec<u8>, key: &str, number: u64) {
    write_string(out, TEXT, key.as_bytes());
    write_head(out, UNSIGNED, number);
}

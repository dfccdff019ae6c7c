//! Base64 of RFC 4648, standard alphabet, canonical form only.

const ALPHABET: &[u8; 64] = b"ABCDEFGHIJKLMNOPQRSTUVWXYZabcdefghijklmnopqrstuvwxyz0123456789+/";

/// The six bits that a character stands for, or nothing for a character outside the alphabet.
fn value(character: u8) -> Option<u32> {
    let value = match character {
        b'A'..=b'Z' => character - b'A',
        b'a'..=b'z' => character - b'a' + 26,
        b'0'..=b'9' => character - b'0' + 52,
        b'+' => 62,
        b'/' => 63,
        _ => return None,
    };
    Some(value as u32)
}

/// The bytes of a text: a positive multiple of four characters, `=` only at the end, unused bits zero.
pub fn decode(text: &[u8]) -> Option<Vec<u8>> {
    if text.is_empty() || text.len() % 4 != 0 {
        return None;
    }
    let padding = text.iter().rev().take_while(|c| **c == b'=').count();
    if padding > 2 {
        return None;
    }
    let mut bytes = Vec::with_capacity(text.len() / 4 * 3);
    let mut bits = 0;
    let mut held = 0;
    for character in &text[..text.len() - padding] {
        bits = bits << 6 | value(*character)?;
        held += 6;
        if held >= 8 {
            held -= 8;
            bytes.push((bits >> held) as u8);
            bits &= (1 << held) - 1;
        }
    }
    if bits != 0 {
        return None;
    }
    Some(bytes)
}

/// Says whether some well-formed text begins with this one: whether it becomes one with an ending. Where it has no `=` yet
/// any characters do for the last group, so `A`; behind one `=` of two, the second.
fn begins_a_text(begin: &[u8]) -> bool {
    let endings: [&[u8]; 5] = [b"", b"A", b"AA", b"AAA", b"="];
    let mut whole = endings.iter().filter(|ending| (begin.len() + ending.len()) % 4 == 0);
    whole.any(|ending| decode(&[begin, ending].concat()).is_some())
}

/// The first place of a text that is not well formed at which no well-formed text can begin with what stands up to there,
/// that character too; the text's length where it is only too short.
pub fn fault(text: &[u8]) -> usize {
    // What no text begins with, no text begins with when it is longer: so the places can be searched by halves.
    let lengths: Vec<usize> = (1..=text.len()).collect();
    lengths.partition_point(|length| begins_a_text(&text[..*length]))
}

/// The text of some bytes, with `=` where the last group is short.
pub fn encode(bytes: &[u8]) -> Vec<u8> {
    let mut text = Vec::with_capacity((bytes.len() + 2) / 3 * 4);
    for group in bytes.chunks(3) {
        let second = group.get(1).copied().unwrap_or(0);
        let third = group.get(2).copied().unwrap_or(0);
        let bits = (group[0] as usize) << 16 | (second as usize) << 8 | third as usize;
        text.push(ALPHABET[bits >> 18]);
        text.push(ALPHABET[bits >> 12 & 63]);
        text.push(if group.len() > 1 { ALPHABET[bits >> 6 & 63] } else { b'=' });
        text.push(if group.len() > 2 { ALPHABET[bits & 63] } else { b'=' });
    }
    text
}

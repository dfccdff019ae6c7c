//! The classes of the texts that are refused 4, by what stands at the place that is given.

use super::{recordings::TRANSCRIPTS, Class, Group};
use crate::call::{Call, Outcome};

/// A text that was refused, as far as its class depends on it.
pub struct Text {
    text: Vec<u8>,
    /// The place in the text: its length where it is only too short.
    at: usize,
    /// The line was an initial frame.
    initial: bool,
    /// A packet was open.
    open: bool,
}

/// Says whether a byte is a character of the alphabet.
fn has_value(byte: u8) -> bool {
    byte.is_ascii_alphanumeric() || byte == b'+' || byte == b'/'
}

/// Says whether a byte is neither a character of the alphabet nor `=`.
fn foreign(byte: u8) -> bool {
    !has_value(byte) && byte != b'='
}

impl Text {
    /// What was given for a line with a bad text.
    fn new(line: &[u8], place: u32, open: bool) -> Text {
        let text = line[2..line.len() - 1].to_vec();
        Text { text, at: place as usize - 2, initial: line[0] == 6, open }
    }

    /// Says whether the character at the place is so, and is this of four, from 0.
    fn is(&self, holds: fn(u8) -> bool, column: usize) -> bool {
        self.at % 4 == column && self.text.get(self.at).map_or(false, |byte| holds(*byte))
    }

    /// Says whether `=` stands right before the place.
    fn behind_padding(&self) -> bool {
        self.at > 0 && self.text[self.at - 1] == b'='
    }

    /// Says whether a character of no value stands at the place, and not behind `=`.
    fn no_value(&self) -> bool {
        self.text.get(self.at).map_or(false, |byte| foreign(*byte)) && !self.behind_padding()
    }

    /// Says whether such a character is this of four.
    fn no_value_as(&self, column: usize) -> bool {
        self.no_value() && self.at % 4 == column
    }

    /// Says whether such a character stands in the first or the last of several groups, or in another.
    fn no_value_in(&self, first: bool, last: bool) -> bool {
        let (group, end) = (self.at / 4, self.text.len().saturating_sub(1) / 4);
        self.no_value() && end > 0 && (group == 0) == first && (group == end) == last
    }

    /// Says whether `=` stands too early, as this of four.
    fn early(&self, column: usize) -> bool {
        self.is(|byte| byte == b'=', column) && !self.behind_padding()
    }

    /// Says whether something stands behind a padded group of so many `=`.
    fn behind_group(&self, padding: usize) -> bool {
        self.at % 4 == 0
            && self.at < self.text.len()
            && self.text[..self.at].iter().rev().take_while(|byte| **byte == b'=').count() == padding
    }

    /// Says whether the text is only too short, by so many characters.
    fn short(&self, characters: usize) -> bool {
        self.at == self.text.len() && self.at > 0 && (self.at + characters) % 4 == 0
    }

    /// Says whether this byte stands at the place.
    fn stands(&self, byte: u8) -> bool {
        self.text.get(self.at) == Some(&byte)
    }
}

/// The classes of both; a text may be of several.
const BOTH: [Class<Text>; 32] = [
    ("no value, first of four", |it| it.no_value_as(0)),
    ("no value, second of four", |it| it.no_value_as(1)),
    ("no value, third of four", |it| it.no_value_as(2)),
    ("no value, fourth of four", |it| it.no_value_as(3)),
    ("no value, in the first group", |it| it.no_value_in(true, false)),
    ("no value, in a middle group", |it| it.no_value_in(false, false)),
    ("no value, in the last group", |it| it.no_value_in(false, true)),
    ("no value, in the only group", |it| it.no_value() && it.text.len() <= 4),
    ("no value, in the last group of a full line", |it| it.no_value_in(false, true) && it.text.len() == 124),
    ("no value, and another behind it", |it| {
        it.no_value() && it.text[it.at + 1..].iter().any(|byte| foreign(*byte))
    }),
    ("no value, and the text too short", |it| it.no_value() && it.text.len() % 4 != 0),
    ("= as the first of four", |it| it.early(0)),
    ("= as the second of four", |it| it.early(1)),
    ("unused bits before ==", |it| it.early(2) && it.text[it.at..].starts_with(b"==")),
    ("unused bits before = and no other", |it| it.early(2) && !it.text[it.at..].starts_with(b"==")),
    ("unused bits before =", |it| it.early(3)),
    ("a character of value behind =", |it| it.is(has_value, 3) && it.behind_padding()),
    ("no value behind =", |it| it.is(foreign, 3) && it.behind_padding()),
    ("a character behind a group with =", |it| it.behind_group(1)),
    ("a character behind a group with ==", |it| it.behind_group(2)),
    ("= behind a padded group", |it| it.is(|byte| byte == b'=', 0) && it.behind_padding()),
    ("0A in the text", |it| it.stands(0x0A)),
    ("0D in the text", |it| it.stands(0x0D)),
    ("0D as the last", |it| it.stands(0x0D) && it.at + 1 == it.text.len()),
    ("too short by one", |it| it.short(1)),
    ("too short by two", |it| it.short(2)),
    ("too short by three", |it| it.short(3)),
    ("too short behind =", |it| it.short(1) && it.behind_padding()),
    ("no text", |it| it.text.is_empty()),
    ("in an initial frame, a packet open", |it| it.initial && it.open),
    ("in a partial frame, a packet open", |it| !it.initial && it.open),
    ("in a partial frame, no packet open", |it| !it.initial && !it.open),
];

pub(super) const TAKEN: Group<Text> =
    Group { name: "bg_take_line, refused 4", first: TRANSCRIPTS.end(), classes: &BOTH };

pub(super) const REPLAYED: Group<Text> =
    Group { name: "bg_replay, lines refused 4", first: TAKEN.end(), classes: &BOTH };

/// Adds the numbers of the classes that a line's text is of, where the line was refused 4.
pub fn add(call: &Call, outcome: &Outcome, list: &mut Vec<usize>) {
    if outcome.returned == 4 {
        TAKEN.add(&Text::new(&call.buffers[0], outcome.words[5], call.words[0] != 0), list);
    }
}

/// Adds the numbers of the classes that the text of a replayed line is of, which was refused 4 with this place.
pub fn add_replayed(line: &[u8], place: u32, open: bool, list: &mut Vec<usize>) {
    REPLAYED.add(&Text::new(line, place, open), list);
}

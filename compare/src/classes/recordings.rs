//! The classes of recordings: of files, of their records, of replays and of transcripts.

use super::{frames::FRAMES, starts, texts, Group};
use crate::call::{Call, Outcome};
use second::reader::{self, Taken};
use second::replay::{ANSWER, BUFFER, MEMORY};
use second::{controller, recording};
use std::ops::Range;

/// How a row of records ends.
#[derive(Clone, Copy, PartialEq, Eq)]
enum End {
    /// With the trailer.
    Over,
    /// With a byte that begins no record.
    FirstByte,
    /// With one or two bytes of a record's head.
    CutHead,
    /// With a line that goes so many bytes beyond.
    Beyond(usize),
}

/// The record at a place before the trailer: its first byte and its line, or why there is none.
fn record(before: &[u8], at: usize) -> Result<(u8, Range<usize>), End> {
    match before[at..] {
        [] => Err(End::Over),
        [way @ (0x3E | 0x3C), high, low, ..] => {
            let end = at + 3 + u16::from_be_bytes([high, low]) as usize;
            if end > before.len() {
                return Err(End::Beyond(end - before.len()));
            }
            Ok((way, at + 3..end))
        }
        [0x3E | 0x3C, ..] => Err(End::CutHead),
        _ => Err(End::FirstByte),
    }
}

/// The records from a place on, each by its first byte and its line's length, and how they end.
fn walk(before: &[u8], mut at: usize) -> (Vec<(u8, usize)>, End) {
    let mut records = Vec::new();
    loop {
        match record(before, at) {
            Ok((way, line)) => {
                records.push((way, line.len()));
                at = line.end;
            }
            Err(end) => return (records, end),
        }
    }
}

/// A file, as far as its class depends on it.
pub struct File {
    length: usize,
    /// How many bytes stand before the trailer; its two numbers.
    before: usize,
    distance: usize,
    number: usize,
    /// The records from where the trailer points, and how they end; none where that is beyond the file.
    walked: Option<(Vec<(u8, usize)>, End)>,
    /// The file begins with a record.
    begins_with_record: bool,
    /// It would be a recording with the two numbers swapped, or with a distance of one less or more.
    if_swapped: bool,
    if_one_less: bool,
    if_one_more: bool,
}

impl File {
    /// Looks at a file.
    fn of(file: &[u8]) -> File {
        let before = &file[..file.len().saturating_sub(8)];
        let number = |at: usize| {
            let bytes = file.get(before.len() + at..).and_then(|bytes| bytes.get(..4));
            bytes.map_or(0, |bytes| u32::from_be_bytes(bytes.try_into().unwrap()) as usize)
        };
        let [distance, number] = [number(0), number(4)];
        let from = |distance: usize| before.len().checked_sub(distance).map(|at| walk(before, at));
        let fits = |distance: Option<usize>, number: usize| {
            distance
                .and_then(from)
                .map_or(false, |(records, end)| end == End::Over && records.len() == number)
        };
        File {
            length: file.len(),
            before: before.len(),
            distance,
            number,
            walked: from(distance),
            begins_with_record: record(before, 0).is_ok(),
            if_swapped: fits(Some(number), distance),
            if_one_less: fits(distance.checked_sub(1), number),
            if_one_more: fits(Some(distance + 1), number),
        }
    }

    /// Says whether it has a trailer, whose distance ends in the file, and the records end so.
    fn ends(&self, holds: impl Fn(End) -> bool) -> bool {
        self.length >= 8 && self.walked.as_ref().map_or(false, |(_, end)| holds(*end))
    }

    /// The records, where they end with the trailer.
    fn records(&self) -> Option<&[(u8, usize)]> {
        match &self.walked {
            Some((records, End::Over)) if self.length >= 8 => Some(records),
            _ => None,
        }
    }

    /// Says whether it is a recording.
    fn whole(&self) -> bool {
        self.records().map_or(false, |records| records.len() == self.number)
    }

    /// Says whether it has a trailer and is no recording.
    fn no_recording(&self) -> bool {
        self.length >= 8 && !self.whole()
    }

    /// Says whether it is a recording with records, and these are so.
    fn has(&self, holds: impl Fn(&[(u8, usize)]) -> bool) -> bool {
        self.whole() && self.number > 0 && self.records().map_or(false, holds)
    }

    /// How many records go to the controller.
    fn to_controller(&self) -> usize {
        self.records().map_or(0, |records| records.iter().filter(|(way, _)| *way == 0x3E).count())
    }
}

/// A file that the first record was asked of, and what was returned.
pub struct First {
    file: File,
    returned: u32,
}

pub(super) const FILES: Group<First> = Group {
    name: "bg_first_record",
    first: FRAMES.end(),
    classes: &[
        ("refused 12: under 8 bytes", |it| it.returned == 12 && it.file.length < 8),
        ("refused 12: no bytes", |it| it.returned == 12 && it.file.length == 0),
        ("refused 12: the distance beyond the file", |it| {
            it.returned == 12 && it.file.length >= 8 && it.file.distance > it.file.before
        }),
        ("refused 12: one record less than there are", |it| {
            let there = it.file.records().map(<[_]>::len);
            it.returned == 12 && there == Some(it.file.number + 1)
        }),
        ("refused 12: one record more than there are", |it| {
            let there = it.file.records().map(|records| records.len() + 1);
            it.returned == 12 && there == Some(it.file.number)
        }),
        ("refused 12: another first byte", |it| {
            it.returned == 12 && it.file.ends(|end| end == End::FirstByte)
        }),
        ("refused 12: a cut head", |it| it.returned == 12 && it.file.ends(|end| end == End::CutHead)),
        ("refused 12: a line beyond the trailer", |it| {
            it.returned == 12 && it.file.ends(|end| matches!(end, End::Beyond(_)))
        }),
        ("refused 12: a line one byte into the trailer", |it| {
            it.returned == 12 && it.file.ends(|end| end == End::Beyond(1))
        }),
        ("refused 12: the two numbers swapped", |it| {
            it.returned == 12 && it.file.no_recording() && it.file.if_swapped
        }),
        ("refused 12: the distance one too large", |it| {
            it.returned == 12 && it.file.no_recording() && it.file.if_one_less
        }),
        ("refused 12: the distance one too small", |it| {
            it.returned == 12 && it.file.no_recording() && it.file.if_one_more
        }),
        ("a recording", |it| it.returned == 0 && it.file.whole()),
        ("the trailer alone", |it| it.returned == 0 && it.file.length == 8),
        ("no records behind a preface", |it| it.returned == 0 && it.file.number == 0 && it.file.before > 0),
        ("a preface", |it| it.returned == 0 && it.file.number > 0 && it.file.distance < it.file.before),
        ("a preface that begins with a record", |it| {
            it.returned == 0 && it.file.distance < it.file.before && it.file.begins_with_record
        }),
        ("one record", |it| it.returned == 0 && it.file.number == 1),
        ("both ways", |it| {
            it.file.has(|records| records.iter().any(|(way, _)| *way == 0x3E))
                && it.file.has(|records| records.iter().any(|(way, _)| *way == 0x3C))
        }),
        ("lines from the controller only", |it| {
            it.file.has(|records| records.iter().all(|(way, _)| *way == 0x3C))
        }),
        ("a line of no bytes", |it| it.file.has(|records| records.iter().any(|(_, length)| *length == 0))),
        ("a line over 127 bytes", |it| {
            it.file.has(|records| records.iter().any(|(_, length)| *length > 127))
        }),
    ],
};

/// A record that was asked for, as far as its class depends on it.
pub struct Record {
    length: usize,
    before: usize,
    at: u64,
    /// How the records from the place on end at once, or none where there is one or the place is beyond.
    end: Option<End>,
    /// The file is a recording.
    whole: bool,
    returned: u32,
    /// What was given: the first byte or 0, and the line.
    way: usize,
    line: Range<usize>,
}

impl Record {
    /// Says whether it was refused for such an end.
    fn refused(&self, holds: impl Fn(End) -> bool) -> bool {
        self.returned == 12 && self.length >= 8 && self.end.map_or(false, holds)
    }

    /// Says whether a record was given.
    fn given(&self) -> bool {
        self.returned == 0 && self.way != 0
    }

    /// Says whether it was refused for a place behind the trailer's first byte.
    fn behind(&self) -> bool {
        self.returned == 12 && self.length >= 8 && self.at > self.before as u64
    }
}

pub(super) const RECORDS: Group<Record> = Group {
    name: "bg_next_record",
    first: FILES.end(),
    classes: &[
        ("to the controller", |it| it.returned == 0 && it.way == 0x3E),
        ("from the controller", |it| it.returned == 0 && it.way == 0x3C),
        ("over", |it| it.returned == 0 && it.way == 0),
        ("over, in a file of 8 bytes", |it| it.returned == 0 && it.length == 8),
        ("a line of no bytes", |it| it.given() && it.line.is_empty()),
        ("the last", |it| it.given() && it.line.end == it.before),
        ("in a file that is no recording", |it| it.given() && !it.whole),
        ("over, in a file that is no recording", |it| it.returned == 0 && it.way == 0 && !it.whole),
        ("refused 12: under 8 bytes", |it| it.returned == 12 && it.length < 8),
        ("refused 12: another first byte", |it| it.refused(|end| end == End::FirstByte)),
        ("refused 12: a cut head", |it| it.refused(|end| end == End::CutHead)),
        ("refused 12: a line beyond the trailer", |it| it.refused(|end| matches!(end, End::Beyond(_)))),
        ("refused 12: a line one byte into the trailer", |it| it.refused(|end| end == End::Beyond(1))),
        ("refused 12: a place in the trailer", |it| it.behind() && it.at < it.length as u64),
        ("refused 12: the file's end", |it| it.behind() && it.at == it.length as u64),
        ("refused 12: a place behind the file", |it| it.behind() && it.at > it.length as u64),
        ("refused 12: a place over 32 bits", |it| it.behind() && it.at >> 32 != 0),
        ("refused 12: a place at the end of 64 bits", |it| it.behind() && it.at > u64::MAX - 11),
    ],
};

/// A replay, as far as its class depends on it.
pub struct Replay {
    file: File,
    /// How many numbers there were for answers.
    room: usize,
    returned: u32,
    answers: Vec<[u32; ANSWER]>,
    session: [u32; 4],
    reader_open: bool,
    /// The upload slot has been written.
    written: bool,
    /// The last reply lists an image.
    listed: bool,
}

impl Replay {
    /// Says whether one of its answers is this.
    fn answers(&self, answer: [u32; ANSWER]) -> bool {
        self.returned == 0 && self.answers.contains(&answer)
    }

    /// Says whether it was done and left a session open.
    fn open(&self) -> bool {
        self.returned == 0 && self.session[0] != 0
    }
}

pub(super) const REPLAYS: Group<Replay> = Group {
    name: "bg_replay",
    first: RECORDS.end(),
    classes: &[
        ("refused 12: no recording", |it| it.returned == 12 && !it.file.whole()),
        ("refused 12: one number short", |it| {
            it.returned == 12 && it.file.whole() && it.room + 1 == ANSWER * it.file.number
        }),
        ("refused 12: room for the lines to the controller only", |it| {
            it.returned == 12 && it.file.whole() && it.room == ANSWER * it.file.to_controller()
        }),
        ("room for each record", |it| it.returned == 0 && it.room == ANSWER * it.file.number),
        ("more room", |it| it.returned == 0 && it.room > ANSWER * it.file.number),
        ("no records", |it| it.returned == 0 && it.file.number == 0),
        ("lines from the controller only", |it| {
            it.returned == 0 && it.file.number > 0 && it.answers.is_empty()
        }),
        ("both ways", |it| it.returned == 0 && !it.answers.is_empty() && it.answers.len() < it.file.number),
        ("a preface", |it| it.returned == 0 && !it.answers.is_empty() && it.file.distance < it.file.before),
        ("more", |it| it.answers([0, 0, 0, 0])),
        ("a line refused 2", |it| it.answers([2, 0, 0, 0])),
        ("a line refused 3", |it| it.answers([3, 0, 0, 0])),
        ("a line refused 4", |it| it.answers.iter().any(|answer| answer[0] == 4)),
        ("a line refused 5", |it| it.answers([5, 0, 0, 0])),
        ("a line refused 6", |it| it.answers([6, 0, 0, 0])),
        ("a line refused 7", |it| it.answers([7, 0, 0, 0])),
        ("a line refused 8", |it| it.answers([8, 0, 0, 0])),
        ("a line refused 9", |it| it.answers([9, 0, 0, 0])),
        ("a packet refused 10", |it| it.answers([10, 0, 0, 0])),
        ("rc 0", |it| it.answers([0, 1, 0, 0])),
        ("rc 2", |it| it.answers([0, 1, 2, 0])),
        ("rc 3", |it| it.answers([0, 1, 3, 0])),
        ("rc 6", |it| it.answers([0, 1, 6, 0])),
        ("rc 8", |it| it.answers([0, 1, 8, 0])),
        ("an image listed", |it| it.returned == 0 && it.listed),
        ("open at the end", Replay::open),
        ("open at the end, all has come", |it| it.open() && it.session[1] == it.session[2]),
        ("open at the end, more to come", |it| it.open() && it.session[1] != it.session[2]),
        ("open at the end, with a tag", |it| it.open() && it.session[3] != 0),
        ("closed at the end", |it| it.returned == 0 && it.session[0] == 0),
        ("closed at the end by a reset", |it| it.returned == 0 && it.session[0] == 0 && it.written),
        ("a packet open at the end", |it| it.returned == 0 && it.reader_open),
        ("an answer behind a refusal", |it| {
            let refused = it.answers.iter().position(|answer| answer[0] != 0);
            let replied = it.answers.iter().rposition(|answer| answer[1] == 1);
            it.returned == 0 && refused.is_some() && refused < replied
        }),
    ],
};

/// A transcript, as far as its class depends on it.
pub struct Transcript {
    /// How many answers were asked for, and how many numbers there were.
    count: u64,
    numbers: usize,
    room: usize,
    returned: u32,
    /// The text's length, where there are enough numbers.
    needed: Option<usize>,
    answers: Vec<[u32; ANSWER]>,
    session: [u32; 4],
}

impl Transcript {
    /// How many numbers so many answers have.
    fn wanted(&self) -> u128 {
        ANSWER as u128 * self.count as u128
    }

    /// Says whether it was refused for too few numbers.
    fn few(&self) -> bool {
        self.returned == 12 && self.needed.is_none()
    }

    /// Says whether it was written, and one of its answers is so.
    fn has(&self, holds: impl Fn(&[u32; ANSWER]) -> bool) -> bool {
        self.returned == 0 && self.answers.iter().any(holds)
    }
}

pub(super) const TRANSCRIPTS: Group<Transcript> = Group {
    name: "bg_write_transcript",
    first: REPLAYS.end(),
    classes: &[
        ("refused 12: one number short", |it| it.few() && it.numbers as u128 + 1 == it.wanted()),
        ("refused 12: one answer short", |it| it.few() && (it.numbers + ANSWER) as u128 == it.wanted()),
        ("refused 12: no numbers", |it| it.few() && it.numbers == 0),
        ("refused 12: four times the count over 64 bits", |it| it.few() && it.wanted() >> 64 != 0),
        ("refused 12: enough numbers but for what is over 64 bits", |it| {
            it.few() && it.numbers as u64 >= it.wanted() as u64
        }),
        ("refused 12: a count from 2^63 on", |it| it.few() && it.count >> 63 != 0),
        ("refused 12: one byte short", |it| {
            it.returned == 12 && it.needed.map_or(false, |needed| needed == it.room + 1)
        }),
        ("refused 12: no output", |it| it.returned == 12 && it.needed.is_some() && it.room == 0),
        ("room for the text", |it| it.returned == 0 && it.needed == Some(it.room)),
        ("more room", |it| it.returned == 0 && it.needed < Some(it.room)),
        ("more answers", |it| it.returned == 0 && it.numbers as u128 >= it.wanted() + ANSWER as u128),
        ("no answers", |it| it.returned == 0 && it.count == 0),
        ("ten answers or more", |it| it.returned == 0 && it.count >= 10),
        ("a hundred answers or more", |it| it.returned == 0 && it.count >= 100),
        ("no reply", |it| it.has(|answer| answer[1] == 0)),
        ("no reply, but a number for its rc", |it| it.has(|answer| answer[1] == 0 && answer[2] != 0)),
        ("no reply, but a place", |it| it.has(|answer| answer[1] == 0 && answer[3] != 0)),
        ("an rc", |it| it.has(|answer| answer[1] == 1)),
        ("an rc, by another number than 1", |it| it.has(|answer| answer[1] > 1)),
        ("a refusal and an rc", |it| it.has(|answer| answer[0] != 0 && answer[1] != 0)),
        ("a refusal of ten digits", |it| it.has(|answer| answer[0] >= 1_000_000_000)),
        ("an rc of ten digits", |it| it.has(|answer| answer[1] != 0 && answer[2] >= 1_000_000_000)),
        ("the largest number", |it| it.has(|answer| answer[0] == u32::MAX)),
        ("end none", |it| it.returned == 0 && it.session[0] == 0),
        ("end none, but a place", |it| it.returned == 0 && it.session[0] == 0 && it.session[2] != 0),
        ("end and a place", |it| it.returned == 0 && it.session[0] != 0),
        ("end and a place, by another number than 1", |it| it.returned == 0 && it.session[0] > 1),
        ("end and 0", |it| it.returned == 0 && it.session[0] != 0 && it.session[2] == 0),
        ("end and a place of ten digits", |it| {
            it.returned == 0 && it.session[0] != 0 && it.session[2] >= 1_000_000_000
        }),
    ],
};

/// Adds the numbers of the classes that a file is of whose first record was asked for.
pub fn add_file(call: &Call, outcome: &Outcome, list: &mut Vec<usize>) {
    FILES.add(&First { file: File::of(&call.buffers[0]), returned: outcome.returned }, list);
}

/// Adds the numbers of the classes that a record is of.
pub fn add_record(call: &Call, outcome: &Outcome, list: &mut Vec<usize>) {
    let file = &call.buffers[0];
    let before = &file[..file.len().saturating_sub(8)];
    let at = call.numbers[0];
    let end = if at <= before.len() as u64 { record(before, at as usize).err() } else { None };
    let [way, start, length]: [usize; 3] = outcome.sizes[..].try_into().unwrap();
    let given = outcome.returned == 0;
    let record = Record {
        length: file.len(),
        before: before.len(),
        at,
        end,
        whole: File::of(file).whole(),
        returned: outcome.returned,
        way,
        line: if given { start..start + length } else { 0..0 },
    };
    RECORDS.add(&record, list);
}

/// The first answers among the numbers of a call.
fn answers(numbers: &[u32], count: usize) -> Vec<[u32; ANSWER]> {
    numbers.chunks_exact(ANSWER).take(count).map(|answer| answer.try_into().unwrap()).collect()
}

/// Adds the numbers of the classes that the lines of a replay are of, by feeding them once more, with their answers.
fn add_lines(file: &[u8], answers: &[[u32; ANSWER]], list: &mut Vec<usize>) {
    let (mut memory, mut packet, mut reply) = ([255; MEMORY], [0; BUFFER], [0; BUFFER]);
    let (mut session, mut tag, mut reader) = ([0; 4], [0; 32], [0; 4]);
    let (_, records) = recording::read(file).expect("a recording, since it was replayed");
    let lines = records.iter().filter(|record| record.way == recording::Way::ToController);
    for (record, [refusal, replied, rc, place]) in lines.zip(answers) {
        let line = &file[record.line.clone()];
        if *refusal == 4 {
            texts::add_replayed(line, *place, reader[0] != 0, list);
            reader = [0; 4];
            continue;
        }
        if let Ok(Taken::Complete(length)) = reader::take_line(&mut reader, line, &mut packet) {
            let packet = &packet[..length];
            if *replied == 1 {
                starts::add_replayed(packet, (MEMORY / 2) as u64, session, &tag, *rc, list);
            }
            let layout = [0, MEMORY / 2, MEMORY / 2, MEMORY / 2];
            let handled =
                controller::handle(&layout, &mut memory, &mut session, &mut tag, packet, &mut reply);
            assert_eq!(handled.is_ok(), *replied == 1);
        }
    }
}

/// Adds the numbers of the classes that a replay is of.
pub fn add_replay(call: &Call, outcome: &Outcome, list: &mut Vec<usize>) {
    let done = outcome.returned == 0;
    let replay = Replay {
        file: File::of(&call.buffers[0]),
        room: call.words.len() - 8,
        returned: outcome.returned,
        answers: answers(&outcome.words[8..], if done { outcome.sizes[0] } else { 0 }),
        session: outcome.words[..4].try_into().unwrap(),
        reader_open: outcome.words[4] != 0,
        written: done && outcome.buffers[1][4096] != 255,
        listed: done && outcome.buffers[4][8..].starts_with(b"\xA1\x66images\x81"),
    };
    REPLAYS.add(&replay, list);
    if !replay.answers.is_empty() {
        add_lines(&call.buffers[0], &replay.answers, list);
    }
}

/// How many digits a number has.
fn digits(number: u64) -> usize {
    number.to_string().len()
}

/// Adds the numbers of the classes that a transcript is of.
pub fn add_transcript(call: &Call, outcome: &Outcome, list: &mut Vec<usize>) {
    let (session, numbers) = call.words.split_at(4);
    let count = call.numbers[0];
    let enough = ANSWER as u128 * count as u128 <= numbers.len() as u128;
    let answers = if enough { answers(numbers, count as usize) } else { vec![] };
    let line = |(k, answer): (usize, &[u32; ANSWER])| {
        let rc = if answer[1] != 0 { digits(answer[2] as u64) } else { 1 };
        digits(k as u64) + 1 + digits(answer[0] as u64) + 1 + rc + 1
    };
    let end = if session[0] != 0 { digits(session[2] as u64) } else { 4 };
    let needed = answers.iter().enumerate().map(line).sum::<usize>() + 4 + end + 1;
    let transcript = Transcript {
        count,
        numbers: numbers.len(),
        room: call.buffers[0].len(),
        returned: outcome.returned,
        needed: enough.then_some(needed),
        answers,
        session: session.try_into().unwrap(),
    };
    TRANSCRIPTS.add(&transcript, list);
}

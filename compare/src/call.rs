//! A call of the port as plain values, so that it can be made of either program, compared, shrunk and printed.

use crate::archive::{self, Place};
use second::port;
use std::fmt::Write;
use std::ops::Range;

/// The calls of the C header.
#[derive(Clone, Copy, Debug, PartialEq, Eq)]
pub enum Kind {
    Collect,
    TakeLine,
    SendFrame,
    Configure,
    Handle,
    WriteEcho,
    WriteReset,
    WriteErase,
    WriteUpload,
    ReadReply,
    NextSequence,
    MostData,
    FirstRecord,
    NextRecord,
    Replay,
    WriteTranscript,
}

/// The length of an array of words that takes all that are there behind the others.
const ALL: usize = usize::MAX;

/// The names of a call's parameters: numbers passed by value, arrays of 32-bit words, the array of sizes that it fills, if
/// any, and lent buffers.
pub struct Shape {
    pub name: &'static str,
    pub numbers: &'static [&'static str],
    words: &'static [(&'static str, usize)],
    pub sizes: Option<&'static str>,
    pub buffers: &'static [&'static str],
}

impl Shape {
    /// The arrays among so many words: each one's name and place, and whether its length is passed beside it.
    pub fn arrays(&self, words: usize) -> Vec<(&'static str, Range<usize>, bool)> {
        let mut at = 0;
        let array = |(name, length): &(&'static str, usize)| {
            let start = at;
            at = if *length == ALL { words } else { at + length };
            (*name, start..at, *length == ALL)
        };
        self.words.iter().map(array).collect()
    }
}

impl Kind {
    /// The names of this call's parameters.
    pub fn shape(self) -> Shape {
        let sizes = match self {
            Kind::FirstRecord => Some("first"),
            Kind::NextRecord => Some("record"),
            Kind::Replay => Some("count"),
            Kind::WriteTranscript => Some("text_len"),
            _ => None,
        };
        let (name, numbers, words, buffers): (_, &[_], &[_], &[_]) = match self {
            Kind::Collect => {
                ("bg_collect", &["at"], &[("collector", 2), ("got", 2)], &["held", "lump", "line"])
            }
            Kind::TakeLine => {
                ("bg_take_line", &[], &[("reader", 4), ("body", 1), ("place", 1)], &["line", "packet"])
            }
            Kind::SendFrame => ("bg_send_frame", &["k"], &[("sent", 2)], &["body", "out"]),
            Kind::Configure => (
                "bg_configure",
                &["layout[0]", "layout[1]", "layout[2]", "layout[3]", "memory_len"],
                &[("session", 4)],
                &["tag"],
            ),
            Kind::Handle => (
                "bg_handle",
                &["layout[0]", "layout[1]", "layout[2]", "layout[3]"],
                &[("session", 4), ("answer", 2)],
                &["memory", "tag", "packet", "reply"],
            ),
            Kind::WriteEcho => ("bg_write_echo", &["sequence"], &[("packet_len", 1)], &["text", "out"]),
            Kind::WriteReset => ("bg_write_reset", &["sequence"], &[("packet_len", 1)], &["out"]),
            Kind::WriteErase => ("bg_write_erase", &["sequence"], &[("packet_len", 1)], &["out"]),
            Kind::WriteUpload => (
                "bg_write_upload",
                &["sequence", "off", "length"],
                &[("packet_len", 1)],
                &["data", "tag", "out"],
            ),
            Kind::ReadReply => ("bg_read_reply", &[], &[("reply", 12)], &["packet"]),
            Kind::NextSequence => ("bg_next_sequence", &["sequence"], &[], &[]),
            Kind::MostData => ("bg_most_data", &["out_len", "off", "length", "tag_len"], &[], &[]),
            Kind::FirstRecord => ("bg_first_record", &[], &[], &["file"]),
            Kind::NextRecord => ("bg_next_record", &["at"], &[], &["file"]),
            Kind::Replay => (
                "bg_replay",
                &[],
                &[("session", 4), ("reader", 4), ("answers", ALL)],
                &["file", "memory", "tag", "packet", "reply"],
            ),
            Kind::WriteTranscript => {
                ("bg_write_transcript", &["count"], &[("session", 4), ("answers", ALL)], &["out"])
            }
        };
        Shape { name, numbers, words, sizes, buffers }
    }

    /// Says whether the first four numbers are lent together, as the layout.
    pub fn has_layout(self) -> bool {
        matches!(self, Kind::Configure | Kind::Handle)
    }

    /// Says whether a buffer always has the same length: the session's tag, the collector's held bytes and line, and what a
    /// recording is replayed on.
    pub fn is_fixed(self, buffer: usize) -> bool {
        matches!(
            (self, buffer),
            (Kind::Configure, 0) | (Kind::Handle, 1) | (Kind::Collect, 0 | 2) | (Kind::Replay, 1..=4)
        )
    }
}

/// The start and size of slot 0, then of the upload slot.
pub type Layout = [u64; 4];

/// A call with everything it is lent, in the order of its shape.
#[derive(Clone, PartialEq, Eq)]
pub struct Call {
    pub kind: Kind,
    pub numbers: Vec<u64>,
    pub words: Vec<u32>,
    pub sizes: Vec<usize>,
    pub buffers: Vec<Vec<u8>>,
}

/// What a call returned, and everything lent as it is afterwards.
#[derive(Clone, PartialEq, Eq)]
pub struct Outcome {
    pub returned: u32,
    pub words: Vec<u32>,
    pub sizes: Vec<usize>,
    pub buffers: Vec<Vec<u8>>,
    /// What the call wrote that it was not lent.
    pub fault: Option<String>,
}

/// Makes a step through a lump.
pub fn collect(
    collector: [u32; 2],
    held: [u8; 126],
    lump: Vec<u8>,
    at: u64,
    line: [u8; 127],
    got: [u32; 2],
) -> Call {
    Call {
        kind: Kind::Collect,
        numbers: vec![at],
        words: [collector, got].concat(),
        sizes: vec![],
        buffers: vec![held.to_vec(), lump, line.to_vec()],
    }
}

/// Takes a line; body and place are these at first.
pub fn take_line(reader: [u32; 4], line: Vec<u8>, packet: Vec<u8>, body_and_place: [u32; 2]) -> Call {
    Call {
        kind: Kind::TakeLine,
        numbers: vec![],
        words: [&reader[..], &body_and_place].concat(),
        sizes: vec![],
        buffers: vec![line, packet],
    }
}

/// Sends a frame.
pub fn send_frame(body: Vec<u8>, k: u64, out: Vec<u8>, sent: [u32; 2]) -> Call {
    Call {
        kind: Kind::SendFrame,
        numbers: vec![k],
        words: sent.to_vec(),
        sizes: vec![],
        buffers: vec![body, out],
    }
}

/// Configures the two slots.
pub fn configure([a, b, c, d]: Layout, memory: u64, session: [u32; 4], tag: [u8; 32]) -> Call {
    Call {
        kind: Kind::Configure,
        numbers: vec![a, b, c, d, memory],
        words: session.to_vec(),
        sizes: vec![],
        buffers: vec![tag.to_vec()],
    }
}

/// Handles a request.
pub fn handle(
    layout: Layout,
    memory: Vec<u8>,
    session: [u32; 4],
    tag: [u8; 32],
    packet: Vec<u8>,
    reply: Vec<u8>,
    answer: [u32; 2],
) -> Call {
    let [a, b, c, d] = session;
    Call {
        kind: Kind::Handle,
        numbers: layout.to_vec(),
        words: vec![a, b, c, d, answer[0], answer[1]],
        sizes: vec![],
        buffers: vec![memory, tag.to_vec(), packet, reply],
    }
}

/// Writes an echo.
pub fn write_echo(sequence: u8, text: Vec<u8>, out: Vec<u8>, packet_len: u32) -> Call {
    Call {
        kind: Kind::WriteEcho,
        numbers: vec![sequence as u64],
        words: vec![packet_len],
        sizes: vec![],
        buffers: vec![text, out],
    }
}

/// Writes a reset or an erase.
pub fn write_plain(kind: Kind, sequence: u8, out: Vec<u8>, packet_len: u32) -> Call {
    Call { kind, numbers: vec![sequence as u64], words: vec![packet_len], sizes: vec![], buffers: vec![out] }
}

/// Writes an upload.
pub fn write_upload(
    sequence: u8,
    data: Vec<u8>,
    off: u64,
    length: u64,
    tag: Vec<u8>,
    out: Vec<u8>,
    packet_len: u32,
) -> Call {
    Call {
        kind: Kind::WriteUpload,
        numbers: vec![sequence as u64, off, length],
        words: vec![packet_len],
        sizes: vec![],
        buffers: vec![data, tag, out],
    }
}

/// Reads a reply.
pub fn read_reply(packet: Vec<u8>, reply: [u32; 12]) -> Call {
    Call {
        kind: Kind::ReadReply,
        numbers: vec![],
        words: reply.to_vec(),
        sizes: vec![],
        buffers: vec![packet],
    }
}

/// Counts a sequence number on.
pub fn next_sequence(sequence: u8) -> Call {
    Call {
        kind: Kind::NextSequence,
        numbers: vec![sequence as u64],
        words: vec![],
        sizes: vec![],
        buffers: vec![],
    }
}

/// Asks for the most data of an upload.
pub fn most_data(out: u64, off: u64, length: u64, tag: u64) -> Call {
    Call {
        kind: Kind::MostData,
        numbers: vec![out, off, length, tag],
        words: vec![],
        sizes: vec![],
        buffers: vec![],
    }
}

/// Finds the first record of a file.
pub fn first_record(file: Vec<u8>, first: [usize; 2]) -> Call {
    Call {
        kind: Kind::FirstRecord,
        numbers: vec![],
        words: vec![],
        sizes: first.to_vec(),
        buffers: vec![file],
    }
}

/// Reads the record at a place of a file.
pub fn next_record(file: Vec<u8>, at: u64, record: [usize; 3]) -> Call {
    Call {
        kind: Kind::NextRecord,
        numbers: vec![at],
        words: vec![],
        sizes: record.to_vec(),
        buffers: vec![file],
    }
}

/// What a recording is replayed on: the controller's memory, its session and tag, the reader, and the two buffers.
#[derive(Clone)]
pub struct Bench {
    pub memory: Vec<u8>,
    pub session: [u32; 4],
    pub tag: [u8; 32],
    pub reader: [u32; 4],
    pub packet: Vec<u8>,
    pub reply: Vec<u8>,
}

/// Replays a file.
pub fn replay(file: Vec<u8>, bench: Bench, answers: Vec<u32>, count: usize) -> Call {
    let Bench { memory, session, tag, reader, packet, reply } = bench;
    Call {
        kind: Kind::Replay,
        numbers: vec![],
        words: [&session[..], &reader, &answers].concat(),
        sizes: vec![count],
        buffers: vec![file, memory, tag.to_vec(), packet, reply],
    }
}

/// Writes the transcript of so many answers.
pub fn write_transcript(
    answers: Vec<u32>,
    count: u64,
    session: [u32; 4],
    out: Vec<u8>,
    text_len: usize,
) -> Call {
    Call {
        kind: Kind::WriteTranscript,
        numbers: vec![count],
        words: [&session[..], &answers].concat(),
        sizes: vec![text_len],
        buffers: vec![out],
    }
}

/// The layout of a call that has one.
pub fn layout_of(call: &Call) -> Layout {
    call.numbers[..4].try_into().unwrap()
}

/// Makes a call of the second program.
pub fn by_second(call: &Call) -> Outcome {
    let numbers = &call.numbers;
    let mut words = call.words.clone();
    let mut sizes = call.sizes.clone();
    let mut buffers = call.buffers.clone();
    let returned = match (call.kind, &mut words[..], &mut buffers[..]) {
        (Kind::Collect, words, [held, lump, line]) => {
            let (collector, got) = words.split_at_mut(2);
            port::collect(
                collector.try_into().unwrap(),
                held[..].as_mut().try_into().unwrap(),
                lump,
                numbers[0] as usize,
                line[..].as_mut().try_into().unwrap(),
                got.try_into().unwrap(),
            )
        }
        (Kind::TakeLine, [reader @ .., body, place], [line, packet]) => {
            port::take_line(reader.try_into().unwrap(), line, packet, body, place)
        }
        (Kind::SendFrame, sent, [body, out]) => {
            port::send_frame(body, numbers[0] as usize, out, sent.try_into().unwrap())
        }
        (Kind::Configure, session, [tag]) => port::configure(
            &layout_of(call).map(|number| number as usize),
            numbers[4] as usize,
            session.try_into().unwrap(),
            tag[..].as_mut().try_into().unwrap(),
        ),
        (Kind::Handle, words, [memory, tag, packet, reply]) => {
            let (session, answer) = words.split_at_mut(4);
            port::handle(
                &layout_of(call).map(|number| number as usize),
                memory,
                session.try_into().unwrap(),
                tag[..].as_mut().try_into().unwrap(),
                packet,
                reply,
                answer.try_into().unwrap(),
            )
        }
        (Kind::WriteEcho, [length], [text, out]) => port::write_echo(numbers[0] as u8, text, out, length),
        (Kind::WriteReset, [length], [out]) => port::write_reset(numbers[0] as u8, out, length),
        (Kind::WriteErase, [length], [out]) => port::write_erase(numbers[0] as u8, out, length),
        (Kind::WriteUpload, [length], [data, tag, out]) => {
            port::write_upload(numbers[0] as u8, data, numbers[1], numbers[2], tag, out, length)
        }
        (Kind::ReadReply, reply, [packet]) => port::read_reply(packet, reply.try_into().unwrap()),
        (Kind::NextSequence, ..) => port::next_sequence(numbers[0] as u8) as u32,
        (Kind::MostData, ..) => {
            port::most_data(numbers[0] as usize, numbers[1], numbers[2], numbers[3] as usize)
        }
        (Kind::FirstRecord, _, [file]) => port::first_record(file, sizes[..].as_mut().try_into().unwrap()),
        (Kind::NextRecord, _, [file]) => {
            port::next_record(file, numbers[0] as usize, sizes[..].as_mut().try_into().unwrap())
        }
        (Kind::Replay, words, [file, memory, tag, packet, reply]) => {
            let (session, words) = words.split_at_mut(4);
            let (reader, answers) = words.split_at_mut(4);
            port::replay(
                file,
                memory[..].as_mut().try_into().unwrap(),
                session.try_into().unwrap(),
                tag[..].as_mut().try_into().unwrap(),
                reader.try_into().unwrap(),
                packet[..].as_mut().try_into().unwrap(),
                reply[..].as_mut().try_into().unwrap(),
                answers,
                &mut sizes[0],
            )
        }
        (Kind::WriteTranscript, words, [out]) => {
            let (session, answers) = words.split_at(4);
            port::write_transcript(
                answers,
                numbers[0] as usize,
                session.try_into().unwrap(),
                out,
                &mut sizes[0],
            )
        }
        _ => unreachable!("a call has the parameters of its shape"),
    };
    Outcome { returned, words, sizes, buffers, fault: None }
}

/// Makes a call of both programs, of the archive once for each place of what is lent; gives both outcomes where they
/// differ, else the one.
pub fn compare(call: &Call, places: &[Place]) -> Result<Outcome, Box<(Outcome, Outcome)>> {
    let second = by_second(call);
    for place in places {
        let archive = archive::call(call, *place);
        if archive != second {
            return Err(Box::new((archive, second)));
        }
    }
    Ok(second)
}

/// Bytes in hex, or where there are many their number and the runs of equal bytes.
fn hex(bytes: &[u8]) -> String {
    let mut text = format!("{} bytes:", bytes.len());
    let mut at = 0;
    while at < bytes.len() {
        let run = bytes[at..].iter().take_while(|byte| **byte == bytes[at]).count();
        if run > 16 {
            write!(text, " {:02X}*{run}", bytes[at]).unwrap();
            at += run;
        } else {
            write!(text, " {:02X}", bytes[at]).unwrap();
            at += 1;
        }
        if text.len() > 20_000 {
            write!(text, " .. ({} more)", bytes.len() - at).unwrap();
            break;
        }
    }
    text
}

/// A call and what it is lent, to be read by a person.
pub fn show(call: &Call) -> String {
    let shape = call.kind.shape();
    let mut text = format!("{}\n", shape.name);
    for (name, number) in shape.numbers.iter().zip(&call.numbers) {
        writeln!(text, "  {name} = {number}").unwrap();
    }
    for (name, place, _) in shape.arrays(call.words.len()) {
        writeln!(text, "  {name} = {:?}", &call.words[place]).unwrap();
    }
    if let Some(name) = shape.sizes {
        writeln!(text, "  {name} = {:?}", call.sizes).unwrap();
    }
    for (name, buffer) in shape.buffers.iter().zip(&call.buffers) {
        writeln!(text, "  {name}: {}", hex(buffer)).unwrap();
    }
    text
}

/// What two outcomes of a call have that is not the same.
pub fn show_difference(call: &Call, archive: &Outcome, second: &Outcome) -> String {
    let shape = call.kind.shape();
    let mut text = format!("  returned: archive {}, second {}\n", archive.returned, second.returned);
    for (name, place, _) in shape.arrays(call.words.len()) {
        let (a, b) = (&archive.words[place.clone()], &second.words[place]);
        if a != b {
            writeln!(text, "  {name} afterwards: archive {a:?}, second {b:?}").unwrap();
        }
    }
    if let (Some(name), true) = (shape.sizes, archive.sizes != second.sizes) {
        let (a, b) = (&archive.sizes, &second.sizes);
        writeln!(text, "  {name} afterwards: archive {a:?}, second {b:?}").unwrap();
    }
    for (i, name) in shape.buffers.iter().enumerate() {
        let (a, b) = (&archive.buffers[i], &second.buffers[i]);
        if a != b {
            let place = a.iter().zip(b).take_while(|(a, b)| a == b).count();
            writeln!(text, "  {name} afterwards differs from byte {place} on:").unwrap();
            writeln!(text, "    archive {}", hex(a)).unwrap();
            writeln!(text, "    second  {}", hex(b)).unwrap();
        }
    }
    if let Some(fault) = &archive.fault {
        writeln!(text, "  archive: {fault}").unwrap();
    }
    text
}

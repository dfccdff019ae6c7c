//! The classes of the state reads, of the regions that they list, and of their replies.

use super::{regions::FIRST, Group};
use crate::call::{layout_of, Call, Outcome};
use second::cbor;
use second::images::{self, Fault, Image};

/// A state read with any op that was answered, as far as its class depends on it.
pub struct Read {
    op: u8,
    payload: Vec<u8>,
    /// Which of the two slots begin with a valid image.
    valid: [bool; 2],
    /// The length of the reply with the list.
    listed: usize,
    room: usize,
    /// An upload is open, and bytes of it are still to come.
    half: bool,
    is_list: bool,
    answer: Vec<u8>,
}

impl Read {
    /// Says whether the answer is an rc.
    fn rc(&self, rc: u8) -> bool {
        self.answer == [0xA1, 0x62, b'r', b'c', rc]
    }

    /// Says whether the answer is the list of these slots' images.
    fn lists(&self, valid: [bool; 2]) -> bool {
        self.is_list && self.valid == valid
    }
}

pub(super) const READS: Group<Read> = Group {
    name: "state reads",
    first: FIRST.end(),
    classes: &[
        ("none listed", |it| it.lists([false, false])),
        ("slot 0 listed", |it| it.lists([true, false])),
        ("slot 1 listed", |it| it.lists([false, true])),
        ("both listed", |it| it.lists([true, true])),
        ("both listed, 153 bytes", |it| it.lists([true, true]) && it.listed == 153),
        ("listed, no payload", |it| it.is_list && it.payload.is_empty()),
        ("listed, an empty map", |it| it.is_list && it.payload == [0xA0]),
        ("listed, a map with keys", |it| {
            it.is_list && cbor::read_map(&it.payload).map_or(false, |map| !map.pairs().is_empty())
        }),
        ("listed, the buffer filled", |it| it.is_list && it.listed == it.room),
        ("slot 1 listed before all has come", |it| it.is_list && it.valid[1] && it.half),
        ("rc 7", |it| it.rc(7)),
        ("rc 7 for one byte", |it| it.rc(7) && it.listed == it.room + 1),
        ("rc 3", |it| it.rc(3)),
        ("rc 3 before 7", |it| it.rc(3) && it.listed > it.room),
        ("rc 8 for op 2", |it| it.rc(8) && it.op == 2),
    ],
};

/// A region and what stands at its start, as far as that can be read.
pub struct Start {
    region: Vec<u8>,
    image: Result<Image, Fault>,
    /// Header and body together: where the area begins.
    sum: u64,
    /// The types and lengths of the area's entries that are whole, and how many bytes of the area are left then.
    entries: Vec<(u16, u16)>,
    left: usize,
}

impl Start {
    /// Reads a region.
    fn new(region: Vec<u8>) -> Start {
        let image = images::image(&region);
        let sum = match region.get(12..16) {
            Some(size) => half(&region, 8) as u64 + u32::from_le_bytes(size.try_into().unwrap()) as u64,
            None => 0,
        };
        let mut start = Start { region, image, sum, entries: Vec::new(), left: 0 };
        let in_order = [Fault::Entries, Fault::NoHash, Fault::TwoHashes, Fault::HashLength];
        if image.map_or_else(|fault| in_order.contains(&fault), |_| true) {
            start.read_entries();
        }
        start
    }

    /// Reads the entries of an area that is in the region.
    fn read_entries(&mut self) {
        let mut at = self.sum as usize + 4;
        let end = self.sum as usize + self.area(2) as usize;
        while end - at >= 4 && end - at - 4 >= half(&self.region, at + 2) as usize {
            let length = half(&self.region, at + 2);
            self.entries.push((half(&self.region, at), length));
            at += 4 + length as usize;
        }
        self.left = end - at;
    }

    /// A 16-bit number of the area's head.
    fn area(&self, at: usize) -> u16 {
        half(&self.region, self.sum as usize + at)
    }

    /// Where the area ends.
    fn end(&self) -> u64 {
        self.sum + self.area(2) as u64
    }

    /// The header's size.
    fn header(&self) -> u64 {
        half(&self.region, 8) as u64
    }

    /// The region's length.
    fn length(&self) -> u64 {
        self.region.len() as u64
    }

    /// Says whether the region begins with no valid image for this reason.
    fn is(&self, fault: Fault) -> bool {
        self.image == Err(fault)
    }

    /// Says whether some entry is of a type, and of a length that is wanted.
    fn has(&self, kind: u16, wanted: fn(u16) -> bool) -> bool {
        self.entries.iter().any(|(one, length)| *one == kind && wanted(*length))
    }

    /// Says whether a part of the version, of major, minor and revision by its place, has so many digits.
    fn digits(&self, part: usize, digits: usize) -> bool {
        self.image.map_or(false, |image| {
            let number = [image.major as u32, image.minor as u32, image.revision as u32][part];
            1 + [10, 100, 1000, 10_000].iter().filter(|bound| number >= **bound).count() == digits
        })
    }
}

pub(super) const VALID: Group<Start> = Group {
    name: "valid images",
    first: READS.end(),
    classes: &[
        ("header of 32", |it| it.header() == 32),
        ("header over 32", |it| it.header() > 32),
        ("header over 255", |it| it.header() > 255),
        ("no body", |it| it.sum == it.header()),
        ("a body", |it| it.sum > it.header()),
        ("ending with the region", |it| it.end() == it.length()),
        ("bytes behind it", |it| it.end() < it.length()),
        ("an entry before the hash", |it| it.entries[0].0 != 0x10),
        ("an entry behind the hash", |it| it.entries.last().unwrap().0 != 0x10),
        ("an entry of no bytes", |it| it.entries.iter().any(|(_, length)| *length == 0)),
        ("an entry of type 0110", |it| it.has(0x0110, |_| true)),
        ("major of 1 digit", |it| it.digits(0, 1)),
        ("major of 2 digits", |it| it.digits(0, 2)),
        ("major of 3 digits", |it| it.digits(0, 3)),
        ("minor of 1 digit", |it| it.digits(1, 1)),
        ("minor of 2 digits", |it| it.digits(1, 2)),
        ("minor of 3 digits", |it| it.digits(1, 3)),
        ("revision of 1 digit", |it| it.digits(2, 1)),
        ("revision of 2 digits", |it| it.digits(2, 2)),
        ("revision of 3 digits", |it| it.digits(2, 3)),
        ("revision of 4 digits", |it| it.digits(2, 4)),
        ("revision of 5 digits", |it| it.digits(2, 5)),
    ],
};

pub(super) const SPOILT: Group<Start> = Group {
    name: "no valid image",
    first: VALID.end(),
    classes: &[
        ("under 32 bytes", |it| it.is(Fault::Region)),
        ("31 bytes", |it| it.is(Fault::Region) && it.length() == 31),
        ("magic", |it| it.is(Fault::Magic)),
        ("load address", |it| it.is(Fault::LoadAddress)),
        ("protected size", |it| it.is(Fault::ProtectedSize)),
        ("flags", |it| it.is(Fault::Flags)),
        ("header size", |it| it.is(Fault::HeaderSize)),
        ("header size 31", |it| it.is(Fault::HeaderSize) && it.header() == 31),
        ("body", |it| it.is(Fault::Body)),
        ("body one byte too long", |it| it.is(Fault::Body) && it.sum == it.length() + 1),
        ("header and body over 32 bits", |it| it.is(Fault::Body) && it.sum >> 32 != 0),
        ("no room for the area's head", |it| it.is(Fault::AreaHead)),
        ("area's head one byte short", |it| it.is(Fault::AreaHead) && it.sum + 3 == it.length()),
        ("area's magic", |it| it.is(Fault::AreaMagic)),
        ("area's magic 6908", |it| it.is(Fault::AreaMagic) && it.area(0) == 0x6908),
        ("total", |it| it.is(Fault::Total)),
        ("total 3", |it| it.is(Fault::Total) && it.area(2) == 3),
        ("area past the region", |it| it.is(Fault::Area)),
        ("area one byte past the region", |it| it.is(Fault::Area) && it.end() == it.length() + 1),
        ("bytes left over in the area", |it| it.is(Fault::Entries) && it.left < 4),
        ("an entry past the area", |it| it.is(Fault::Entries) && it.left >= 4),
        ("no hash", |it| it.is(Fault::NoHash)),
        ("no entries", |it| it.is(Fault::NoHash) && it.entries.is_empty()),
        ("type 0110 of 32 bytes for a hash", |it| {
            it.is(Fault::NoHash) && it.has(0x0110, |length| length == 32)
        }),
        ("two hashes", |it| it.is(Fault::TwoHashes) && !it.has(0x10, |length| length != 32)),
        ("two hashes, one not of 32 bytes", |it| {
            it.is(Fault::TwoHashes) && it.has(0x10, |length| length != 32)
        }),
        ("hash's length", |it| it.is(Fault::HashLength)),
        ("hash of 31 bytes", |it| it.is(Fault::HashLength) && it.has(0x10, |length| length == 31)),
        ("hash of 33 bytes", |it| it.is(Fault::HashLength) && it.has(0x10, |length| length == 33)),
    ],
};

/// Says whether a map is a list of images.
fn is_list(map: &[u8]) -> bool {
    map.starts_with(b"\xA1\x66images")
}

/// The 16-bit number at a place, its low byte first.
fn half(bytes: &[u8], at: usize) -> u16 {
    u16::from_le_bytes([bytes[at], bytes[at + 1]])
}

/// Adds the numbers of the classes that a request is of, where it is a state read with any op that was answered, and
/// those of its regions where they were looked at.
pub fn add(call: &Call, outcome: &Outcome, list: &mut Vec<usize>) {
    let (memory, packet) = (&call.buffers[0], &call.buffers[2]);
    if outcome.returned != 0 || packet[4..6] != [0, 1] || packet[7] != 0 {
        return;
    }
    let [start_0, size_0, start, size] = layout_of(call).map(|number| number as usize);
    let slots = [&memory[start_0..start_0 + size_0], &memory[start..start + size]];
    let starts = slots.map(|slot| Start::new(slot.to_vec()));
    let length = outcome.words[4] as usize;
    let answer = outcome.buffers[3][8..length].to_vec();
    let is_list = is_list(&answer);
    let read = Read {
        op: packet[0],
        payload: packet[8..].to_vec(),
        valid: [starts[0].image.is_ok(), starts[1].image.is_ok()],
        listed: if is_list { length } else { 8 + images::list(slots).len() },
        room: call.buffers[3].len(),
        half: call.words[0] != 0 && call.words[2] < call.words[1],
        is_list,
        answer,
    };
    READS.add(&read, list);
    if !read.rc(3) && !read.rc(8) {
        for start in &starts {
            let group = if start.image.is_ok() { VALID } else { SPOILT };
            group.add(start, list);
        }
    }
}

/// A packet that was read as a reply, as far as its class depends on it.
pub struct Reply {
    is_list: bool,
    returned: u32,
}

pub(super) const REPLIES: Group<Reply> = Group {
    name: "bg_read_reply",
    first: SPOILT.end(),
    classes: &[("refused 10 for a list", |it| it.is_list && it.returned == 10)],
};

/// Adds the numbers of the classes that the reading of a reply is of.
pub fn add_reply(call: &Call, outcome: &Outcome, list: &mut Vec<usize>) {
    let is_list = call.buffers[0].get(8..).map_or(false, is_list);
    REPLIES.add(&Reply { is_list, returned: outcome.returned }, list);
}

//! The classes of the uploads by their length and tag, and by which of two reasons comes first.

use super::{texts, Class, Group};
use crate::call::{layout_of, Call, Outcome};
use second::cbor;
use second::controller::upload_of;

/// An upload with "off" and data that was answered, as far as its class depends on it.
pub struct Start {
    off: u64,
    len: u64,
    data: usize,
    /// "image" is not 0; "sha" is not of 32 bytes; "upgrade" is true.
    image: bool,
    bad_tag: bool,
    upgrade: bool,
    /// The slot's size, and the session before.
    size: u64,
    session: [u32; 4],
    /// "sha" is there and of 32 bytes, and is the one beside the session.
    tag: bool,
    same_bytes: bool,
    rc: u32,
}

impl Start {
    /// What an upload's packet asks of a slot and a session, and the rc that it was answered; nothing for another packet,
    /// for a malformed map, or where "off", "len" or data are missing.
    fn new(packet: &[u8], size: u64, session: [u32; 4], tag: &[u8], rc: u32) -> Option<Start> {
        if packet[0] != 2 || packet[4..6] != [0, 1] || packet[7] != 1 {
            return None;
        }
        let payload = &packet[8..];
        let upload = upload_of(&cbor::read_map(payload).ok()?, payload).ok()?;
        Some(Start {
            off: upload.off?,
            len: upload.len?,
            data: upload.data.filter(|data| !data.is_empty())?.len(),
            image: upload.image.map_or(false, |image| image != 0),
            bad_tag: upload.sha.map_or(false, |sha| sha.len() != 32),
            upgrade: upload.upgrade == Some(true),
            size,
            session,
            tag: upload.sha.map_or(false, |sha| sha.len() == 32),
            same_bytes: upload.sha == Some(tag),
            rc,
        })
    }

    /// Says whether it was answered so at offset 0.
    fn at_0(&self, rc: u32) -> bool {
        self.off == 0 && self.rc == rc
    }

    /// Says whether the length is above the slot, and no more than 32 bits hold.
    fn above(&self) -> bool {
        self.len > self.size && self.len >> 32 == 0
    }

    /// The length of the open session; 0 where none is open.
    fn length(&self) -> u64 {
        if self.session[0] != 0 {
            self.session[1] as u64
        } else {
            0
        }
    }

    /// Says whether the tag is the open session's.
    fn same_tag(&self) -> bool {
        self.session[0] != 0 && self.session[3] != 0 && self.same_bytes
    }

    /// Says whether it is, with another length that the slot has room for.
    fn other_length(&self) -> bool {
        self.same_tag() && self.len != self.length() && self.len > 0 && self.len <= self.size
    }

    /// Says whether an upload of another length than the open session's was begun.
    fn begun(&self) -> bool {
        self.at_0(0) && self.length() > 0 && self.len != self.length()
    }
}

/// The classes of both; an upload may be of several.
const BOTH: [Class<Start>; 23] = [
    ("rc 2", |it| it.at_0(2)),
    ("rc 2 for one byte more than the slot", |it| it.at_0(2) && it.len == it.size + 1),
    ("rc 2 for 4294967295", |it| it.at_0(2) && it.len == u32::MAX as u64),
    ("rc 2 with the session's tag", |it| it.at_0(2) && it.same_tag()),
    ("rc 3 for 4294967296", |it| it.at_0(3) && it.len == 1 << 32),
    ("rc 3 for a length over 32 bits", |it| it.at_0(3) && it.len >> 32 != 0 && !it.image),
    ("rc 3 for a length over 32 bits with the session's tag", |it| {
        it.at_0(3) && it.len >> 32 != 0 && !it.image && it.same_tag()
    }),
    ("rc 3 for the image before 2", |it| it.at_0(3) && it.image && it.above()),
    ("rc 2 before 3 for the tag", |it| it.at_0(2) && it.bad_tag),
    ("rc 2 before 8", |it| it.at_0(2) && it.upgrade),
    ("rc 6", |it| it.at_0(6)),
    ("rc 6 for one byte more", |it| it.at_0(6) && it.len == it.length() + 1),
    ("rc 6 for one byte less", |it| it.at_0(6) && it.len + 1 == it.length()),
    ("rc 6 for a complete session", |it| it.at_0(6) && it.session[1] == it.session[2]),
    ("rc 3 for the image before 6", |it| it.at_0(3) && it.image && it.other_length()),
    ("rc 3 for long data before 6", |it| {
        it.at_0(3) && !it.image && it.other_length() && it.data as u64 > it.len
    }),
    ("rc 6 before 8", |it| it.at_0(6) && it.upgrade),
    ("rc 8 with the session's tag and length", |it| it.at_0(8) && it.same_tag() && it.len == it.length()),
    ("resumed", |it| it.at_0(0) && it.same_tag() && it.len == it.length()),
    ("begun, another tag and length", |it| it.begun() && it.tag && it.session[3] != 0 && !it.same_bytes),
    ("begun, another length and no tag", |it| it.begun() && !it.tag && it.session[3] != 0),
    ("begun, another length and no tag before", |it| it.begun() && it.tag && it.session[3] == 0),
    ("a length above the slot above offset 0", |it| it.off > 0 && it.rc == 0 && it.above()),
];

pub(super) const HANDLED: Group<Start> =
    Group { name: "bg_handle, uploads", first: texts::REPLAYED.end(), classes: &BOTH };

/// What only a single request meets: a replay's slot is larger than its packets, and no bytes for a tag stand beside a
/// session without one.
pub(super) const SINGLE: Group<Start> = Group {
    name: HANDLED.name,
    first: HANDLED.end(),
    classes: &[
        ("rc 2 and data longer than the slot", |it| it.at_0(2) && it.data as u64 > it.size),
        ("begun, the bytes of a tag that is none", |it| it.begun() && it.same_bytes && !it.same_tag()),
    ],
};

pub(super) const REPLAYED: Group<Start> =
    Group { name: "bg_replay, uploads", first: SINGLE.end(), classes: &BOTH };

/// Adds the numbers of the classes that a request is of, where it is an upload that was answered.
pub fn add(call: &Call, outcome: &Outcome, list: &mut Vec<usize>) {
    if outcome.returned != 0 {
        return;
    }
    let session = call.words[..4].try_into().unwrap();
    let rc = match outcome.buffers[3][8..13] {
        [0xA1, 0x62, _, _, rc] => rc as u32,
        _ => 0,
    };
    if let Some(start) = Start::new(&call.buffers[2], layout_of(call)[3], session, &call.buffers[1], rc) {
        HANDLED.add(&start, list);
        SINGLE.add(&start, list);
    }
}

/// Adds the numbers of the classes that a replayed request is of, where it is an upload, by the slot's size, the session
/// before and the rc that it was answered.
pub fn add_replayed(packet: &[u8], size: u64, session: [u32; 4], tag: &[u8], rc: u32, list: &mut Vec<usize>) {
    if let Some(start) = Start::new(packet, size, session, tag, rc) {
        REPLAYED.add(&start, list);
    }
}

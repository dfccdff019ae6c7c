//! The two slots, the upload session, and the upload rules.

use crate::refusal::Refusal;
use std::ops::Range;

/// The largest upload slot.
pub const LARGEST: usize = 1_048_576;
/// The largest number that "off" and "len" may have.
pub const LARGEST_NUMBER: u64 = 4_294_967_295;

/// An open session: the image's length, the next expected offset, and perhaps a tag.
#[derive(Clone, Copy, Debug, PartialEq, Eq)]
pub struct Session {
    pub length: u32,
    pub place: u32,
    pub tag: Option<[u8; 32]>,
}

/// What a well-formed upload request asks.
pub struct Upload<'a> {
    pub off: Option<u64>,
    pub data: Option<&'a [u8]>,
    pub len: Option<u64>,
    pub image: Option<u64>,
    pub sha: Option<&'a [u8]>,
    pub upgrade: Option<bool>,
}

/// What the upload rules decide.
pub enum Decision {
    /// Nothing is done; the reply has this rc.
    Rc(u32),
    /// Nothing is done; the reply is success with this offset.
    Tell(u32),
    /// Data goes to slot place n of the open session, which then has this place.
    Write(Session),
    /// The slot is set to 255 and data goes to its start; the new session is this one.
    Start(Session),
}

/// The places of a region that lies in the memory; nothing where it does not.
fn region(start: usize, size: usize, memory: usize) -> Option<Range<usize>> {
    let end = start.checked_add(size)?;
    (end <= memory).then_some(start..end)
}

/// The places of slot 0 and of the upload slot, from the start and size of each. Refusal 1 where one does not lie in the
/// memory, the upload slot is not 1 to 1,048,576 bytes, or a byte is in both.
pub fn regions(layout: &[usize; 4], memory: usize) -> Result<[Range<usize>; 2], Refusal> {
    let [start_0, size_0, start, size] = *layout;
    let slot_0 = region(start_0, size_0, memory).ok_or(Refusal::Impossible)?;
    let upload = region(start, size, memory).ok_or(Refusal::Impossible)?;
    let in_both = slot_0.start.max(upload.start)..slot_0.end.min(upload.end);
    if !(1..=LARGEST).contains(&size) || !in_both.is_empty() {
        return Err(Refusal::Impossible);
    }
    Ok([slot_0, upload])
}

/// The session of a record, nothing where it is closed; or refusal 1 where the record is impossible.
pub fn session(record: &[u32; 4], tag: &[u8; 32], size: usize) -> Result<Option<Session>, Refusal> {
    let [open, length, place, tagged] = *record;
    if open == 0 {
        return Ok(None);
    }
    if length < 1 || length as usize > size || place < 1 || place > length {
        return Err(Refusal::Impossible);
    }
    let tag = if tagged == 0 { None } else { Some(*tag) };
    Ok(Some(Session { length, place, tag }))
}

/// Writes a session to its record in normal form: all 0 where it is closed, and a tag of zeros where it has none.
pub fn store(session: Option<Session>, record: &mut [u32; 4], tag: &mut [u8; 32]) {
    match session {
        None => {
            *record = [0; 4];
            *tag = [0; 32];
        }
        Some(session) => {
            *record = [1, session.length, session.place, session.tag.is_some() as u32];
            *tag = session.tag.unwrap_or([0; 32]);
        }
    }
}

/// Decides an upload by the three checks in order, for a slot of this size.
pub fn decide(upload: &Upload, size: usize, session: Option<Session>) -> Decision {
    // Check 1.
    let (off, data) = match (upload.off, upload.data) {
        (Some(off), Some(data)) => (off, data),
        _ => return Decision::Rc(3),
    };
    if off > LARGEST_NUMBER || upload.len.map_or(false, |len| len > LARGEST_NUMBER) || data.is_empty() {
        return Decision::Rc(3);
    }
    if off > 0 {
        go_on(off, data, session)
    } else {
        start(upload, data, size, session)
    }
}

/// Check 2: a chunk above offset 0.
fn go_on(off: u64, data: &[u8], session: Option<Session>) -> Decision {
    let session = match session {
        Some(session) => session,
        None => return Decision::Tell(0),
    };
    if off != session.place as u64 {
        return Decision::Tell(session.place);
    }
    let end = off + data.len() as u64;
    if end > session.length as u64 {
        return Decision::Rc(3);
    }
    Decision::Write(Session { place: end as u32, ..session })
}

/// Check 3: a chunk at offset 0.
fn start(upload: &Upload, data: &[u8], size: usize, session: Option<Session>) -> Decision {
    if upload.image.map_or(false, |image| image != 0) {
        return Decision::Rc(3);
    }
    let len = match upload.len {
        Some(len) => len,
        None => return Decision::Rc(3),
    };
    if len == 0 {
        return Decision::Rc(3);
    }
    if len > size as u64 {
        return Decision::Rc(2);
    }
    let tag: Option<[u8; 32]> = match upload.sha {
        None => None,
        Some(sha) => match sha.try_into() {
            Ok(tag) => Some(tag),
            Err(_) => return Decision::Rc(3),
        },
    };
    if data.len() as u64 > len {
        return Decision::Rc(3);
    }
    // A request or session without a tag never matches.
    let same_tag = session.filter(|session| tag.is_some() && session.tag == tag);
    if same_tag.map_or(false, |session| session.length as u64 != len) {
        return Decision::Rc(6);
    }
    if upload.upgrade == Some(true) {
        return Decision::Rc(8);
    }
    if let Some(session) = same_tag {
        return Decision::Tell(session.place);
    }
    Decision::Start(Session { length: len as u32, place: data.len() as u32, tag })
}

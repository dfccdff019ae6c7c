//! The controller's end: takes one request, writes the slot and builds the reply.

use crate::cbor::{self, Malformed, Map};
use crate::images;
use crate::packet::{self, Header, HEADER};
use crate::refusal::Refusal;
use crate::slot::{self, Decision, Session, Upload};
use std::ops::Range;

/// The shortest reply buffer.
pub const REPLY_ROOM: usize = 32;

/// The commands.
#[derive(Clone, Copy)]
enum Command {
    Echo,
    Reset,
    State,
    Upload,
    Erase,
}

/// The command that op, group and command number name together.
fn command(header: &Header) -> Option<Command> {
    match (header.op, header.group, header.command) {
        (0 | 2, 0, 0) => Some(Command::Echo),
        (2, 0, 5) => Some(Command::Reset),
        (0, 1, 0) => Some(Command::State),
        (2, 1, 1) => Some(Command::Upload),
        (2, 1, 5) => Some(Command::Erase),
        _ => None,
    }
}

/// The map {"rc": rc}.
fn rc(rc: u32) -> Vec<u8> {
    let mut map = Vec::new();
    cbor::write_head(&mut map, cbor::MAP, 1);
    cbor::write_unsigned(&mut map, "rc", rc as u64);
    map
}

/// The map {"rc": 0, "off": n}.
fn success(n: u32) -> Vec<u8> {
    let mut map = Vec::new();
    cbor::write_head(&mut map, cbor::MAP, 2);
    cbor::write_unsigned(&mut map, "rc", 0);
    cbor::write_unsigned(&mut map, "off", n as u64);
    map
}

/// The map {"r": text}.
fn echo(text: &[u8]) -> Vec<u8> {
    let mut map = Vec::new();
    cbor::write_head(&mut map, cbor::MAP, 1);
    cbor::write_string(&mut map, cbor::TEXT, b"r");
    cbor::write_string(&mut map, cbor::TEXT, text);
    map
}

/// The fields of an upload request.
pub fn upload_of<'a>(map: &Map, payload: &'a [u8]) -> Result<Upload<'a>, Malformed> {
    Ok(Upload {
        off: map.unsigned("off")?,
        data: map.bytes("data")?.map(|place| &payload[place]),
        len: map.unsigned("len")?,
        image: map.unsigned("image")?,
        sha: map.bytes("sha")?.map(|place| &payload[place]),
        upgrade: map.bool("upgrade")?,
    })
}

/// What becomes of the session.
enum After {
    Same,
    Grown(u32),
    Started(Session),
    Closed,
}

/// What is done for a request: the reply's map, what becomes of the session, and whether a reset is asked.
struct Done {
    map: Vec<u8>,
    session: After,
    reset: bool,
}

impl Done {
    /// A reply that leaves memory and session as they were.
    fn only(map: Vec<u8>) -> Done {
        Done { map, session: After::Same, reset: false }
    }
}

/// The map where the reply with it fits its buffer, else {"rc": 7}.
fn if_it_fits(map: Vec<u8>, reply_room: usize) -> Vec<u8> {
    if HEADER + map.len() <= reply_room {
        map
    } else {
        rc(7)
    }
}

/// Does a known command on slot 0 and the upload slot; malformed where the map is not as the command has it.
fn perform(
    command: Command,
    payload: &[u8],
    memory: &mut [u8],
    [slot_0, upload_slot]: [Range<usize>; 2],
    session: Option<Session>,
    reply_room: usize,
) -> Result<Done, Malformed> {
    let map = cbor::read_map(payload)?;
    match command {
        Command::Echo => {
            let place = map.text("d")?.ok_or(Malformed)?;
            Ok(Done::only(if_it_fits(echo(&payload[place]), reply_room)))
        }
        Command::Reset => Ok(Done { map: rc(0), session: After::Closed, reset: true }),
        Command::State => {
            let list = images::list([&memory[slot_0], &memory[upload_slot]]);
            Ok(Done::only(if_it_fits(list, reply_room)))
        }
        Command::Erase => {
            if map.unsigned("slot")?.map_or(false, |slot| slot != 1) {
                return Ok(Done::only(rc(3)));
            }
            memory[upload_slot].fill(255);
            Ok(Done { map: rc(0), session: After::Closed, reset: false })
        }
        Command::Upload => {
            let upload = upload_of(&map, payload)?;
            let slot = &mut memory[upload_slot];
            let data = upload.data.unwrap_or(&[]);
            Ok(match slot::decide(&upload, slot.len(), session) {
                Decision::Rc(number) => Done::only(rc(number)),
                Decision::Tell(n) => Done::only(success(n)),
                Decision::Write(next) => {
                    let end = next.place as usize;
                    slot[end - data.len()..end].copy_from_slice(data);
                    Done { map: success(next.place), session: After::Grown(next.place), reset: false }
                }
                Decision::Start(next) => {
                    slot.fill(255);
                    slot[..data.len()].copy_from_slice(data);
                    Done { map: success(next.place), session: After::Started(next), reset: false }
                }
            })
        }
    }
}

/// Takes one request packet; gives the reply's length and whether a reset is asked, or refuses 1, 11 or 10.
#[allow(clippy::too_many_arguments)]
pub fn handle(
    layout: &[usize; 4],
    memory: &mut [u8],
    record: &mut [u32; 4],
    tag: &mut [u8; 32],
    packet: &[u8],
    reply: &mut [u8],
) -> Result<(usize, bool), Refusal> {
    let regions = slot::regions(layout, memory.len())?;
    let session = slot::session(record, tag, regions[1].len())?;
    if reply.len() < REPLY_ROOM {
        return Err(Refusal::ReplyRoom);
    }
    let header = packet::header(packet).ok_or(Refusal::NotSuchAPacket)?;
    if header.op != 0 && header.op != 2 {
        return Err(Refusal::NotSuchAPacket);
    }
    let done = match command(&header) {
        None => Done::only(rc(8)),
        Some(command) => perform(command, &packet[HEADER..], memory, regions, session, reply.len())
            .unwrap_or_else(|Malformed| Done::only(rc(3))),
    };
    match done.session {
        After::Same => {}
        After::Grown(place) => record[2] = place,
        After::Started(session) => slot::store(Some(session), record, tag),
        After::Closed => slot::store(None, record, tag),
    }
    // A reply leaves the two flags as 0 or 1.
    record[0] = (record[0] != 0) as u32;
    record[3] = (record[3] != 0) as u32;
    let answer = packet::build(header.op + 1, header.group, header.sequence, header.command, &done.map);
    reply[..answer.len()].copy_from_slice(&answer);
    Ok((answer.len(), done.reset))
}

//! Requests for the controller: single ones for any record, and histories on one memory.

use crate::call::{configure as configure_call, handle, Layout, Outcome};
use crate::harness::Harness;
use crate::maps::{packet, payload, Item, Pair};
use crate::rng::Rng;

/// What a controller is lent from call to call.
pub struct Device {
    pub layout: Layout,
    pub memory: Vec<u8>,
    pub session: [u32; 4],
    pub tag: [u8; 32],
}

impl Device {
    /// A controller with an upload slot somewhere in a small memory, now and then a larger one, and a slot 0 of any size
    /// before or behind it; its session closed.
    fn new(rng: &mut Rng) -> Device {
        let size = match rng.below(12) {
            0 => rng.range(1, 3),
            1..=7 => rng.range(4, 60),
            8..=10 => rng.range(20, 300),
            _ if rng.once_in(400) => 1_048_576 - rng.pick(&[0, 0, 1, 7]),
            _ => rng.range(300, 2000),
        };
        let start = if rng.once_in(3) { 0 } else { rng.below(30) };
        let after = if rng.once_in(3) { 0 } else { rng.below(30) };
        let memory = rng.bytes(start + size + after);
        let (first, room) = if rng.once_in(2) { (0, start) } else { (start + size, after) };
        let skipped = if rng.once_in(2) { 0 } else { rng.below(room + 1) };
        let slot_0 = if rng.once_in(2) { room - skipped } else { rng.below(room - skipped + 1) };
        let layout = [first + skipped, slot_0, start, size].map(|number| number as u64);
        Device { layout, memory, session: [0; 4], tag: [0; 32] }
    }

    /// The upload slot's size.
    fn size(&self) -> u64 {
        self.layout[3]
    }

    /// A session record that is possible in the slot, in normal form or not.
    pub fn open(&mut self, rng: &mut Rng) {
        let size = self.size() as usize;
        let length = if rng.once_in(2) { size as u32 } else { rng.range(1, size) as u32 };
        let place = if rng.once_in(5) { length } else { rng.range(1, length as usize) as u32 };
        let tagged = rng.below(2) as u32;
        self.session = [1, length, place, tagged];
        self.tag = if tagged == 1 { rng.tag() } else { [0; 32] };
        if rng.once_in(10) {
            self.session[0] = rng.word() | 2;
            self.session[3] = if tagged == 1 { rng.word() | 2 } else { 0 };
        }
        if tagged == 0 && rng.once_in(4) {
            self.tag = rng.tag();
        }
    }

    /// A closed session record, in normal form or with leftovers.
    pub fn close(&mut self, rng: &mut Rng) {
        self.session = [0; 4];
        self.tag = [0; 32];
        if rng.once_in(4) {
            self.session = [0, rng.number() as u32, rng.number() as u32, rng.word() & 3];
            self.tag = rng.tag();
        }
    }

    /// Compares one packet on this controller with a reply buffer of this length, and goes on with what it leaves.
    pub fn ask(&mut self, harness: &mut Harness, rng: &mut Rng, packet: Vec<u8>, room: usize) -> Outcome {
        let reply = rng.bytes(room);
        let memory = std::mem::take(&mut self.memory);
        let answer = [rng.word(), rng.word()];
        let call = handle(self.layout, memory, self.session, self.tag, packet, reply, answer);
        let mut outcome = harness.check(call);
        self.session = outcome.words[..4].try_into().unwrap();
        self.tag = outcome.buffers[1][..].try_into().unwrap();
        self.memory = std::mem::take(&mut outcome.buffers[0]);
        outcome
    }
}

/// A length for a reply buffer: mostly the shortest or little more, now and then too short.
fn room(rng: &mut Rng) -> usize {
    match rng.below(16) {
        0 => rng.below(32),
        1..=6 => 32,
        7..=10 => rng.range(32, 60),
        _ => rng.range(32, 400),
    }
}

/// A number for "off" or "len": near to the session's or the slot's, or any.
fn near(rng: &mut Rng, device: &Device) -> u64 {
    let [_, length, place, _] = device.session;
    let base = rng.pick(&[0, place as u64, place as u64, length as u64, device.size()]);
    match rng.below(8) {
        0 => base.wrapping_add(1),
        1 => base.saturating_sub(1),
        2 => rng.number(),
        3 => base.wrapping_add(1 << 32),
        _ => base,
    }
}

/// Data for an upload: to the session's end, one more, or any length.
fn data(rng: &mut Rng, device: &Device, end: u64, from: u64) -> Vec<u8> {
    let left = end.saturating_sub(from).min(3000) as usize;
    let length = match rng.below(10) {
        0 | 1 => left,
        2 => left + 1,
        3 => left.saturating_sub(1),
        4 => rng.below(4),
        5 => rng.pick(&[23, 24, 255, 256]),
        6 => rng.below(left + 2),
        _ => rng.range(1, (device.size() as usize).min(60)),
    };
    rng.bytes(length)
}

/// An upload's pairs, for a controller as it stands.
fn upload(rng: &mut Rng, device: &Device) -> Vec<Pair> {
    let [open, length, place, tagged] = device.session;
    let mut pairs: Vec<Pair> = Vec::new();
    if rng.once_in(2) {
        // The next chunk, or nearly.
        let off = if rng.once_in(3) { near(rng, device) } else { place.max(1) as u64 };
        pairs.push((b"data".to_vec(), Item::Bytes(data(rng, device, length as u64, off))));
        pairs.push((b"off".to_vec(), Item::Unsigned(off)));
        if rng.once_in(6) {
            pairs.push((b"len".to_vec(), Item::Unsigned(near(rng, device))));
        }
    } else {
        // A first chunk: often with the session's own tag and length.
        let same = open != 0 && rng.once_in(2);
        let len = match rng.below(6) {
            0 => near(rng, device),
            1 => device.size(),
            2 => device.size() + 1,
            _ if same => length as u64,
            _ => rng.range(1, device.size() as usize) as u64,
        };
        pairs.push((b"data".to_vec(), Item::Bytes(data(rng, device, len, 0))));
        if !rng.once_in(30) {
            pairs.push((b"len".to_vec(), Item::Unsigned(len)));
        }
        pairs.push((b"off".to_vec(), Item::Unsigned(0)));
        if tagged != 0 && same {
            pairs.push((b"sha".to_vec(), Item::Bytes(device.tag.to_vec())));
        } else if rng.once_in(2) {
            let mut tag = rng.tag().to_vec();
            if rng.once_in(6) {
                tag.resize(rng.pick(&[0, 1, 31, 33, 64]), 9);
            }
            pairs.push((b"sha".to_vec(), Item::Bytes(tag)));
        }
    }
    if rng.once_in(8) {
        let image = rng.pick(&[0, 0, 0, 1, 1 << 32, u64::MAX]);
        pairs.push((b"image".to_vec(), Item::Unsigned(image)));
    }
    if rng.once_in(8) {
        pairs.push((b"upgrade".to_vec(), Item::Raw(vec![rng.pick(&[0xF4, 0xF4, 0xF5, 0xF6, 0xF7])])));
    }
    pairs
}

/// An upload at offset 0, now and then at the session's place, for a controller as it stands. Length, tag, image, data and
/// wish to upgrade are each good or not by themselves, so that two reasons to refuse it often meet.
pub fn start(rng: &mut Rng, device: &Device) -> Vec<u8> {
    let (size, length) = (device.size(), device.session[1] as u64);
    let off = if rng.once_in(6) { device.session[2] as u64 } else { 0 };
    let len = match rng.below(23) {
        0..=2 => size + 1,
        3 => size + rng.range(2, 40) as u64,
        4 | 5 => 0xFFFF_FFFF,
        6 => 1 << 32,
        7 => (1 << 32) + rng.pick(&[1, length, size]),
        8..=10 => (length + 1).min(size),
        11..=13 => length.saturating_sub(1).max(1),
        14..=16 => rng.range(1, 12).min(size as usize) as u64,
        17 => rng.pick(&[0, size]),
        _ => length,
    };
    let most = len.clamp(1, 9) as usize;
    let data = match rng.below(5) {
        0 if len < 60 => len as usize + rng.range(1, 3),
        1 if len == size + 1 && size < 60 => size as usize + 1,
        _ => rng.range(1, most),
    };
    let mut pairs: Vec<Pair> = vec![
        (b"data".to_vec(), Item::Bytes(rng.bytes(data))),
        (b"len".to_vec(), Item::Unsigned(len)),
        (b"off".to_vec(), Item::Unsigned(off)),
    ];
    let sha = match rng.below(13) {
        0..=6 => Some(device.tag.to_vec()),
        7 | 8 => Some(rng.tag().to_vec()),
        9 | 10 => Some(vec![9; rng.pick(&[0, 31, 33])]),
        _ => None,
    };
    pairs.extend(sha.map(|sha| (b"sha".to_vec(), Item::Bytes(sha))));
    if rng.once_in(4) {
        let image = rng.pick(&[0, 1, 1, 1 << 32]);
        pairs.push((b"image".to_vec(), Item::Unsigned(image)));
    }
    if rng.once_in(2) {
        pairs.push((b"upgrade".to_vec(), Item::Raw(vec![rng.pick(&[0xF4, 0xF5, 0xF5])])));
    }
    let payload = payload(rng, pairs, false);
    packet(rng, 2, 1, 1, &payload)
}

/// A request for a controller as it stands.
pub fn request(rng: &mut Rng, device: &Device) -> Vec<u8> {
    let spoil = rng.once_in(4);
    let (mut op, mut group, mut command, pairs): (_, _, _, Vec<Pair>) = match rng.below(20) {
        0..=3 => {
            let length = match rng.below(8) {
                0 => rng.pick(&[0, 19, 20, 21, 22, 23, 24, 25]),
                1 => rng.pick(&[255, 256, 257, 300]),
                2 if rng.once_in(100) => rng.pick(&[65_519, 65_520, 65_510, 30_000]),
                _ => rng.below(60),
            };
            (rng.pick(&[0, 2]), 0, 0, vec![(b"d".to_vec(), Item::Text(rng.bytes(length)))])
        }
        4 => (2, 0, 5, vec![]),
        5 => {
            let slot = rng.pick(&[1, 1, 1, 0, 2, 255, 257, 1 << 32, (1 << 32) + 1, u64::MAX]);
            let pairs = if rng.once_in(2) { vec![] } else { vec![(b"slot".to_vec(), Item::Unsigned(slot))] };
            (2, 1, 5, pairs)
        }
        6 => (0, 1, 0, vec![]),
        7 => (rng.pick(&[0, 2]), rng.below(3) as u16, rng.below(7) as u8, upload(rng, device)),
        _ => (2, 1, 1, upload(rng, device)),
    };
    if rng.once_in(40) {
        op = rng.pick(&[0, 1, 2, 3, 4, 10, 255]);
    }
    if rng.once_in(60) {
        group = rng.pick(&[0, 1, 2, 256, 257, 0xFFFF]);
    }
    if rng.once_in(60) {
        command = rng.byte();
    }
    let payload = match rng.below(50) {
        0 => vec![],
        1 => {
            let length = rng.below(40);
            rng.bytes(length)
        }
        _ => payload(rng, pairs, spoil),
    };
    packet(rng, op, group, command, &payload)
}

/// One request for any memory, slot and record, possible or not.
pub fn single(harness: &mut Harness, rng: &mut Rng) {
    harness.kind("requests: single, any slot and record");
    let mut device = Device::new(rng);
    if rng.once_in(3) {
        device.close(rng);
    } else {
        device.open(rng);
    }
    let packet = request(rng, &device);
    if rng.once_in(12) {
        let [_, _, start, size] = device.layout;
        match rng.below(8) {
            0 => device.session[1] = rng.pick(&[0, size as u32 + 1, u32::MAX]),
            1 => device.session[2] = rng.pick(&[0, device.session[1].wrapping_add(1), u32::MAX]),
            2 => device.layout[3] = rng.pick(&[0, size + 1, 1_048_577, u64::MAX, start.wrapping_neg()]),
            3 => device.layout[2] = rng.pick(&[start + 1, u64::MAX, size.wrapping_neg()]),
            4 => device.memory.truncate(rng.below(device.memory.len() + 1)),
            5 => device.memory.push(9),
            6 => {
                device.session =
                    [rng.number() as u32, rng.number() as u32, rng.number() as u32, rng.word() & 1]
            }
            _ => device.memory.clear(),
        }
    }
    let room = room(rng);
    device.ask(harness, rng, packet, room);
}

/// One upload at offset 0, mostly while a session is open.
pub fn starts(harness: &mut Harness, rng: &mut Rng) {
    harness.kind("requests: uploads at offset 0, good or not in each field");
    let mut device = Device::new(rng);
    if rng.once_in(8) {
        device.close(rng);
    } else {
        device.open(rng);
        // Mostly shorter than the slot, and with a tag.
        let length = rng.range(1, device.size() as usize) as u32;
        let place = if rng.once_in(4) { length } else { rng.range(1, length as usize) as u32 };
        device.session[1..3].copy_from_slice(&[length, place]);
        device.session[3] = !rng.once_in(4) as u32;
        device.tag = rng.tag();
    }
    let packet = start(rng, &device);
    device.ask(harness, rng, packet, 32);
}

/// A history of requests on one memory: chunks, repeats, resumes, restarts, erases, resets, damage.
pub fn history(harness: &mut Harness, rng: &mut Rng) {
    harness.kind("requests: histories on one memory");
    let mut device = Device::new(rng);
    let mut sent: Vec<Vec<u8>> = Vec::new();
    let steps = if device.size() > 100_000 { 4 } else { rng.range(4, 24) };
    for _ in 0..steps {
        let packet = if !sent.is_empty() && rng.once_in(5) { rng.pick(&sent) } else { request(rng, &device) };
        if rng.once_in(60) {
            device.open(rng);
        }
        if rng.once_in(60) {
            let memory = device.memory.len() as u64;
            let outcome = harness.check(configure_call(device.layout, memory, device.session, device.tag));
            device.session = outcome.words[..].try_into().unwrap();
            device.tag = outcome.buffers[0][..].try_into().unwrap();
        }
        sent.push(packet.clone());
        let room = room(rng);
        device.ask(harness, rng, packet, room);
    }
}

/// An upload slot, possible or not, and an empty slot 0.
pub fn configure(harness: &mut Harness, rng: &mut Rng) {
    harness.kind("configurations");
    for _ in 0..8 {
        let size = match rng.below(4) {
            0 => rng.pick(&[0, 1, 2, 1_048_575, 1_048_576, 1_048_577]),
            1 => rng.number(),
            _ => rng.range(1, 1_048_576) as u64,
        };
        let start = match rng.below(4) {
            0 => 0,
            1 => rng.number(),
            2 => size.wrapping_neg().wrapping_add(rng.below(3) as u64).wrapping_sub(1),
            _ => rng.below(5_000_000) as u64,
        };
        let memory = match rng.below(4) {
            0 => rng.number(),
            _ => start.wrapping_add(size).wrapping_add(rng.below(3) as u64).wrapping_sub(1),
        };
        let session = [rng.word(), rng.word(), rng.word(), rng.word()];
        let tag = rng.tag();
        harness.check(configure_call([0, 0, start, size], memory, session, tag));
    }
}

//! Images for the two slots, valid and spoilt in each part, state reads of them, and layouts of every kind.

use crate::call::{configure, read_reply, Layout, Outcome};
use crate::harness::Harness;
use crate::maps::{packet, payload, Item};
use crate::requests::Device;
use crate::rng::Rng;
use second::images;

/// An entry of the area: its type and its bytes.
type Entry = (u16, Vec<u8>);

/// A header with a size and a body's size, a version, and anything where nothing is looked at.
fn header(rng: &mut Rng, size: usize, body: usize) -> Vec<u8> {
    let mut header = if rng.once_in(2) { vec![0; size] } else { rng.bytes(size) };
    header[..20].fill(0);
    header[..4].copy_from_slice(&[0x3D, 0xB8, 0xF3, 0x96]);
    header[8..10].copy_from_slice(&(size as u16).to_le_bytes());
    header[12..16].copy_from_slice(&(body as u32).to_le_bytes());
    let one_byte = [(0, 9), (10, 99), (100, 255)];
    let two_bytes = [(0, 9), (10, 99), (100, 999), (1000, 9999), (10_000, 65_535)];
    for (at, ranges) in [(20, &one_byte[..]), (21, &one_byte), (22, &two_bytes)] {
        let (first, last) = rng.pick(ranges);
        let number = if rng.once_in(3) { rng.pick(&[first, last]) } else { rng.range(first, last) };
        header[at] = number as u8;
        if at == 22 {
            header[23] = (number >> 8) as u8;
        }
    }
    header
}

/// An entry of another type than the hash's.
fn other(rng: &mut Rng) -> Entry {
    let kind = match rng.word() as u16 {
        0x10 => 0x11,
        kind => rng.pick(&[kind, 0x0110, 0x1000, 0x1010, 0x11, 0x20, 0]),
    };
    let length = rng.pick(&[0, 1, 2, 5, 32, 32]);
    (kind, rng.bytes(length))
}

/// Up to two other entries.
fn others(rng: &mut Rng) -> Vec<Entry> {
    (0..rng.below(3)).map(|_| other(rng)).collect()
}

/// A hash's entry of so many bytes.
fn hash(rng: &mut Rng, length: usize) -> Entry {
    (0x10, rng.bytes(length))
}

/// How many ways there are to spoil a region.
const WAYS: usize = 21;

/// The hashes of an area spoilt in a way, or the one of a valid area.
fn hashes(rng: &mut Rng, way: usize) -> Vec<Entry> {
    match way {
        1 => vec![],
        2 => vec![(0x0110, rng.bytes(32))],
        3 => vec![hash(rng, 32), hash(rng, 32)],
        4 => {
            let length = rng.pick(&[0, 31, 33]);
            let mut two = vec![hash(rng, 32), hash(rng, length)];
            two.rotate_left(rng.below(2));
            two
        }
        5 => vec![hash(rng, 31)],
        6 => vec![hash(rng, 33)],
        7 => {
            let length = rng.below(32);
            vec![hash(rng, length)]
        }
        _ => vec![hash(rng, 32)],
    }
}

/// A region that begins with an image: valid, or spoilt in one of the ways from 1 on.
fn region(rng: &mut Rng, way: usize) -> Vec<u8> {
    let head = match rng.below(8) {
        0 if way == 12 => rng.range(24, 31),
        _ if way == 12 => 31,
        0..=3 => 32,
        4 => 33,
        5 => rng.range(250, 262),
        _ => rng.range(32, 60),
    };
    let body = if rng.once_in(2) { 0 } else { rng.below(30) };
    let mut region = header(rng, head, body);
    if way == 13 {
        // The area begins where the sum of header and body, cut to 32 bits, says.
        region.truncate(rng.range(24, head - 1));
        let size = (region.len() as u32).wrapping_sub(head as u32);
        region[12..16].copy_from_slice(&size.to_le_bytes());
    } else {
        region.extend(rng.bytes(body));
    }
    let area = region.len();
    region.extend([0x07, 0x69, 0, 0]);
    let mut entries = if way == 1 && rng.once_in(2) { vec![] } else { others(rng) };
    for (place, one) in hashes(rng, way).into_iter().enumerate() {
        let at = rng.range(entries.len().min(place), entries.len());
        entries.insert(at, one);
    }
    let mut last = area + 4;
    for (kind, bytes) in entries {
        last = region.len();
        region.extend(kind.to_le_bytes());
        region.extend((bytes.len() as u16).to_le_bytes());
        region.extend(bytes);
    }
    let end = region.len();
    let mut total = end - area;
    if rng.once_in(2) {
        let behind = rng.range(1, 12);
        region.extend(rng.bytes(behind));
    }
    let bit = 1 << rng.below(8);
    match way {
        8 => region[rng.below(4)] ^= bit,
        9 => region[4 + rng.below(4)] ^= bit,
        10 => region[10 + rng.below(2)] ^= bit,
        11 => region[16 + rng.below(4)] ^= bit,
        14 => {
            let one_more = (region.len() - head + 1) as u32;
            let high = body as u32 | 1 << rng.range(16, 31);
            let size = if rng.once_in(4) { high } else { one_more };
            region[12..16].copy_from_slice(&size.to_le_bytes());
        }
        15 => region.truncate(if rng.once_in(2) { 31 } else { rng.below(32) }),
        16 => region.truncate(area + if rng.once_in(4) { rng.below(4) } else { 3 }),
        17 if rng.once_in(4) => region[area + rng.below(2)] ^= bit,
        17 => region[area] = 0x08,
        18 => total = if rng.once_in(4) { rng.below(4) } else { 3 },
        19 => match rng.below(4) {
            0 => region.truncate(rng.range(area + 4, end - 1)),
            1 => region.truncate(end - 1),
            _ => {
                region.truncate(end);
                total += 1;
            }
        },
        // Bytes left over behind the last entry, or that entry cut by the area's end or going past it.
        20 => {
            let left = rng.range(1, 3);
            region.resize(region.len().max(end + left), 0);
            total += left;
        }
        21 => match rng.below(3) {
            0 => total -= 1,
            1 => region[last + 2] += 1,
            _ => region[last + 3] = 1,
        },
        _ => {}
    }
    if region.len() >= area + 4 {
        region[area + 2..area + 4].copy_from_slice(&(total as u16).to_le_bytes());
    }
    region
}

/// A region with a valid image, with a spoilt one, or with none.
fn any_region(rng: &mut Rng) -> Vec<u8> {
    match rng.below(20) {
        0..=8 => region(rng, 0),
        9 => vec![255; rng.pick(&[0, 1, 31, 32, 40])],
        10 => {
            let length = rng.below(80);
            rng.bytes(length)
        }
        _ => {
            let way = rng.range(1, WAYS);
            region(rng, way)
        }
    }
}

/// A region with a valid image of the longest version.
fn longest_version(rng: &mut Rng) -> Vec<u8> {
    let mut region = region(rng, 0);
    region[20..24].fill(255);
    region
}

/// A controller with these regions, in either order, touching or not, with other bytes around; its session closed.
fn device(rng: &mut Rng, slot_0: Vec<u8>, mut upload: Vec<u8>) -> Device {
    if upload.is_empty() {
        upload.push(255);
    }
    let gaps: [usize; 3] = std::array::from_fn(|_| if rng.once_in(2) { 0 } else { rng.below(12) });
    let (sizes, first) = ([slot_0.len(), upload.len()], rng.below(2));
    let mut parts = [slot_0, upload];
    parts.rotate_left(first);
    let mut memory = rng.bytes(gaps[0]);
    let mut starts = [0; 2];
    for (at, part) in parts.into_iter().enumerate() {
        starts[at ^ first] = memory.len();
        memory.extend(part);
        memory.extend(rng.bytes(gaps[at + 1]));
    }
    let layout = [starts[0], sizes[0], starts[1], sizes[1]].map(|number| number as u64);
    Device { layout, memory, session: [0; 4], tag: [0; 32] }
}

/// The length of the reply with a controller's list.
fn list_length(device: &Device) -> usize {
    let [start_0, size_0, start, size] = device.layout.map(|number| number as usize);
    let slots = [&device.memory[start_0..start_0 + size_0], &device.memory[start..start + size]];
    8 + images::list(slots).len()
}

/// A length for the reply buffer: about that of the list, or any.
fn room(rng: &mut Rng, length: usize) -> usize {
    match rng.below(12) {
        0..=2 => length,
        3 | 4 => length - 1,
        5 => length + 1,
        6 => 32,
        7 => rng.range(32, length.max(32)),
        8 if rng.once_in(4) => rng.below(32),
        _ => rng.range(32, 200),
    }
}

/// A state read with a map, perhaps malformed.
fn state_read(rng: &mut Rng, spoil: bool) -> Vec<u8> {
    let payload = match rng.below(4) {
        0 if !spoil => vec![],
        1 if !spoil => vec![0xA0],
        _ => {
            let key = rng.pick(&[&b"slot"[..], b"images", b"x"]).to_vec();
            let pairs = if rng.once_in(2) { vec![] } else { vec![(key, Item::Unsigned(rng.number()))] };
            payload(rng, pairs, spoil)
        }
    };
    let op = if rng.once_in(30) { 2 } else { 0 };
    packet(rng, op, 1, 0, &payload)
}

/// Gives the reply of a request that was taken to the host's reader.
fn read_back(harness: &mut Harness, rng: &mut Rng, handled: &Outcome) {
    if handled.returned == 0 {
        let reply = handled.buffers[3][..handled.words[4] as usize].to_vec();
        harness.check(read_reply(reply, std::array::from_fn(|_| rng.word())));
    }
}

/// One state read, for any images, session, map and reply buffer.
pub fn single(harness: &mut Harness, rng: &mut Rng) {
    harness.kind("images: single state reads");
    let longest = rng.once_in(12);
    let [slot_0, upload] = [(); 2].map(|()| if longest { longest_version(rng) } else { any_region(rng) });
    let mut device = device(rng, slot_0, upload);
    if rng.once_in(2) {
        device.open(rng);
    } else {
        device.close(rng);
    }
    let spoil = rng.once_in(5);
    let packet = state_read(rng, spoil);
    let room = room(rng, list_length(&device));
    let listed = device.ask(harness, rng, packet, room);
    if rng.once_in(8) {
        read_back(harness, rng, &listed);
    }
}

/// An image uploaded in chunks, a state read after each, whose reply goes to the host's reader too.
pub fn history(harness: &mut Harness, rng: &mut Rng) {
    harness.kind("images: listed while they are uploaded");
    let way = if rng.once_in(4) { rng.range(1, WAYS) } else { 0 };
    let image = region(rng, way);
    let spare = if rng.once_in(2) { 0 } else { rng.below(30) };
    let mut upload = any_region(rng);
    upload.resize(image.len().max(1) + spare, 255);
    let slot_0 = any_region(rng);
    let mut device = device(rng, slot_0, upload);
    let most = rng.range(4, 60);
    let mut off = 0;
    while off < image.len() {
        // Mostly the last bytes one by one: the hash is then there with some bytes to come.
        let end = if rng.once_in(2) { off + 1 } else { off + rng.range(1, most) }.min(image.len());
        let end = if off + 80 < image.len() { image.len() - 80 } else { end };
        let mut request = vec![0; 400];
        let mut written = 0;
        let (data, length) = (&image[off..end], image.len() as u64);
        let sequence = rng.byte();
        second::port::write_upload(sequence, data, off as u64, length, &[], &mut request, &mut written);
        request.truncate(written as usize);
        device.ask(harness, rng, request, 32);
        off = end;
        let packet = state_read(rng, false);
        let room = room(rng, list_length(&device));
        let listed = device.ask(harness, rng, packet, room);
        read_back(harness, rng, &listed);
    }
}

/// A layout of one of the kinds, and the length of its memory.
fn layout(rng: &mut Rng, size_0: u64, size: u64) -> (Layout, u64) {
    let at = rng.range(3, 20) as u64;
    let behind = rng.below(4) as u64;
    let (beyond, gap) = (rng.range(1, 3) as u64, rng.below(3) as u64);
    match rng.below(16) {
        // Touching, from below and from above; with a gap.
        0 => ([at, size_0, at + size_0, size], at + size_0 + size + behind),
        1 => ([at + size, size_0, at, size], at + size + size_0 + behind),
        2 => ([at, size_0, at + size_0 + gap, size], at + size_0 + gap + size + behind),
        // One byte in both.
        3 => ([at, size_0 + 1, at + size_0, size], at + size_0 + size + behind),
        4 => ([at + size - 1, size_0 + 1, at, size], at + size + size_0 + behind),
        // One inside the other, the same, and empty inside.
        5 => ([at + 1, size_0, at, size_0 + 2], at + size_0 + 2 + behind),
        6 => ([at - 1, size + 2, at, size], at + size + 1 + behind),
        7 => ([at, size, at, size], at + size + behind),
        8 => ([at + 1, 0, at, size + 1], at + size + 1 + behind),
        // Empty at the memory's end, and beyond it; ending with the memory, and one byte beyond it.
        9 => ([at + size + behind, 0, at, size], at + size + behind),
        10 => ([at + size + behind + beyond, 0, at, size], at + size + behind),
        11 => ([at + size + gap, size_0, at, size], at + size + gap + size_0),
        12 => ([at + size + gap, size_0, at, size], at + size + gap + size_0 - 1),
        // A sum that wraps, to any place about the memory's end.
        13 => {
            let memory = at + size + behind;
            let end = rng.range(0, memory as usize + 1) as u64;
            let start = rng.range(memory as usize, 1000) as u64;
            let start = if rng.once_in(2) { u64::MAX - rng.below(9) as u64 } else { start };
            ([start, end.wrapping_sub(start), at, size], memory)
        }
        // Slot 0 all right, and an upload slot that is not.
        14 => {
            let memory = at + size_0 + size;
            let bad = rng.pick(&[0, size + 1, 1_048_577, u64::MAX]);
            ([at, size_0, at + size_0, bad], memory)
        }
        // Slot 0 above the upload slot's bound.
        _ => {
            let size_0 = 1_048_576 + rng.range(1, 3) as u64;
            ([at + size, size_0, at, size], at + size + size_0 + behind)
        }
    }
}

/// A layout of any kind, configured, and with a request.
pub fn layouts(harness: &mut Harness, rng: &mut Rng) {
    harness.kind("layouts of two regions");
    let (size_0, size) = (rng.range(1, 40) as u64, rng.range(1, 40) as u64);
    let (layout, memory) = layout(rng, size_0, size);
    let session = [rng.word(), rng.word(), rng.word(), rng.word()];
    let tag = rng.tag();
    harness.check(configure(layout, memory, session, tag));
    // As much memory as is easily lent; slot 0 then ends beyond it where it is large.
    let length = memory.min(200) as usize;
    let mut device = Device { layout, memory: rng.bytes(length), session: [0; 4], tag };
    let mut packet = state_read(rng, false);
    let mut room = rng.range(32, 60);
    if rng.once_in(4) {
        room = rng.below(32);
    }
    if rng.once_in(4) && !packet.is_empty() {
        packet[0] = 1;
    }
    device.ask(harness, rng, packet, room);
}

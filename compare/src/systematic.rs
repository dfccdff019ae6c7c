//! Inputs gone through one by one: every byte in every place where one byte decides.

use crate::call::*;
use crate::harness::Harness;
use crate::lumps::through;
use crate::rng::Rng;
use second::replay::ANSWER;
use second::sender;

/// Every count and next byte, every place of an 0A in record and lump, every length of a lump, every cut of a line about
/// the longest.
fn lumps(harness: &mut Harness, rng: &mut Rng) {
    harness.kind("lumps: every count, 0A, length and cut");
    let mut step = |record, held, lump: &[u8], at| {
        let line = rng.bytes(127).try_into().unwrap();
        harness.check(collect(record, held, lump.to_vec(), at, line, [rng.word(), rng.word()]));
    };
    for count in 0..=130 {
        for skipping in [0, 1, 2] {
            for lump in [&b""[..], b"y", b"\n", b"y\n", b"\ny"] {
                step([count, skipping], [b'x'; 126], lump, 0);
            }
        }
        for at in 0..126 {
            let mut held = [b'x'; 126];
            held[at] = 0x0A;
            step([count, 0], held, b"y", 0);
        }
    }
    for record in [[0, 0], [1, 0], [125, 0], [126, 0], [127, 0], [0, 1], [126, 1]] {
        for byte in 0..=255 {
            step(record, [b'x'; 126], &[byte], 0);
            let mut lump = [b'y'; 256];
            lump[byte as usize] = 0x0A;
            step(record, [b'x'; 126], &lump, 0);
        }
        for length in 0..=257 {
            for lump in [vec![b'y'; length], vec![0x0A; length]] {
                for at in [0, 1, length.saturating_sub(1), length, length + 1, 1 << 32, usize::MAX] {
                    step(record, [b'x'; 126], &lump, at as u64);
                }
            }
        }
    }
    for before in 120..=135 {
        let stream = [&vec![b'y'; before][..], b"\nz"].concat();
        for cut in 0..=stream.len() {
            let mut collector = ([0; 2], [0; 126]);
            for lump in [&stream[..cut], &stream[cut..]] {
                through(harness, rng, &mut collector, lump);
            }
        }
    }
}

/// Every length of a line for each marker and ending; every character in each place of a group; every last group.
fn lines(harness: &mut Harness, rng: &mut Rng) {
    harness.kind("lines: every length, character and last group");
    let open = [1, 200, 20, 0];
    for length in 0..=200 {
        for marker in [[6, 9], [4, 20], [6, 20], [4, 9], [0, 0]] {
            for (text, last) in [(b'A', b'\n'), (b'A', b'\r'), (b'=', b'\n'), (b'\n', b'\n')] {
                let mut line = vec![text; length];
                for (at, byte) in marker.into_iter().enumerate().take(length) {
                    line[at] = byte;
                }
                if let Some(byte) = line.last_mut() {
                    *byte = last;
                }
                harness.check(take_line(open, line, rng.bytes(210), [rng.word(), rng.word()]));
            }
        }
    }
    for marker in [[6, 9], [4, 20]] {
        for text in [&b"AAAA"[..], b"AGQ=", b"AA==", b"AGQAAAAA", b"AGQBAgMEBQYHCAk="] {
            for at in 0..text.len() {
                for character in 0..=255 {
                    let mut line = [&marker, text, b"\n"].concat();
                    line[2 + at] = character;
                    harness.check(take_line(open, line, rng.bytes(200), [rng.word(), rng.word()]));
                }
            }
        }
    }
    for byte in 0..=255 {
        let line = |at: usize| {
            let mut line = b"\x06\x09AGQA\n".to_vec();
            line[at] = byte;
            line
        };
        for at in [0, 1, 6] {
            harness.check(take_line(open, line(at), rng.bytes(200), [rng.word(), rng.word()]));
        }
    }
    let alphabet = b"ABCDEFGHIJKLMNOPQRSTUVWXYZabcdefghijklmnopqrstuvwxyz0123456789+/";
    for first in alphabet {
        for second in alphabet {
            let line = [b"\x04\x14AAAA", &[*first, *second][..], b"==\n"].concat();
            harness.check(take_line(open, line, rng.bytes(198), [rng.word(), rng.word()]));
            let line = [b"\x04\x14A", &[*first, *second][..], b"=\n"].concat();
            harness.check(take_line(open, line, rng.bytes(198), [rng.word(), rng.word()]));
        }
    }
    // Every total in an initial frame, for buffers at the edge of its body.
    for total in (0..=300).chain(65_500..=65_535).chain((300..65_500).step_by(997)) {
        for raw in [0, 1, 2, 3, 10, 12, 93] {
            let mut bytes = vec![7; raw];
            for (at, byte) in (total as u16).to_be_bytes().into_iter().enumerate().take(raw) {
                bytes[at] = byte;
            }
            for room in [0, 1, 2, 3] {
                let room = (total as usize).saturating_sub(room);
                let line = sender::line([6, 9], &bytes);
                harness.check(take_line([1, 20, 19, 3], line, vec![0xEE; room], [rng.word(), rng.word()]));
            }
        }
    }
    // Every count of bytes come and of bytes in a partial frame for a small total.
    for total in 8..=16 {
        for come in 0..=17 {
            for raw in 1..=18 {
                for room in [total as usize - 3, total as usize - 2, 30] {
                    let line = sender::line([4, 20], &vec![0; raw]);
                    harness.check(take_line(
                        [1, total, come, 0],
                        line,
                        vec![0; room],
                        [rng.word(), rng.word()],
                    ));
                }
            }
        }
    }
}

/// Every short text of a few characters, alone and behind a good group; a few characters in every place of a full line, and
/// every length of a line that ends in a few ways.
fn texts(harness: &mut Harness, rng: &mut Rng) {
    harness.kind("lines: every short text, and every place of a full line");
    let mut take = |text: &[u8]| {
        let reader = if rng.once_in(2) { [1, 200, 20, 0] } else { [0; 4] };
        let line = [&rng.pick(&[[6, 9], [4, 20]])[..], text, b"\n"].concat();
        harness.check(take_line(reader, line, rng.bytes(200), [rng.word(), rng.word()]));
    };
    let mut texts: Vec<Vec<u8>> = vec![vec![]];
    let mut begun = 0;
    for _ in 0..5 {
        let next = |text: &Vec<u8>| b"AQB=-\n".map(|byte| [&text[..], &[byte]].concat());
        let longer: Vec<Vec<u8>> = texts[begun..].iter().flat_map(next).collect();
        begun = texts.len();
        texts.extend(longer);
    }
    for text in &texts {
        take(text);
        if text.len() < 5 {
            take(&[b"AGQA", &text[..]].concat());
        }
    }
    for at in 0..124 {
        for byte in *b"-=\n\r\0\xFFB" {
            let mut text = [b'A'; 124];
            text[at] = byte;
            take(&text);
            text[123] = b'=';
            take(&text);
        }
    }
    for length in 0..=125 {
        for ending in [&b""[..], b"=", b"==", b"B=", b"B==", b"-", b"\r"] {
            take(&[&vec![b'A'; length][..], ending].concat());
        }
    }
}

/// Every body length to 1200 with each frame number, and the lines back through the reader.
fn sends(harness: &mut Harness, rng: &mut Rng) {
    harness.kind("sender and reader: every body length to 1200");
    for length in 0..=1200 {
        let body = rng.bytes(length);
        let count = if length < 8 { 0 } else { sender::cut(length).len() };
        let mut reader = [0; 4];
        let mut packet = rng.bytes(length + 1);
        for k in 0..=count + 1 {
            let out = rng.bytes(127);
            let sent = harness.check(send_frame(body.clone(), k as u64, out, [rng.word(), rng.word()]));
            if sent.returned == 0 {
                let line = sent.buffers[1][..sent.words[0] as usize].to_vec();
                let taken = harness.check(take_line(reader, line, packet, [rng.word(), rng.word()]));
                reader = taken.words[..4].try_into().unwrap();
                packet = taken.buffers.into_iter().nth(1).unwrap();
            }
        }
        harness.check(send_frame(body, 0, vec![0; 126], [1, 2]));
    }
    harness.kind("sender and reader: the longest bodies, whole");
    for length in [65_533, 65_532, 65_442, 65_441] {
        let body = rng.bytes(length);
        let mut reader = [0; 4];
        let mut packet = rng.bytes(length);
        for k in 0..706 {
            let sent = harness.check(send_frame(body.clone(), k, vec![0; 127], [0, 0]));
            if sent.returned != 0 {
                break;
            }
            let line = sent.buffers[1][..sent.words[0] as usize].to_vec();
            let taken = harness.check(take_line(reader, line, packet, [5, 6]));
            reader = taken.words[..4].try_into().unwrap();
            packet = taken.buffers.into_iter().nth(1).unwrap();
        }
        assert!(packet == body, "the line gives the body back");
    }
}

/// A packet of an op, a group, a command and a payload.
fn packet(op: u8, group: u8, command: u8, payload: &[u8]) -> Vec<u8> {
    let [high, low] = (payload.len() as u16).to_be_bytes();
    [&[op, 0, high, low, 0, group, 0x42, command], payload].concat()
}

/// A request on a small slot with an open session.
fn ask(harness: &mut Harness, rng: &mut Rng, packet: Vec<u8>) {
    let tag = [9; 32];
    harness.check(handle(
        [0, 5, 5, 30],
        rng.bytes(40),
        [1, 20, 4, 1],
        tag,
        packet,
        rng.bytes(48),
        [rng.word(), rng.word()],
    ));
}

/// Every initial byte as a map's head, a key's head and each key's value, with every number of bytes after it.
fn maps(harness: &mut Harness, rng: &mut Rng) {
    harness.kind("maps: every initial byte in every place");
    let keys: [&[u8]; 11] =
        [b"z", b"d", b"data", b"off", b"len", b"image", b"sha", b"upgrade", b"slot", b"rc", b"r"];
    let commands = [(0, 0), (0, 5), (1, 1), (1, 5)];
    for initial in 0..=255u8 {
        for after in 0..=9 {
            for fill in [0x00, 0x01, 0xFF] {
                let tail = vec![fill; after];
                // The map's head itself.
                let payload = [&[initial][..], &tail].concat();
                for (group, command) in commands {
                    ask(harness, rng, packet(2, group, command, &payload));
                }
                harness.check(read_reply(packet(3, 1, 1, &payload), [7; 12]));
                // A key's head.
                let payload = [&[0xA1, initial][..], &tail].concat();
                ask(harness, rng, packet(2, 0, 5, &payload));
                harness.check(read_reply(packet(3, 1, 1, &payload), [7; 12]));
            }
        }
        for key in keys {
            for after in [0, 1, 2, 4, 8, 20] {
                let fill = rng.pick(&[0x00, 0x01, 0x20]);
                let head = [&[0x60 + key.len() as u8], key, &[initial][..], &vec![fill; after]].concat();
                // The value at the map's end, and a full upload with it in front.
                let payload = [&[0xA1], &head[..]].concat();
                for (group, command) in commands {
                    ask(harness, rng, packet(2, group, command, &payload));
                }
                harness.check(read_reply(packet(1, 0, 0, &payload), [7; 12]));
                let rest: &[u8] = if key == b"data" { b"" } else { b"\x64data\x41\x07" };
                let off: &[u8] = if key == b"off" { b"" } else { b"\x63off\x04" };
                let count = 0xA1 + !rest.is_empty() as u8 + !off.is_empty() as u8;
                let payload = [&[count], &head[..], rest, off].concat();
                ask(harness, rng, packet(2, 1, 1, &payload));
            }
        }
    }
    harness.kind("headers: every op, group, command and length");
    for op in 0..=255 {
        for (group, command) in commands {
            ask(harness, rng, packet(op, group, command, &[0xA0]));
        }
        harness.check(read_reply(packet(op, 1, 1, &[0xA0]), [7; 12]));
    }
    for group in 0..=255 {
        for command in 0..=255 {
            let op = rng.pick(&[0, 2]);
            ask(harness, rng, packet(op, group, command, &[0xA0]));
        }
    }
    for length in 0..=300u16 {
        for real in [0, 1, 2, 8, 40] {
            let mut packet = packet(2, 0, 5, &vec![0xA0; real]);
            packet[2..4].copy_from_slice(&length.to_be_bytes());
            ask(harness, rng, packet.clone());
            packet[0] = 1;
            harness.check(read_reply(packet, [7; 12]));
        }
    }
    harness.kind("packets about the longest");
    for length in 65_520..=65_543usize {
        for op in [1, 2] {
            for (group, command) in [(0, 0), (0, 5), (9, 9)] {
                // One pair whose text fills the packet.
                let text = length - 8 - 6;
                let key = if op == 1 { b'r' } else { b'd' };
                let [high, low] = (text as u16).to_be_bytes();
                let payload = [&[0xA1, 0x61, key, 0x79, high, low][..], &vec![b'x'; text]].concat();
                let packet = packet(op, group, command, &payload);
                if op == 1 {
                    harness.check(read_reply(packet, [7; 12]));
                } else {
                    for room in [32, length - 1, length, length + 3] {
                        let (packet, reply) = (packet.clone(), vec![0; room]);
                        harness.check(handle(
                            [0, 0, 0, 4],
                            vec![0; 4],
                            [0; 4],
                            [0; 32],
                            packet,
                            reply,
                            [5, 5],
                        ));
                    }
                }
            }
        }
    }
    // As many pairs as a packet holds.
    for count in [23u16, 24, 255, 256, 20_000, 21_840, 21_841] {
        let [high, low] = count.to_be_bytes();
        let payload = [&[0xB9, high, low][..], &b"\x61x\xF6".repeat(count as usize)].concat();
        if payload.len() <= 65_535 {
            ask(harness, rng, packet(2, 0, 5, &payload));
            harness.check(read_reply(packet(1, 0, 0, &payload), [7; 12]));
        }
    }
}

/// Every small session and region, with the requests that tell them apart.
fn sessions(harness: &mut Harness, rng: &mut Rng) {
    harness.kind("uploads: every small slot, session, offset and data");
    let tags = [[0; 32], [9; 32]];
    for size in 0..=4u64 {
        for length in 0..=5u32 {
            for place in 0..=5u32 {
                for tagged in [0, 1, 7] {
                    for open in [0, 1, 0x8000_0000] {
                        for off in 0..=5u64 {
                            for data in 0..=3usize {
                                let bytes = vec![7; data];
                                let mut payload = vec![0xA2, 0x64, b'd', b'a', b't', b'a', 0x40 + data as u8];
                                payload.extend_from_slice(&bytes);
                                payload.extend_from_slice(&[0x63, b'o', b'f', b'f', off as u8]);
                                if off == 0 {
                                    payload[0] += 1;
                                    payload.extend_from_slice(&[0x63, b'l', b'e', b'n', rng.below(6) as u8]);
                                    if rng.once_in(2) {
                                        payload[0] += 1;
                                        payload.extend_from_slice(b"\x63sha\x58\x20");
                                        payload.extend_from_slice(&rng.pick(&tags));
                                    }
                                }
                                let session = [open, length, place, tagged];
                                let (tag, reply) = (rng.pick(&tags), rng.bytes(33));
                                let memory = rng.bytes(6);
                                let packet = packet(2, 1, 1, &payload);
                                let layout = [0, 1, 1, size];
                                harness.check(handle(layout, memory, session, tag, packet, reply, [5, 5]));
                            }
                        }
                    }
                }
            }
        }
    }
    harness.kind("slots: every small region, and the largest");
    for memory in 0..=6u64 {
        for start in (0..=7).chain([u64::MAX - 1, u64::MAX]) {
            for size in (0..=7).chain([1_048_576, 1_048_577, u64::MAX - 2, u64::MAX]) {
                let layout = [0, 0, start, size];
                harness.check(configure(layout, memory, [3; 4], [3; 32]));
                for room in [31, 32] {
                    let erase = packet(2, 1, 5, &[]);
                    let memory = rng.bytes(memory as usize);
                    let reply = rng.bytes(room);
                    harness.check(handle(layout, memory, [0; 4], [0; 32], erase, reply, [5, 5]));
                }
            }
        }
    }
    let mut memory = rng.bytes(1_048_580);
    let mut session = [0; 4];
    for (size, packet) in [
        (1_048_577, packet(2, 1, 5, &[])),
        (1_048_576, packet(2, 1, 5, &[])),
        (1_048_576, packet(2, 1, 1, b"\xA3\x64data\x41\x07\x63off\x00\x63len\x1A\x00\x10\x00\x01")),
        (1_048_576, packet(2, 1, 1, b"\xA3\x64data\x41\x07\x63off\x00\x63len\x1A\x00\x10\x00\x00")),
        (1_048_576, packet(2, 1, 1, b"\xA2\x64data\x41\x07\x63off\x01")),
    ] {
        let layout = [0, 3, 3, size];
        let outcome = harness.check(handle(layout, memory, session, [0; 32], packet, vec![0; 32], [5, 5]));
        session = outcome.words[..4].try_into().unwrap();
        memory = outcome.buffers.into_iter().next().unwrap();
    }
    // The last two bytes of the largest slot, then one too many.
    session = [1, 1_048_576, 1_048_574, 0];
    for data in [3, 2, 1] {
        let payload =
            [b"\xA2\x64data", &[0x40 + data][..], &vec![7; data as usize], b"\x63off\x1A\x00\x0F\xFF\xFE"]
                .concat();
        let packet = packet(2, 1, 1, &payload);
        let layout = [0, 3, 3, 1_048_576];
        let outcome = harness.check(handle(layout, memory, session, [0; 32], packet, vec![0; 32], [5, 5]));
        session = outcome.words[..4].try_into().unwrap();
        memory = outcome.buffers.into_iter().next().unwrap();
    }
}

/// Every upload at offset 0 that has each of its fields at an edge, for each session.
fn starts(harness: &mut Harness, rng: &mut Rng) {
    harness.kind("uploads: every edge of each field at offset 0");
    let tag = [9; 32];
    // A slot of 20 bytes, and sessions of 10.
    let lengths = [0, 1, 2, 9, 10, 11, 20, 21, 0xFFFF_FFFF, 0x1_0000_0000, 0x1_0000_000A];
    let sha = |length: u8, byte: u8| [&b"\x63sha\x58"[..], &[length], &vec![byte; length as usize]].concat();
    let shas = [vec![], sha(32, 9), sha(32, 8), sha(31, 9)];
    let images: [&[u8]; 3] = [b"", b"\x65image\x00", b"\x65image\x01"];
    let upgrades: [&[u8]; 3] = [b"", b"\x67upgrade\xF4", b"\x67upgrade\xF5"];
    for session in [[0; 4], [1, 10, 4, 0], [1, 10, 4, 1], [1, 10, 10, 1]] {
        for length in lengths.map(Some).into_iter().chain([None]) {
            let len =
                length.map_or(vec![], |length: u64| [&b"\x63len\x1B"[..], &length.to_be_bytes()].concat());
            for (sha, image, upgrade) in shas.iter().flat_map(|sha| {
                images.into_iter().flat_map(move |image| upgrades.map(|upgrade| (sha, image, upgrade)))
            }) {
                for data in [1, 2] {
                    let pairs = [&len[..], sha, image, upgrade];
                    let count = 0xA2 + pairs.iter().filter(|pair| !pair.is_empty()).count() as u8;
                    let data = [&[0x40 + data][..], &vec![7; data as usize]].concat();
                    let payload =
                        [&[count][..], b"\x64data", &data, b"\x63off\x00", &pairs.concat()].concat();
                    let request = packet(2, 1, 1, &payload);
                    let (memory, reply) = (rng.bytes(40), rng.bytes(32));
                    harness.check(handle([0, 5, 5, 20], memory, session, tag, request, reply, [5, 5]));
                }
            }
        }
    }
}

/// A state read of two regions that touch, slot 0 first, with a reply buffer of this length.
fn list(harness: &mut Harness, rng: &mut Rng, slot_0: &[u8], upload: &[u8], room: usize) {
    let (size_0, size) = (slot_0.len() as u64, upload.len() as u64);
    let layout = [0, size_0, size_0, size];
    let memory = [slot_0, upload].concat();
    let answer = [rng.word(), rng.word()];
    harness.check(handle(layout, memory, [0; 4], [0; 32], packet(0, 1, 0, &[]), rng.bytes(room), answer));
}

/// Every byte, cut, version and reply buffer of small images, and every small layout.
fn images(harness: &mut Harness, rng: &mut Rng) {
    harness.kind("images: every byte, cut, version and reply buffer");
    let image = [
        b"\x3D\xB8\xF3\x96\0\0\0\0\x21\0\0\0\x01\0\0\0\0\0\0\0\x01\x02\x03\0\0\0\0\0\0\0\0\0\0\x77",
        &b"\x07\x69\x2D\0\x11\0\x01\0\x10\x10\0\x20\0"[..],
        &[9; 32],
    ]
    .concat();
    for at in 0..image.len() {
        for byte in 0..=255 {
            let mut changed = image.clone();
            changed[at] = byte;
            let slots = if rng.once_in(2) { [&changed[..], &[255]] } else { [&image, &changed[..]] };
            list(harness, rng, slots[0], slots[1], 160);
        }
    }
    for length in 1..=image.len() {
        list(harness, rng, &image[..length], &image, 160);
        list(harness, rng, &image, &image[..length], 160);
    }
    for version in 0..=0xFFFFu16 {
        let mut changed = image.clone();
        changed[22..24].copy_from_slice(&version.to_le_bytes());
        changed[20..22].copy_from_slice(&[version as u8, (version >> 8) as u8]);
        list(harness, rng, &changed, &[255], 160);
    }
    for room in 0..=160 {
        let mut longest = image.clone();
        longest[20..24].fill(255);
        for slots in [[&longest[..], &longest], [&longest, &image], [&image, &[255]], [&[255], &[255]]] {
            list(harness, rng, slots[0], slots[1], room);
        }
    }
    harness.kind("layouts: every small one");
    for memory in 0..=4 {
        let places = [0, 1, 2, 3, 4, 5, u64::MAX];
        for number in 0..7usize.pow(4) {
            let layout = [1, 7, 49, 343].map(|unit| places[number / unit % 7]);
            harness.check(configure(layout, memory, [3; 4], [3; 32]));
            let (memory, reply) = (rng.bytes(memory as usize), rng.bytes(32));
            let packet = packet(0, 1, 0, &[0xA0]);
            harness.check(handle(layout, memory, [0; 4], [0; 32], packet, reply, [5, 5]));
        }
    }
}

/// Every short output for the writers, and the longest packets.
fn writers(harness: &mut Harness, rng: &mut Rng) {
    harness.kind("writers: every short output, and the longest packets");
    for room in 0..=80 {
        for length in [0, 1, 5, 23, 24, 25, 40] {
            harness.check(write_echo(9, rng.bytes(length), rng.bytes(room), rng.word()));
            for off in [0, 1, 23, 24, 255, 256, 65_535, 65_536, 4_294_967_295, 4_294_967_296] {
                for tag in [0, 32] {
                    let (data, tag) = (rng.bytes(length), rng.bytes(tag));
                    harness.check(write_upload(
                        9,
                        data,
                        off,
                        length as u64,
                        tag,
                        rng.bytes(room),
                        rng.word(),
                    ));
                }
            }
        }
        harness.check(write_plain(Kind::WriteReset, room as u8, rng.bytes(room), rng.word()));
        harness.check(write_plain(Kind::WriteErase, room as u8, rng.bytes(room), rng.word()));
    }
    for length in (65_440..=65_540).chain([70_000]) {
        for room in [65_532, 65_533, 70_100] {
            harness.check(write_echo(9, vec![b'x'; length], vec![0; room], rng.word()));
            let off = rng.pick(&[0, 0, 1, 4_294_967_295]);
            let tag = if rng.once_in(2) { vec![] } else { vec![3; 32] };
            let whole = rng.pick(&[length as u64, 4_294_967_295]);
            harness.check(write_upload(9, vec![5; length], off, whole, tag, vec![0; room], rng.word()));
        }
    }
}

/// The most data for every short output, at the edges of each head's width.
fn most(harness: &mut Harness) {
    harness.kind("most data: every short output");
    for room in (0..=340).chain(65_500..=65_540) {
        for off in [0, 1, 23, 24, 255, 256, 65_535, 65_536, 4_294_967_295, 4_294_967_296] {
            harness.check(most_data(room, off, 0, 33));
        }
        for whole in [0, 1, 23, 24, 255, 256, 65_536, 4_294_967_295, 4_294_967_296] {
            for tag in [0, 31, 32] {
                harness.check(most_data(room, 0, whole, tag));
            }
        }
    }
}

/// Every first byte, distance, number, place and length of small files.
fn files(harness: &mut Harness, rng: &mut Rng) {
    harness.kind("recordings: every small file, distance, number and place");
    let two = b"\x3E\x00\x02ab\x3C\x00\x01c";
    let with_trailer = |before: &[u8], distance: u32, number: u32| {
        [before, &distance.to_be_bytes(), &number.to_be_bytes()].concat()
    };
    let mut ask = |file: &[u8], place: u64| {
        let free = [rng.next() as usize, rng.next() as usize, rng.next() as usize];
        harness.check(first_record(file.to_vec(), [free[0], free[1]]));
        harness.check(next_record(file.to_vec(), place, free));
    };
    for at in 0..two.len() {
        for byte in 0..=255 {
            let mut before = two.to_vec();
            before[at] = byte;
            let file = with_trailer(&before, 9, 2);
            ask(&file, if at < 5 { 0 } else { 5 });
        }
    }
    for distance in (0..=20).chain([255, 256, 9 << 8, 9 << 16, 9 << 24, u32::MAX]) {
        for number in (0..=4).chain([256, 2 << 8, 2 << 16, 2 << 24, u32::MAX]) {
            ask(&with_trailer(two, distance, number), distance as u64);
        }
    }
    let whole = with_trailer(&[&b"pre"[..], two].concat(), 9, 2);
    for length in 0..=whole.len() {
        for place in (0..=whole.len() as u64 + 1).chain([1 << 32, 1 << 63, u64::MAX - 2, u64::MAX]) {
            ask(&whole[..length], place);
        }
    }
}

/// Every room for answers and every output of a small transcript; every number of digits.
fn transcripts(harness: &mut Harness, rng: &mut Rng) {
    harness.kind("recordings: every room of a transcript, every number of digits");
    for numbers in 0..=17 {
        for count in (0..=5).chain([u64::MAX / 4, u64::MAX / 4 + 1, u64::MAX]) {
            for room in 0..=60 {
                let answers: Vec<u32> = (0..numbers).map(|number| number % 3).collect();
                let (session, out) = ([(room & 1) as u32, 0, 7, 0], rng.bytes(room));
                harness.check(write_transcript(answers, count, session, out, rng.next() as usize));
            }
        }
    }
    let powers = (0..10).map(|power| 10u32.pow(power)).chain([u32::MAX]);
    for number in powers.flat_map(|power| [power - 1, power, power.wrapping_add(1)]) {
        for answer in [[number, 0, 0, 0], [0, 1, number, 0], [0, 0, 0, number], [number; 4]] {
            for open in [0, 1, number] {
                let (session, out) = ([open, number, number, number], rng.bytes(60));
                harness.check(write_transcript(answer.to_vec(), 1, session, out, rng.next() as usize));
            }
        }
    }
    for count in [9, 10, 11, 99, 100, 101, 999, 1000, 1001, 9_999, 10_001, 100_001] {
        let (answers, out) = (vec![0; ANSWER * count], vec![7; 12 * count + 20]);
        harness.check(write_transcript(answers, count as u64, [0; 4], out, rng.next() as usize));
    }
}

/// Compares all of them.
pub fn run(harness: &mut Harness, rng: &mut Rng) {
    lumps(harness, rng);
    lines(harness, rng);
    texts(harness, rng);
    sends(harness, rng);
    maps(harness, rng);
    sessions(harness, rng);
    starts(harness, rng);
    images(harness, rng);
    writers(harness, rng);
    most(harness);
    files(harness, rng);
    transcripts(harness, rng);
}

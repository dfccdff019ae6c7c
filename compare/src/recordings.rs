//! Recordings of sessions, good and broken, their records, replays and transcripts.

use crate::call::{first_record, handle, next_record, replay, take_line, write_transcript, Bench};
use crate::harness::Harness;
use crate::lines;
use crate::requests::{request, start, Device};
use crate::rng::Rng;
use second::replay::ANSWER;
use second::{crc, port, sender};

/// The first byte of a record with a line to the controller, and of one with a line from it.
const TO: u8 = 0x3E;
const FROM: u8 = 0x3C;

/// The layout of the controller that a recording is replayed on.
const LAYOUT: [u64; 4] = [0, 4096, 4096, 4096];

/// A record: its first byte and its line.
type Record = (u8, Vec<u8>);

/// The bytes of records.
fn bytes_of(records: &[Record]) -> Vec<u8> {
    let mut bytes = Vec::new();
    for (way, line) in records {
        bytes.push(*way);
        bytes.extend_from_slice(&(line.len() as u16).to_be_bytes());
        bytes.extend_from_slice(line);
    }
    bytes
}

/// A file of a preface, bytes for records, and a trailer.
fn file(preface: &[u8], records: &[u8], distance: u32, number: u32) -> Vec<u8> {
    [preface, records, &distance.to_be_bytes(), &number.to_be_bytes()].concat()
}

/// A packet of op 2.
fn packet(group: u8, command: u8, payload: &[u8]) -> Vec<u8> {
    let [high, low] = (payload.len() as u16).to_be_bytes();
    [&[2, 0, high, low, 0, group, 0x42, command], payload].concat()
}

/// An upload's packet.
fn upload(data: &[u8], off: usize, length: usize, tag: &[u8]) -> Vec<u8> {
    let mut out = vec![0; data.len() + 100];
    let mut written = 0;
    let returned = port::write_upload(0x42, data, off as u64, length as u64, tag, &mut out, &mut written);
    assert_eq!(returned, 0);
    out.truncate(written as usize);
    out
}

/// A small image with a version and a hash that can be listed.
fn image(rng: &mut Rng) -> Vec<u8> {
    let mut image = vec![0; 32];
    image[..4].copy_from_slice(&[0x3D, 0xB8, 0xF3, 0x96]);
    image[8] = 32;
    image[20..24].copy_from_slice(&rng.word().to_le_bytes());
    image.extend_from_slice(&[0x07, 0x69, 40, 0, 0x10, 0, 32, 0]);
    image.extend(rng.bytes(32));
    image
}

/// The packets of a whole small upload, or of its beginning; now and then with a state read, a reset or an erase behind it.
fn small_upload(rng: &mut Rng) -> Vec<Vec<u8>> {
    let listed = rng.once_in(2);
    let length = rng.range(1, 100);
    let image = if listed { image(rng) } else { rng.bytes(length) };
    let tag = if rng.once_in(2) { rng.tag().to_vec() } else { vec![] };
    let cut = if rng.once_in(2) { image.len() } else { rng.range(1, image.len()) };
    let mut packets = vec![upload(&image[..cut], 0, image.len(), &tag)];
    if cut < image.len() && !rng.once_in(3) {
        packets.push(upload(&image[cut..], cut, 0, &[]));
    }
    match rng.below(6) {
        0..=2 if listed => packets.push(vec![0, 0, 0, 0, 0, 1, 0x42, 0]),
        3 | 4 => packets.push(packet(0, 5, &[0xA0])),
        5 => packets.push(packet(1, 5, &[0xA0])),
        _ => {}
    }
    packets
}

/// The packets of an upload that is begun, mostly with a tag, and then of others at offset 0.
fn other_starts(rng: &mut Rng) -> Vec<Vec<u8>> {
    let length = rng.range(1, 30) as u32;
    let place = if rng.once_in(4) { length } else { rng.range(1, length as usize) as u32 };
    let tag = rng.tag();
    let tagged = !rng.once_in(6);
    let data = rng.bytes(place as usize);
    let begun = upload(&data, 0, length as usize, if tagged { &tag } else { &[] });
    let session = [1, length, place, tagged as u32];
    let device = Device { layout: LAYOUT, memory: vec![], session, tag };
    let mut packets = vec![begun];
    packets.extend((0..rng.range(3, 6)).map(|_| start(rng, &device)));
    packets
}

/// A request for the session as it stands, mostly a short one.
fn any_request(rng: &mut Rng, device: &Device) -> Vec<u8> {
    let mut packet = request(rng, device);
    for _ in 0..6 {
        if packet.len() < 200 || rng.once_in(40) {
            break;
        }
        packet = request(rng, device);
    }
    packet
}

/// A line, or two, with a fault by the refusal that it is for.
fn faulty(rng: &mut Rng) -> Vec<Vec<u8>> {
    let whole = |total: u16, body: &[u8], crc: u16| {
        sender::line([6, 9], &[&total.to_be_bytes()[..], body, &crc.to_be_bytes()].concat())
    };
    let length = rng.range(8, 40);
    let body = rng.bytes(length);
    let sum = crc::crc16(&body);
    let total = length as u16 + 2;
    let line = match rng.below(9) {
        0 => {
            let length = rng.pick(&[128, 128, 129, 200, 300]);
            let mut line = lines::sent(&[0; 89]).remove(0);
            line.resize(length - 1, b'A');
            line.push(0x0A);
            line
        }
        1 => lines::noise(rng),
        2 => lines::with_bad_text(rng),
        3 => sender::line([4, 20], &body),
        4 if rng.once_in(3) => sender::line([6, 9], &body[..1]),
        4 => whole(rng.below(10) as u16, &body, sum),
        5 => whole(rng.pick(&[1027, 1027, 1028, 4000, 0xFFFF]), &body, sum),
        6 => whole(total - rng.range(1, (total as usize - 10).max(1)) as u16, &body, sum),
        7 => whole(total, &body, sum ^ 1 << rng.below(16)),
        _ => whole(10, &[rng.pick(&[1, 3, 4, 5, 255]), 0, 0, 0, 0, 0, 0, 0], 0),
    };
    if line.len() > 20 && rng.once_in(4) {
        return vec![begun(), line];
    }
    vec![line]
}

/// A line that begins a packet.
fn begun() -> Vec<u8> {
    lines::sent(&[0; 90]).remove(0)
}

/// The packet of eight bytes of an op that is no request's, in its line.
fn no_request(rng: &mut Rng) -> Vec<Vec<u8>> {
    let mut packet = [0; 8];
    packet[0] = rng.pick(&[1, 3, 4, 5, 255]);
    packet[3] = rng.below(2) as u8;
    lines::sent(&packet)
}

/// The lines of a session with a controller, some damaged, and what it replied.
fn session(rng: &mut Rng) -> Vec<Record> {
    let mut device = Device { layout: LAYOUT, memory: vec![255; 8192], session: [0; 4], tag: [0; 32] };
    let mut records = Vec::new();
    for _ in 0..rng.range(1, 3) {
        let packets = match rng.below(10) {
            0..=4 => small_upload(rng),
            5 => vec![packet(rng.below(3) as u8, rng.pick(&[2, 9, 255]), &[0xA0])],
            _ => vec![any_request(rng, &device)],
        };
        for packet in packets {
            let mut sent = match rng.below(8) {
                // A packet that no sender takes.
                _ if !(8..=65_533).contains(&packet.len()) => continue,
                0 if packet.len() < 60 => lines::cut(rng, &packet),
                _ => lines::sent(&packet),
            };
            if rng.once_in(8) {
                let at = rng.below(sent.len());
                lines::damage(rng, &mut sent[at]);
            }
            records.extend(sent.into_iter().map(|line| (TO, line)));
            let mut reply = [0; 1024];
            let mut answer = [0; 2];
            let Device { layout, memory, session, tag } = &mut device;
            let layout = layout.map(|number| number as usize);
            let handled = port::handle(&layout, memory, session, tag, &packet, &mut reply, &mut answer);
            if handled == 0 && rng.once_in(3) {
                let replied = lines::sent(&reply[..answer[0] as usize]);
                records.extend(replied.into_iter().map(|line| (FROM, line)));
            }
        }
        if rng.once_in(2) {
            let lines = if rng.once_in(8) { no_request(rng) } else { faulty(rng) };
            records.extend(lines.into_iter().map(|line| (TO, line)));
        }
    }
    records
}

/// The records of a recording: of a session, of any lines, or few or none.
fn records(rng: &mut Rng) -> Vec<Record> {
    match rng.below(16) {
        0 | 15 => vec![],
        1 => vec![(TO, lines::sent(&[0; 8]).remove(0))],
        2 => (0..rng.range(1, 3)).map(|_| (FROM, lines::noise(rng))).collect(),
        3 => {
            let way = |rng: &mut Rng| if rng.once_in(3) { FROM } else { TO };
            let line = |rng: &mut Rng| if rng.once_in(3) { vec![] } else { lines::noise(rng) };
            (0..rng.range(1, 4)).map(|_| (way(rng), line(rng))).collect()
        }
        4 | 5 => faulty(rng).into_iter().map(|line| (TO, line)).collect(),
        6 => no_request(rng).into_iter().map(|line| (TO, line)).collect(),
        7 => {
            // A packet whose last line does not come.
            let length = rng.range(90, 300);
            let mut sent = lines::sent(&rng.bytes(length));
            sent.pop();
            sent.into_iter().map(|line| (TO, line)).collect()
        }
        _ => session(rng),
    }
}

/// What stands before the records: nothing, any bytes, records, or a whole recording.
fn preface(rng: &mut Rng) -> Vec<u8> {
    let record = bytes_of(&[(TO, lines::sent(&[0; 8]).remove(0))]);
    match rng.below(8) {
        0 | 1 => {
            let length = rng.range(1, 20);
            rng.bytes(length)
        }
        2 => record,
        3 => file(b"", &record, 22, 1),
        _ => vec![],
    }
}

/// Makes a recording of records.
fn recording(rng: &mut Rng, records: &[Record]) -> Vec<u8> {
    let bytes = bytes_of(records);
    file(&preface(rng), &bytes, bytes.len() as u32, records.len() as u32)
}

/// A file that is no recording, or hardly one: a recording with one thing wrong, or any bytes.
fn broken(rng: &mut Rng, records: &[Record]) -> Vec<u8> {
    let mut records = records.to_vec();
    if records.is_empty() || rng.once_in(4) {
        records.push((FROM, b"boot\n".to_vec()));
    }
    let number = records.len() as u32;
    let mut bytes = bytes_of(&records);
    let distance = bytes.len() as u32;
    let preface = preface(rng);
    let many = rng.word();
    let whole = file(&preface, &bytes, distance, number);
    let last = bytes_of(&records[..records.len() - 1]).len();
    match rng.below(18) {
        0 => {
            let length = if rng.once_in(3) { 0 } else { rng.below(8) };
            rng.bytes(length)
        }
        1 => {
            let more = rng.pick(&[number + 1, number + 1, number + 1, number + 2, u32::MAX, many]);
            file(&preface, &bytes, distance, more)
        }
        2 => file(&preface, &bytes, distance, rng.pick(&[number - 1, number - 1, 0])),
        3 => file(&preface, &bytes, number, distance),
        4 => file(&preface, &bytes, distance + 1, number),
        5 => file(&preface, &bytes, distance - 1, number),
        6 => {
            let beyond = (preface.len() + bytes.len()) as u32;
            file(&preface, &bytes, rng.pick(&[beyond + 1, beyond + 8, beyond + 9, u32::MAX, many]), number)
        }
        7 => whole[..whole.len() - rng.range(1, 9.min(whole.len()))].to_vec(),
        8 => [&whole[..], &rng.bytes(1)].concat(),
        9 | 10 => {
            let at = if rng.once_in(2) { 0 } else { last };
            bytes[at] = rng.pick(&[0x00, 0x3D, 0x3F, 0x3B, 0xBE, 0xFF]);
            file(&preface, &bytes, distance, number)
        }
        11 => {
            // A record more that has no room for its head.
            bytes.extend_from_slice(rng.pick(&[&[TO][..], &[FROM], &[TO, 0], &[FROM, 0]]));
            file(&preface, &bytes, bytes.len() as u32, number + 1)
        }
        12 | 13 => {
            let length = u16::from_be_bytes([bytes[last + 1], bytes[last + 2]]);
            let [one, eight] = [1, 8].map(|more| length.wrapping_add(more));
            let longer = rng.pick(&[one, one, eight, length ^ 0x8000, 0xFFFF]);
            bytes[last + 1..last + 3].copy_from_slice(&longer.to_be_bytes());
            file(&preface, &bytes, distance, number)
        }
        14 => file(&preface, &bytes, rng.pick(&[0, 8, distance + 8]), number),
        15 => {
            // The trailer has its low bytes first.
            [&preface[..], &bytes, &distance.to_le_bytes(), &number.to_le_bytes()].concat()
        }
        16 => {
            let mut whole = whole;
            let at = rng.below(whole.len());
            whole[at] ^= 1 << rng.below(8);
            whole
        }
        _ => {
            let length = rng.below(40);
            rng.bytes(length)
        }
    }
}

/// A file: mostly a recording.
fn any_file(rng: &mut Rng, whole: usize) -> Vec<u8> {
    let records = records(rng);
    if rng.once_in(whole) {
        broken(rng, &records)
    } else {
        recording(rng, &records)
    }
}

/// A place of a file, at a record, near one, at the end or beyond.
fn place(rng: &mut Rng, file: &[u8]) -> u64 {
    let trailer = file.len().saturating_sub(8) as u64;
    match rng.below(10) {
        0 => trailer,
        1 => trailer.wrapping_sub(rng.range(1, 3) as u64),
        2 => trailer + rng.range(1, 9) as u64,
        3 => file.len() as u64 + rng.below(3) as u64,
        4 => rng.number(),
        5 => u64::MAX - rng.below(12) as u64,
        // Its lower half is a place of the file.
        6 => (rng.range(1, 3) as u64) << 32 | rng.below(file.len() + 1) as u64,
        _ => rng.below(file.len() + 1) as u64,
    }
}

/// The place that a file's trailer points to; the file's start where that is beyond it or there is none.
fn pointed(file: &[u8]) -> usize {
    let before = file.len().saturating_sub(8);
    let distance =
        file.get(before..before + 4).map_or(0, |bytes| u32::from_be_bytes(bytes.try_into().unwrap()));
    before.saturating_sub(distance as usize)
}

/// A file's first record, its records in order, and the records at some places.
pub fn files(harness: &mut Harness, rng: &mut Rng) {
    harness.kind("recordings: files and their records");
    let file = any_file(rng, 2);
    let free = [rng.next() as usize, rng.next() as usize, rng.next() as usize];
    let first = harness.check(first_record(file.clone(), [free[0], free[1]]));
    let mut at = pointed(&file);
    let mut come = 0;
    let over = loop {
        let next = harness.check(next_record(file.clone(), at as u64, free));
        if next.returned != 0 || next.sizes[0] == 0 {
            break next.returned == 0;
        }
        at = next.sizes[1] + next.sizes[2];
        come += 1;
    };
    if first.returned == 0 {
        assert!(over && first.sizes[1] == come, "as many records as the recording has, and then over");
    }
    for _ in 0..2 {
        let at = place(rng, &file);
        harness.check(next_record(file.clone(), at, free));
    }
}

/// A small file, mostly no recording, and one of its records or what stands behind them.
pub fn small_files(harness: &mut Harness, rng: &mut Rng) {
    harness.kind("recordings: small files, mostly broken");
    let line = |rng: &mut Rng| {
        let length = if rng.once_in(12) { rng.range(126, 130) } else { rng.below(6) };
        rng.bytes(length)
    };
    let record = |rng: &mut Rng| (rng.pick(&[TO, FROM]), line(rng));
    let records: Vec<Record> = (0..rng.below(4)).map(|_| record(rng)).collect();
    let file = if rng.once_in(5) { recording(rng, &records) } else { broken(rng, &records) };
    let free = [rng.next() as usize, rng.next() as usize, rng.next() as usize];
    harness.check(first_record(file.clone(), [free[0], free[1]]));
    let mut at = pointed(&file);
    while let (Ok(Some(record)), false) = (second::recording::next(&file, at), rng.once_in(4)) {
        at = record.line.end;
    }
    harness.check(next_record(file, at as u64, free));
}

/// A bench with anything on it.
fn bench(rng: &mut Rng) -> Bench {
    Bench {
        memory: vec![rng.byte(); 8192],
        session: [rng.word(), rng.word(), rng.word(), rng.word()],
        tag: rng.bytes(32).try_into().unwrap(),
        reader: lines::record(rng),
        packet: vec![rng.byte(); 1024],
        reply: vec![rng.byte(); 1024],
    }
}

/// The replay of a file on a bench with anything on it, and the transcript of its answers.
pub fn replays(harness: &mut Harness, rng: &mut Rng) {
    harness.kind("recordings: replays and their transcripts");
    let file = any_file(rng, 6);
    let (needed, short) = match second::recording::read(&file) {
        Ok((_, records)) => {
            let to =
                records.iter().filter(|record| record.way == second::recording::Way::ToController).count();
            (ANSWER * records.len(), ANSWER * to)
        }
        Err(_) => (12, 12),
    };
    let numbers = match rng.below(12) {
        0 => needed.saturating_sub(1),
        1 | 2 => short,
        3 => rng.below(needed + 1),
        4 | 5 => needed + rng.range(1, 9),
        _ => needed,
    };
    let answers = (0..numbers).map(|_| rng.word()).collect();
    let outcome = harness.check(replay(file, bench(rng), answers, rng.next() as usize));
    if outcome.returned == 0 {
        let session = outcome.words[..4].try_into().unwrap();
        let count = outcome.sizes[0];
        let room = 8 * count + 10;
        let out = rng.bytes(room);
        harness.check(write_transcript(
            outcome.words[8..].to_vec(),
            count as u64,
            session,
            out,
            rng.next() as usize,
        ));
    }
}

/// The replay of records on a bench with anything on it, with room for the answers.
fn replay_of(harness: &mut Harness, rng: &mut Rng, records: &[Record]) {
    let file = recording(rng, records);
    let answers = (0..ANSWER * records.len()).map(|_| rng.word()).collect();
    harness.check(replay(file, bench(rng), answers, rng.next() as usize));
}

/// The replay of many lines with bad texts, some while a packet is open.
pub fn texts(harness: &mut Harness, rng: &mut Rng) {
    harness.kind("recordings: bad texts");
    let mut records = Vec::new();
    for _ in 0..rng.range(8, 16) {
        if rng.once_in(3) {
            records.push((TO, begun()));
        }
        records.push((TO, lines::with_bad_text(rng)));
    }
    replay_of(harness, rng, &records);
}

/// The replay of uploads that are begun, each with others at offset 0 behind it.
pub fn starts(harness: &mut Harness, rng: &mut Rng) {
    harness.kind("recordings: uploads at offset 0, good or not in each field");
    let packets: Vec<Vec<u8>> = (0..rng.range(3, 5)).flat_map(|_| other_starts(rng)).collect();
    let lines = packets.iter().filter(|packet| packet.len() >= 8).flat_map(|packet| lines::sent(packet));
    let records: Vec<Record> = lines.map(|line| (TO, line)).collect();
    replay_of(harness, rng, &records);
}

/// The lines of a recording by its replay, and one by one by hand: both leave the same.
pub fn by_hand(harness: &mut Harness, rng: &mut Rng) {
    harness.kind("recordings: replayed, and fed by hand");
    let records = records(rng);
    let file = recording(rng, &records);
    let begun = bench(rng);
    let replayed = harness.check(replay(file, begun.clone(), vec![7; ANSWER * records.len()], 7));
    let (mut memory, mut packet, mut reply) = (vec![255; 8192], begun.packet, begun.reply);
    let (mut session, mut tag, mut reader) = ([0; 4], [0; 32], [0; 4]);
    let mut answers: Vec<u32> = Vec::new();
    for (_, line) in records.iter().filter(|(way, _)| *way == TO) {
        let taken = harness.check(take_line(reader, line.clone(), packet, [0, 0]));
        reader = taken.words[..4].try_into().unwrap();
        packet = taken.buffers.into_iter().nth(1).unwrap();
        let length = taken.words[4] as usize;
        if taken.returned != 0 || length == 0 {
            answers.extend([taken.returned, 0, 0, taken.words[5]]);
            continue;
        }
        let call = handle(LAYOUT, memory, session, tag, packet[..length].to_vec(), reply, [0; 2]);
        let mut handled = harness.check(call);
        session = handled.words[..4].try_into().unwrap();
        tag = handled.buffers[1][..].try_into().unwrap();
        reply = handled.buffers.pop().unwrap();
        memory = handled.buffers.swap_remove(0);
        let mut read = [0; 12];
        port::read_reply(&reply[..handled.words[4] as usize], &mut read);
        answers.extend(if handled.returned == 0 { [0, 1, read[6], 0] } else { [handled.returned, 0, 0, 0] });
    }
    assert_eq!(replayed.sizes, [answers.len() / ANSWER]);
    answers.resize(ANSWER * records.len(), 7);
    assert!(replayed.words == [&session[..], &reader, &answers].concat(), "session, reader and answers");
    let buffers = [memory, tag.to_vec(), packet, reply];
    assert!(replayed.buffers[1..] == buffers, "memory, tag and buffers");
}

/// A number for an answer or a session: of any number of digits.
fn digits(rng: &mut Rng) -> u32 {
    match rng.below(4) {
        0 => rng.below(13) as u32,
        1 => rng.pick(&[0, 9, 10, 99, 100, 999_999_999, 1_000_000_000, u32::MAX]),
        2 => 10u32.pow(rng.below(10) as u32).wrapping_sub(rng.below(2) as u32),
        _ => rng.number() as u32,
    }
}

/// The transcript of any numbers, with an output about as long as the text.
pub fn transcripts(harness: &mut Harness, rng: &mut Rng) {
    harness.kind("recordings: transcripts of any numbers");
    let count = if rng.once_in(5) { rng.range(98, 105) } else { rng.below(15) };
    let answer = |rng: &mut Rng| match rng.below(4) {
        0 => [digits(rng), 0, 0, digits(rng)],
        1 => [0, 1, digits(rng), 0],
        2 => [digits(rng), rng.pick(&[0, 0, 1, 2, 256, u32::MAX]), digits(rng), digits(rng)],
        _ => [digits(rng), digits(rng), digits(rng), digits(rng)],
    };
    let mut answers: Vec<u32> = (0..count).flat_map(|_| answer(rng)).collect();
    let session = match rng.below(3) {
        0 => [0, digits(rng), digits(rng), digits(rng)],
        1 => [1, digits(rng), rng.pick(&[0, 0, 1, 4096, 1_000_000_000, u32::MAX]), digits(rng)],
        _ => [digits(rng), digits(rng), digits(rng), digits(rng)],
    };
    let mut out = vec![0; 5000];
    let mut needed = 0;
    assert_eq!(port::write_transcript(&answers, count, &session, &mut out, &mut needed), 0);
    let quarter = u64::MAX / 4;
    let mut asked = count as u64;
    match rng.below(12) {
        0 if count > 0 => answers.truncate(ANSWER * count - 1),
        1 if count > 0 => answers.truncate(rng.below(ANSWER * count)),
        2 => asked += rng.range(1, 3) as u64,
        // Four times this is just over 64 bits, or at their end.
        3 => asked = quarter + rng.below(count + 3) as u64,
        4 => asked = rng.pick(&[2, 3]) * (quarter + 1) + rng.below(count + 2) as u64,
        5 => asked = rng.pick(&[1 << 63, (1 << 63) + count as u64, u64::MAX, u64::MAX - 1, 1 << 32]),
        6 => asked = rng.below(count + 1) as u64,
        7 | 8 => {
            let more = rng.range(1, 5);
            answers.extend((0..more).map(|_| rng.word()));
        }
        _ => {}
    }
    let room = match rng.below(8) {
        0 | 1 => needed - 1,
        2 => rng.below(needed),
        3 => needed + rng.range(1, 40),
        4 if rng.once_in(2) => 0,
        _ => needed,
    };
    harness.check(write_transcript(answers, asked, session, rng.bytes(room), rng.next() as usize));
}

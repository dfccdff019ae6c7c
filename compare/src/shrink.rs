//! Makes a failing call smaller for as long as it still fails.

use crate::call::{layout_of, Call, Kind};
use second::cbor::{self, Value};
use second::recording::{self, Record};
use second::replay::ANSWER;
use second::{base64, crc, sender};
use std::time::{Duration, Instant};

/// What is to become smaller: the bytes and words lent, then the bytes that are not 0, then the numbers.
fn weight(call: &Call) -> (usize, usize, u128) {
    let lengths = call.buffers.iter().map(Vec::len).sum::<usize>() + call.words.len();
    let bytes = call.buffers.iter().flatten().map(|byte| *byte as usize).sum();
    let numbers = call.numbers.iter().map(|number| *number as u128).sum::<u128>();
    let words = call.words.iter().map(|word| *word as u128).sum::<u128>();
    let sizes = call.sizes.iter().map(|size| *size as u128).sum::<u128>();
    (lengths, bytes, numbers + words + sizes)
}

/// Smaller numbers than a number.
fn smaller(number: u64) -> Vec<u64> {
    let mut list = vec![0, 1, 8, 10, 32, 127, number / 2, number - number / 4, number.wrapping_sub(1)];
    list.retain(|candidate| *candidate < number);
    list
}

/// Bytes with a part taken out, for parts of ever smaller size.
fn cuts(bytes: &[u8]) -> Vec<Vec<u8>> {
    let mut list = Vec::new();
    let mut size = bytes.len();
    while size > 0 {
        let step = size.max(bytes.len() / 400);
        let mut at = 0;
        while at + size <= bytes.len() {
            list.push([&bytes[..at], &bytes[at + size..]].concat());
            at += step;
        }
        size /= 2;
    }
    list
}

/// Bytes with a part made simpler, for parts of ever smaller size.
fn plainer(bytes: &[u8]) -> Vec<Vec<u8>> {
    let mut list = Vec::new();
    let mut size = bytes.len();
    while size > 0 {
        let step = size.max(bytes.len() / 400);
        let mut at = 0;
        while at + size <= bytes.len() {
            if bytes[at..at + size].iter().any(|byte| *byte != 0) {
                let mut plain = bytes.to_vec();
                plain[at..at + size].fill(0);
                list.push(plain);
            }
            at += step;
        }
        size /= 2;
    }
    if bytes.len() <= 200 {
        for at in 0..bytes.len() {
            for byte in [bytes[at] / 2, bytes[at].wrapping_sub(1)] {
                if byte < bytes[at] {
                    let mut plain = bytes.to_vec();
                    plain[at] = byte;
                    list.push(plain);
                }
            }
        }
    }
    list
}

/// Smaller packets whose length field is right, also with a pair less in the map's head.
fn packets(packet: &[u8]) -> Vec<Vec<u8>> {
    let mut list = Vec::new();
    if packet.len() < 8 {
        return list;
    }
    let (header, payload) = packet.split_at(8);
    for payload in cuts(payload) {
        let mut smaller = [header, &payload].concat();
        smaller[2..4].copy_from_slice(&(payload.len() as u16).to_be_bytes());
        if payload.first().map_or(false, |head| (0xA1..=0xB7).contains(head)) {
            let mut fewer = smaller.clone();
            fewer[8] -= 1;
            list.push(fewer);
        }
        list.push(smaller);
    }
    for payload in plainer(payload) {
        list.push([header, &payload].concat());
    }
    for payload in maps(payload) {
        let mut smaller = [header, &payload].concat();
        smaller[2..4].copy_from_slice(&(payload.len() as u16).to_be_bytes());
        list.push(smaller);
    }
    list
}

/// A key and its value, the value's bytes or text by themselves.
type Pair = (Vec<u8>, Value, Vec<u8>);

/// Writes pairs as a map, with the shortest heads.
fn write_map(pairs: &[Pair]) -> Vec<u8> {
    let mut map = Vec::new();
    cbor::write_head(&mut map, cbor::MAP, pairs.len() as u64);
    for (key, value, string) in pairs {
        cbor::write_string(&mut map, cbor::TEXT, key);
        match value {
            Value::Unsigned(number) => cbor::write_head(&mut map, cbor::UNSIGNED, *number),
            Value::Negative => map.push(0x20),
            Value::Bytes(_) => cbor::write_string(&mut map, cbor::BYTES, string),
            Value::Text(_) => cbor::write_string(&mut map, cbor::TEXT, string),
            Value::Bool(false) => map.push(0xF4),
            Value::Bool(true) => map.push(0xF5),
            Value::Null => map.push(0xF6),
        }
    }
    map
}

/// Smaller maps than a well-formed one: a pair less, a shorter string, a smaller number, all heads shortest.
fn maps(payload: &[u8]) -> Vec<Vec<u8>> {
    let map = match cbor::read_map(payload) {
        Ok(map) => map,
        Err(_) => return Vec::new(),
    };
    let pairs: Vec<Pair> = map
        .pairs()
        .iter()
        .map(|(key, value)| {
            let string = match value {
                Value::Bytes(place) | Value::Text(place) => payload[place.clone()].to_vec(),
                _ => Vec::new(),
            };
            (payload[key.clone()].to_vec(), value.clone(), string)
        })
        .collect();
    let mut list = vec![write_map(&pairs)];
    if pairs.len() > 100 {
        list.push(write_map(&pairs[..pairs.len() / 2]));
        list.push(write_map(&pairs[pairs.len() / 2..]));
        return list;
    }
    for at in 0..pairs.len() {
        let mut fewer = pairs.clone();
        fewer.remove(at);
        list.push(write_map(&fewer));
        let mut with = |key: Option<usize>, number: Option<u64>, string: Option<usize>| {
            let mut smaller = pairs.clone();
            if let Some(length) = key {
                smaller[at].0.truncate(length);
            }
            if let Some(number) = number {
                smaller[at].1 = Value::Unsigned(number);
            }
            if let Some(length) = string {
                smaller[at].2.truncate(length);
            }
            list.push(write_map(&smaller));
        };
        let (key, value, string) = &pairs[at];
        smaller(key.len() as u64).into_iter().for_each(|length| with(Some(length as usize), None, None));
        smaller(string.len() as u64).into_iter().for_each(|length| with(None, None, Some(length as usize)));
        if let Value::Unsigned(number) = value {
            smaller(*number).into_iter().for_each(|number| with(None, Some(number), None));
        }
    }
    list
}

/// Smaller lines whose text is well formed, also with the right total and CRC of a shorter body.
fn lines(line: &[u8]) -> Vec<Vec<u8>> {
    let mut list = Vec::new();
    if line.len() < 3 {
        return list;
    }
    let marker = [line[0], line[1]];
    let raw = match base64::decode(&line[2..line.len() - 1]) {
        Some(raw) => raw,
        None => return list,
    };
    for raw in cuts(&raw).into_iter().chain(plainer(&raw)) {
        list.push(sender::line(marker, &raw));
    }
    if raw.len() > 4 && marker == [6, 9] {
        let body = &raw[2..raw.len() - 2];
        for body in cuts(body).into_iter().chain(plainer(body)) {
            let total = (body.len() as u16 + 2).to_be_bytes();
            let crc = crc::crc16(&body).to_be_bytes();
            list.push(sender::line(marker, &[&total[..], &body, &crc].concat()));
        }
    }
    list
}

/// A partial frame that completes a packet, with a smaller or plainer packet and its right CRC.
fn completing(call: &Call) -> Vec<Call> {
    let mut list = Vec::new();
    let (line, packet) = (&call.buffers[0], &call.buffers[1]);
    let (total, come) = (call.words[1] as usize, call.words[2] as usize);
    let text = line.get(2..line.len().max(3) - 1).unwrap_or(&[]);
    let raw = match base64::decode(text) {
        Some(raw) => raw,
        None => return list,
    };
    if line[0] != 4 || come + raw.len() != total || raw.len() < 3 || packet.len() + 2 < total {
        return list;
    }
    let body = raw.len() - 2;
    let mut with = |before: Vec<u8>, carried: &[u8]| {
        let mut smaller = call.clone();
        let crc = crc::extend(crc::crc16(&before), carried).to_be_bytes();
        smaller.words[1] = (before.len() + carried.len() + 2) as u32;
        smaller.words[2] = before.len() as u32;
        smaller.buffers[0] = sender::line([4, 20], &[carried, &crc].concat());
        smaller.buffers[1] = [&before[..], &packet[come..]].concat();
        list.push(smaller);
    };
    for length in smaller(come as u64) {
        with(packet[..length as usize].to_vec(), &raw[..body]);
        with(vec![0; length as usize], &raw[..body]);
    }
    with(vec![0; come], &raw[..body]);
    for length in smaller(body as u64) {
        with(packet[..come].to_vec(), &raw[..length as usize]);
    }
    with(packet[..come].to_vec(), &vec![0; body]);
    list
}

/// A request made smaller in two places at once: packet and reply buffer, or session tag and the same tag in the packet.
fn together(call: &Call) -> Vec<Call> {
    let mut list = Vec::new();
    let (tag, packet, reply) = (&call.buffers[1], &call.buffers[2], &call.buffers[3]);
    if packet.len() >= 8 {
        for payload in maps(&packet[8..]) {
            let mut packet = [&packet[..8], &payload].concat();
            packet[2..4].copy_from_slice(&(payload.len() as u16).to_be_bytes());
            let saved = call.buffers[2].len().saturating_sub(packet.len());
            let mut smaller = call.clone();
            smaller.buffers[3] = reply[..reply.len().saturating_sub(saved).max(32).min(reply.len())].to_vec();
            smaller.buffers[2] = packet;
            list.push(smaller);
        }
    }
    if let Some(at) = packet.windows(32).position(|part| part == tag) {
        let mut smaller = call.clone();
        smaller.buffers[1] = vec![0; 32];
        smaller.buffers[2][at..at + 32].fill(0);
        list.push(smaller);
    }
    list
}

/// A request on a memory that ends with the later slot, or has nothing but slot 0 and then the upload slot, also with one of
/// them smaller.
fn with_slots(call: &Call) -> Vec<Call> {
    let [start_0, size_0, start, size] = layout_of(call).map(|number| number as usize);
    let memory = &call.buffers[0];
    let part = |start: usize, size: usize| memory.get(start..start.checked_add(size)?);
    let (slot_0, upload) = match (part(start_0, size_0), part(start, size)) {
        (Some(slot_0), Some(upload)) => (slot_0, upload),
        _ => return Vec::new(),
    };
    let mut shorter = call.clone();
    shorter.buffers[0].truncate((start_0 + size_0).max(start + size));
    let mut list = vec![shorter];
    for (size_0, size) in [
        (size_0, size),
        (0, size),
        (size_0 / 2, size),
        (size_0.saturating_sub(1), size),
        (size_0, size / 2),
        (size_0, size.saturating_sub(1)),
    ] {
        let mut smaller = call.clone();
        smaller.numbers = [0, size_0, size_0, size].map(|number| number as u64).to_vec();
        smaller.buffers[0] = [&slot_0[..size_0], &upload[..size]].concat();
        list.push(smaller);
    }
    list
}

/// A step at a lump's start, through as much of the lump as was left.
fn from_the_start(call: &Call) -> Vec<Call> {
    let mut smaller = call.clone();
    let left = call.buffers[1].iter().skip(call.numbers[0] as usize);
    smaller.buffers[1] = left.copied().collect();
    smaller.numbers[0] = 0;
    vec![smaller]
}

/// A recording of records at a place of a file, with what stands before them.
fn file_of(file: &[u8], preface: &[u8], records: &[Record]) -> Vec<u8> {
    let mut bytes = preface.to_vec();
    for record in records {
        bytes.push(record.way as u8);
        bytes.extend_from_slice(&(record.line.len() as u16).to_be_bytes());
        bytes.extend_from_slice(&file[record.line.clone()]);
    }
    let distance = (bytes.len() - preface.len()) as u32;
    bytes.extend_from_slice(&distance.to_be_bytes());
    bytes.extend_from_slice(&(records.len() as u32).to_be_bytes());
    bytes
}

/// Smaller recordings: without the preface, a record less, or a line cut short.
fn recordings(file: &[u8]) -> Vec<Vec<u8>> {
    let (first, records) = match recording::read(file) {
        Ok(read) => read,
        Err(_) => return Vec::new(),
    };
    let preface = &file[..first];
    let mut list = vec![file_of(file, &[], &records)];
    list.extend(cuts(preface).iter().map(|preface| file_of(file, preface, &records)));
    for at in 0..records.len() {
        let mut fewer = records.clone();
        fewer.remove(at);
        list.push(file_of(file, preface, &fewer));
        for length in smaller(records[at].line.len() as u64) {
            let mut shorter = records.clone();
            shorter[at].line.end = shorter[at].line.start + length as usize;
            list.push(file_of(file, preface, &shorter));
        }
    }
    list
}

/// A record at the start of a file, with all that stands behind its place.
fn from_the_place(call: &Call) -> Vec<Call> {
    let mut smaller = call.clone();
    smaller.buffers[0] = call.buffers[0].iter().skip(call.numbers[0] as usize).copied().collect();
    smaller.numbers[0] = 0;
    vec![smaller]
}

/// A call with fewer numbers for answers, also with as many answers less to be written, or without the first one.
fn fewer_answers(call: &Call) -> Vec<Call> {
    let others = if call.kind == Kind::Replay { 8 } else { 4 };
    let numbers = call.words.len() - others;
    let mut list = Vec::new();
    if call.kind == Kind::WriteTranscript && numbers >= ANSWER && call.numbers[0] > 0 {
        let mut fewer = call.clone();
        fewer.words.drain(others..others + ANSWER);
        fewer.numbers[0] -= 1;
        list.push(fewer);
    }
    for length in smaller(numbers as u64) {
        let mut fewer = call.clone();
        fewer.words.truncate(others + length as usize);
        list.push(fewer.clone());
        if call.kind == Kind::WriteTranscript {
            fewer.numbers[0] = call.numbers[0].saturating_sub((numbers as u64 - length) / ANSWER as u64);
            list.push(fewer);
        }
    }
    list
}

/// Calls that are somewhat smaller than a call.
fn candidates(call: &Call) -> Vec<Call> {
    let mut list = match call.kind {
        Kind::Collect => from_the_start(call),
        Kind::TakeLine => completing(call),
        Kind::Handle => [together(call), with_slots(call)].concat(),
        Kind::NextRecord => from_the_place(call),
        Kind::Replay | Kind::WriteTranscript => fewer_answers(call),
        _ => Vec::new(),
    };
    let mut with_buffer = |i: usize, buffer: Vec<u8>| {
        let mut smaller = call.clone();
        smaller.buffers[i] = buffer;
        list.push(smaller);
    };
    for (i, buffer) in call.buffers.iter().enumerate() {
        match (call.kind, i) {
            (Kind::TakeLine, 0) => lines(buffer).into_iter().for_each(|line| with_buffer(i, line)),
            (Kind::Handle, 2) | (Kind::ReadReply, 0) => {
                packets(buffer).into_iter().for_each(|packet| with_buffer(i, packet))
            }
            (Kind::FirstRecord | Kind::NextRecord | Kind::Replay, 0) => {
                recordings(buffer).into_iter().for_each(|file| with_buffer(i, file))
            }
            _ => {}
        }
        if !call.kind.is_fixed(i) {
            cuts(buffer).into_iter().for_each(|cut| with_buffer(i, cut));
        }
        plainer(buffer).into_iter().for_each(|plain| with_buffer(i, plain));
    }
    for (i, number) in call.numbers.iter().enumerate() {
        for number in smaller(*number) {
            let mut smaller = call.clone();
            smaller.numbers[i] = number;
            list.push(smaller);
        }
    }
    for (i, word) in call.words.iter().enumerate() {
        for word in smaller(*word as u64) {
            let mut smaller = call.clone();
            smaller.words[i] = word as u32;
            list.push(smaller);
        }
    }
    for (i, size) in call.sizes.iter().enumerate() {
        for size in smaller(*size as u64) {
            let mut smaller = call.clone();
            smaller.sizes[i] = size as usize;
            list.push(smaller);
        }
    }
    list
}

/// The smallest failing call found within a time, and how many smaller ones were taken on the way.
pub fn shrink(call: &Call, fails: impl Fn(&Call) -> bool) -> (Call, usize) {
    let until = Instant::now() + Duration::from_secs(20);
    let mut smallest = call.clone();
    let mut steps = 0;
    'again: loop {
        let bound = weight(&smallest);
        for candidate in candidates(&smallest) {
            if Instant::now() > until {
                return (smallest, steps);
            }
            if weight(&candidate) < bound && fails(&candidate) {
                smallest = candidate;
                steps += 1;
                continue 'again;
            }
        }
        return (smallest, steps);
    }
}

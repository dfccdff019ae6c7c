//! Measures the second program: bench PATH KIB ROUNDS. See bench/driver.c, whose paths, sizes, buffers and output these are.

use second::replay::ANSWER;
use second::{crc, port};
use std::sync::atomic::{compiler_fence, Ordering};
use std::time::Instant;

const STRIDE: usize = 128;
const PACKET: usize = 1024;
const BODY: usize = 512;
const LONGEST: usize = 65_533;
const DATA: usize = 480;
const TEXT: usize = 256;
const PAIRS: usize = 24;
const MAPS: usize = 2000;
const CHUNK: usize = 512;
const BEFORE_LAST: usize = 65_000;
const ERASES: usize = 4;
const LINE: usize = 127;
const RECORDING: usize = 49_152;
const RECORDS: usize = RECORDING / 3;
const TRAILER: usize = 8;
const BENCH_MEMORY: usize = 8_192;
const BENCH_SLOT: usize = BENCH_MEMORY / 2;

/// The digest of no bytes.
const NO_BYTES: u64 = 14_695_981_039_346_656_037;

/// What a recording is replayed on, the answers, and the recording.
struct Bench {
    memory: Box<[u8; BENCH_MEMORY]>,
    session: [u32; 4],
    tag: [u8; 32],
    reader: [u32; 4],
    packet: [u8; PACKET],
    reply: [u8; PACKET],
    answers: Vec<u32>,
    count: usize,
    recording: Vec<u8>,
}

/// All that the paths read and write.
struct World {
    image: Vec<u8>,
    memory: Vec<u8>,
    layout: [usize; 4],
    body_size: usize,
    leave_last: usize,
    lump_size: usize,
    step_count: usize,
    lines: Vec<u8>,
    line_lens: Vec<u32>,
    line_places: Vec<u32>,
    line_count: usize,
    out: Vec<u8>,
    out_len: usize,
    requests: Vec<u8>,
    request_lens: Vec<u32>,
    request_count: usize,
    request_stride: usize,
    first_request: usize,
    begun: [u32; 4],
    begun_tag: [u8; 32],
    replies: Vec<u8>,
    reply_lens: Vec<u32>,
    reply_count: usize,
    numbers_read: Vec<[u32; 12]>,
    come: Vec<u8>,
    back: Vec<u8>,
    sum: u64,
    family: String,
    bench: Bench,
}

/// What a path produced: its digest, and for one round the bytes and the calls.
struct Produced {
    digest: u64,
    bytes: usize,
    calls: usize,
}

/// Ends with one line where a call was refused or a result is wrong.
fn fail(what: &str) -> ! {
    eprintln!("bench: {what}");
    std::process::exit(1)
}

/// Lent memory, all 0, that is touched before it is measured.
fn touched(bytes: usize) -> Vec<u8> {
    let mut room = vec![1; bytes];
    room.fill(0);
    room
}

/// The length of the body that starts at a place of the image: 0 where under 8 bytes are left.
fn body_at(w: &World, at: usize) -> usize {
    let left = w.image.len() - at;
    if left < 8 {
        0
    } else {
        left.min(w.body_size)
    }
}

/// Sends every frame of every body of the image; but for the last of each, with the CRC, where that is left out.
fn run_send(w: &mut World) {
    let mut at = 0;
    w.line_count = 0;
    loop {
        let length = body_at(w, at);
        if length == 0 {
            break;
        }
        let mut sent = [0, 2];
        let mut k = 0;
        while k == 0 || k + w.leave_last < sent[1] as usize {
            let to = w.line_count * STRIDE;
            if port::send_frame(&w.image[at..at + length], k, &mut w.lines[to..to + LINE], &mut sent) != 0 {
                fail("a frame was refused");
            }
            w.line_lens[w.line_count] = sent[0];
            w.line_count += 1;
            k += 1;
        }
        at += length;
    }
}

/// Goes through every lump of the stream, and keeps each line.
fn run_collect(w: &mut World) {
    let mut record = [0; 2];
    let mut held = [0; LINE - 1];
    let mut got = [0; 2];
    w.line_count = 0;
    w.step_count = 0;
    for lump in w.out[..w.out_len].chunks(w.lump_size) {
        let mut at = 0;
        while at < lump.len() {
            let to = w.line_count * STRIDE;
            let line = w.lines[to..to + LINE].as_mut().try_into().expect("a line's room");
            if port::collect(&mut record, &mut held, lump, at, line, &mut got) != 0 {
                fail("a lump was refused");
            }
            w.line_lens[w.line_count] = got[0];
            w.line_count += (got[0] > 0) as usize;
            w.step_count += 1;
            at = got[1] as usize;
        }
    }
}

/// Reads every line of every body.
fn run_read(w: &mut World) {
    let mut reader = [0; 4];
    let (mut body, mut place) = (0, 0);
    w.out_len = 0;
    for i in 0..w.line_count {
        let line = &w.lines[i * STRIDE..i * STRIDE + w.line_lens[i] as usize];
        let packet = &mut w.out[w.out_len..w.out_len + LONGEST];
        if port::take_line(&mut reader, line, packet, &mut body, &mut place) != 0 {
            fail("a line was refused");
        }
        w.out_len += body as usize;
    }
}

/// Reads every line, each of which has a bad text.
fn run_bad(w: &mut World) {
    let mut reader = [0; 4];
    let mut body = 0;
    for i in 0..w.line_count {
        let line = &w.lines[i * STRIDE..i * STRIDE + w.line_lens[i] as usize];
        let packet = &mut w.out[..LONGEST];
        if port::take_line(&mut reader, line, packet, &mut body, &mut w.line_places[i]) != 4 {
            fail("a bad text was not refused");
        }
    }
}

/// The CRC alone of every body.
fn run_crc(w: &mut World) {
    let mut at = 0;
    w.sum = 0;
    loop {
        let length = body_at(w, at);
        if length == 0 {
            break;
        }
        w.sum += crc::crc16(&w.image[at..at + length]) as u64;
        at += length;
    }
}

/// Reads every reply.
fn run_reply(w: &mut World) {
    for i in 0..w.reply_count {
        let reply = &w.replies[i * PACKET..i * PACKET + w.reply_lens[i] as usize];
        if port::read_reply(reply, &mut w.numbers_read[i]) != 0 {
            fail("a reply was refused");
        }
    }
}

/// Handles every request from the first on.
fn run_handle(w: &mut World) {
    let mut session = w.begun;
    let mut tag = w.begun_tag;
    let mut answer = [0; 2];
    for i in w.first_request..w.request_count {
        let at = i * w.request_stride;
        let request = &w.requests[at..at + w.request_lens[i] as usize];
        let reply = &mut w.replies[i * PACKET..(i + 1) * PACKET];
        if port::handle(&w.layout, &mut w.memory, &mut session, &mut tag, request, reply, &mut answer) != 0 {
            fail("a request was refused");
        }
        w.reply_lens[i] = answer[0];
    }
    w.reply_count = w.request_count;
}

/// Sends a packet's frames and reads each; the packet comes to the output.
fn pass(packet: &[u8], to: &mut [u8]) -> usize {
    let mut reader = [0; 4];
    let mut sent = [0, 1];
    let (mut body, mut place) = (0, 0);
    let mut line = [0; STRIDE];
    let mut k = 0;
    while k < sent[1] as usize {
        if port::send_frame(packet, k, &mut line[..LINE], &mut sent) != 0 {
            fail("a frame was refused");
        }
        let line = &line[..sent[0] as usize];
        if port::take_line(&mut reader, line, &mut to[..LONGEST], &mut body, &mut place) != 0 {
            fail("a line was refused");
        }
        k += 1;
    }
    body as usize
}

/// Passes every recorded request and reply over the line.
fn run_frames(w: &mut World) {
    w.out_len = 0;
    for i in 0..w.request_count {
        let at = i * PACKET;
        w.out_len += pass(&w.requests[at..at + w.request_lens[i] as usize], &mut w.out[w.out_len..]);
        w.out_len += pass(&w.replies[at..at + w.reply_lens[i] as usize], &mut w.out[w.out_len..]);
    }
}

/// Uploads the image: write, send, read, handle, send, read, read the reply; without the line it records requests and replies.
fn upload(w: &mut World, framed: bool) {
    let mut request = [0; PACKET];
    let mut reply = [0; PACKET];
    let mut session = [0; 4];
    let mut tag = [0; 32];
    let mut answer = [0; 2];
    let mut numbers = [0; 12];
    let mut length = 0;
    let mut sequence = 0;
    let size = w.image.len();
    if port::configure(&w.layout, size, &mut session, &mut tag) != 0 {
        fail("the layout was refused");
    }
    w.request_count = 0;
    let mut off = 0;
    while off < size {
        let data = &w.image[off..off + DATA.min(size - off)];
        if port::write_upload(sequence, data, off as u64, size as u64, &[7; 32], &mut request, &mut length)
            != 0
        {
            fail("an upload was refused");
        }
        let mut got = &request[..length as usize];
        if framed {
            let come = pass(got, &mut w.come);
            got = &w.come[..come];
        }
        if port::handle(&w.layout, &mut w.memory, &mut session, &mut tag, got, &mut reply, &mut answer) != 0 {
            fail("a request was refused");
        }
        let mut read = &reply[..answer[0] as usize];
        let count = w.request_count;
        if framed {
            let back = pass(read, &mut w.back);
            read = &w.back[..back];
        } else {
            let at = count * PACKET;
            w.requests[at..at + got.len()].copy_from_slice(got);
            w.replies[at..at + read.len()].copy_from_slice(read);
        }
        if port::read_reply(read, &mut numbers) != 0 || numbers[6] != 0 || numbers[8] as usize <= off {
            fail("a reply is not as it has to be");
        }
        w.request_lens[count] = length;
        w.reply_lens[count] = answer[0];
        off = numbers[8] as usize;
        sequence = port::next_sequence(sequence);
        w.request_count += 1;
    }
    w.reply_count = w.request_count;
}

/// One whole upload over the line.
fn run_upload(w: &mut World) {
    upload(w, true)
}

/// Replays the recording, and writes the transcript.
fn run_replay(w: &mut World) {
    let Bench { memory, session, tag, reader, packet, reply, answers, count, recording } = &mut w.bench;
    if port::replay(recording, memory, session, tag, reader, packet, reply, answers, count) != 0 {
        fail("a recording was refused");
    }
    if port::write_transcript(answers, *count, session, &mut w.out[..RECORDING], &mut w.out_len) != 0 {
        fail("a transcript was refused");
    }
}

/// Sends the bodies, and spoils a character in the last group of each full line, in each of its four places in turn; other
/// lines are left out.
fn make_bad(w: &mut World) {
    run_send(w);
    let mut kept = 0;
    for i in 0..w.line_count {
        if w.line_lens[i] as usize == LINE {
            w.lines.copy_within(i * STRIDE..i * STRIDE + LINE, kept * STRIDE);
            w.lines[kept * STRIDE + LINE - 2 - kept % 4] = b'-';
            w.line_lens[kept] = LINE as u32;
            kept += 1;
        }
    }
    w.line_count = kept;
}

/// Joins the lines of every body to one stream in the output, and clears them.
fn make_stream(w: &mut World) {
    run_send(w);
    w.out_len = 0;
    for i in 0..w.line_count {
        let length = w.line_lens[i] as usize;
        let line = &mut w.lines[i * STRIDE..(i + 1) * STRIDE];
        w.out[w.out_len..w.out_len + length].copy_from_slice(&line[..length]);
        w.out_len += length;
        line.fill(0);
    }
}

/// Records the requests and replies of an upload.
fn make_upload(w: &mut World) {
    upload(w, false)
}

/// Nothing has to be there before.
fn make_nothing(_: &mut World) {}

/// Records the lines of uploads that fill the bench's slot, one after the other, until no line more has room; zeros stand before them.
fn make_recording(w: &mut World) {
    let mut request = [0; PACKET];
    let mut line = [0; LINE];
    let mut records = Vec::new();
    let (mut number, mut off) = (0u32, 0);
    'full: loop {
        let data = &w.image[off..(off + DATA).min(BENCH_SLOT)];
        let (mut length, mut sent, mut k) = (0, [0, 1], 0);
        if port::write_upload(0, data, off as u64, BENCH_SLOT as u64, &[], &mut request, &mut length) != 0 {
            fail("an upload was refused");
        }
        while k < sent[1] as usize {
            if port::send_frame(&request[..length as usize], k, &mut line, &mut sent) != 0 {
                fail("a frame was refused");
            }
            if records.len() + 3 + sent[0] as usize > RECORDING - TRAILER {
                break 'full;
            }
            records.extend_from_slice(&[0x3E, 0, sent[0] as u8]);
            records.extend_from_slice(&line[..sent[0] as usize]);
            number += 1;
            k += 1;
        }
        off = (off + data.len()) % BENCH_SLOT;
    }
    let recording = &mut w.bench.recording;
    let distance = records.len() as u32;
    records.extend_from_slice(&distance.to_be_bytes());
    records.extend_from_slice(&number.to_be_bytes());
    recording[RECORDING - records.len()..].copy_from_slice(&records);
}

/// Writes the echo requests.
fn make_echoes(w: &mut World) {
    for i in 0..MAPS {
        let text: Vec<u8> = (0..TEXT).map(|j| b'a' + ((i + j) % 26) as u8).collect();
        let out = &mut w.requests[i * PACKET..(i + 1) * PACKET];
        if port::write_echo(i as u8, &text, out, &mut w.request_lens[i]) != 0 {
            fail("an echo was refused");
        }
    }
    w.request_count = MAPS;
}

/// Writes the echo replies.
fn make_echo_replies(w: &mut World) {
    make_echoes(w);
    run_handle(w)
}

/// Writes an upload's requests, each with as much data as a packet of 512 bytes takes, and handles the first, which sets the slot to 255.
fn make_chunks(w: &mut World) {
    let size = w.image.len();
    let mut off = 0;
    w.request_count = 0;
    while off < size {
        let count = w.request_count;
        let out = &mut w.requests[count * PACKET..count * PACKET + CHUNK];
        let length = &mut w.request_lens[count];
        let mut data = CHUNK.min(size - off);
        while data > 0 {
            let chunk = &w.image[off..off + data];
            if port::write_upload(count as u8, chunk, off as u64, size as u64, &[7; 32], out, length) == 0 {
                break;
            }
            data -= 1;
        }
        if data == 0 {
            fail("an upload was refused");
        }
        off += data;
        w.request_count += 1;
    }
    let mut answer = [0; 2];
    let request = &w.requests[..w.request_lens[0] as usize];
    let reply = &mut w.replies[..PACKET];
    let (session, tag) = (&mut w.begun, &mut w.begun_tag);
    if port::handle(&w.layout, &mut w.memory, session, tag, request, reply, &mut answer) != 0 {
        fail("a request was refused");
    }
    w.reply_lens[0] = answer[0];
    w.first_request = 1;
}

/// A map of unknown pairs, with a count of its own.
fn unknown(i: usize, count: usize) -> Vec<u8> {
    let mut map = vec![0xB8, count as u8];
    for j in 0..PAIRS {
        map.extend([0x63, b'k', b'a' + j as u8, b'x', 0x19, (i >> 8 | 1) as u8, i as u8]);
    }
    map
}

/// Puts a packet of a header and a map to a place; gives its length.
fn put_packet(to: &mut [u8], op: u8, group: u8, sequence: usize, command: u8, map: &[u8]) -> u32 {
    let length = map.len();
    to[..8].copy_from_slice(&[op, 0, (length >> 8) as u8, length as u8, 0, group, sequence as u8, command]);
    to[8..8 + length].copy_from_slice(map);
    8 + length as u32
}

/// Writes replies whose map has unknown pairs before its rc.
fn make_pairs(w: &mut World) {
    for i in 0..MAPS {
        let mut map = unknown(i, PAIRS + 1);
        map.extend([0x62, b'r', b'c', (i % 20) as u8]);
        w.reply_lens[i] = put_packet(&mut w.replies[i * PACKET..], 3, 1, i, 1, &map);
    }
    w.reply_count = MAPS;
}

/// Writes requests whose map has unknown pairs: in turn an echo, with its text after them, and a reset.
fn make_unknown(w: &mut World) {
    for i in 0..MAPS {
        let echo = i % 2 == 0;
        let mut map = unknown(i, PAIRS + echo as usize);
        if echo {
            map.extend([0x61, b'd', 0x61, b'a' + (i % 26) as u8]);
        }
        let command = if echo { 0 } else { 5 };
        w.request_lens[i] = put_packet(&mut w.requests[i * PACKET..], 2, 0, i, command, &map);
    }
    w.request_count = MAPS;
}

/// Writes erase requests.
fn make_erases(w: &mut World) {
    for i in 0..ERASES {
        w.request_lens[i] = put_packet(&mut w.requests[i * PACKET..], 2, 1, i, 5, &[0xA0]);
    }
    w.request_count = ERASES;
}

/// Writes an image at a place: a header of 32 bytes, a body, and a TLV area of one entry, the hash.
fn put_image(to: &mut [u8], body: &[u8], hash: &[u8]) {
    let mut header = [0; 32];
    header[..4].copy_from_slice(&[0x3D, 0xB8, 0xF3, 0x96]);
    header[8] = 32;
    header[12..16].copy_from_slice(&(body.len() as u32).to_le_bytes());
    header[20..24].copy_from_slice(&[1, 20, 0x39, 0x30]);
    let whole = [&header, body, &[0x07, 0x69, 40, 0, 0x10, 0, 32, 0], hash].concat();
    to[..whole.len()].copy_from_slice(&whole);
}

/// Writes state reads, to a memory whose halves are the two slots, each with an image.
fn make_list(w: &mut World) {
    let half = w.image.len() / 2;
    w.layout = [0, half, half, half];
    for slot in w.memory.chunks_mut(half) {
        put_image(slot, &w.image[..w.body_size], &w.image[..32]);
    }
    for i in 0..MAPS {
        w.request_lens[i] = put_packet(&mut w.requests[i * PACKET..], 0, 1, i, 0, &[]);
    }
    w.request_count = MAPS;
}

/// Writes one request of a family, as long as a request may be; it is handled again and again, with a slot of one byte, so that none is
/// filled.
fn make_fill(w: &mut World) {
    let mut words = w.family.split('-');
    let (op, group, command) = match words.next() {
        Some("echo") => (2, 0, 0),
        Some("reset") => (2, 0, 5),
        Some("list") => (0, 1, 0),
        Some("upload") => (2, 1, 1),
        Some("erase") => (2, 1, 5),
        _ => fail("no such command"),
    };
    let hex = words.next().unwrap_or("").as_bytes();
    let digit = |c: u8| (c as char).to_digit(16).unwrap_or_else(|| fail("a pair is hexadecimal")) as u8;
    let pair: Vec<u8> = hex.chunks_exact(2).map(|two| digit(two[0]) << 4 | digit(two[1])).collect();
    if pair.len() < 2 {
        fail("a pair has two bytes or more");
    }
    let count = (LONGEST - 11) / pair.len();
    let mut map = vec![0xB9, (count >> 8) as u8, count as u8];
    map.extend(pair.repeat(count));
    let length = put_packet(&mut w.requests, op, group, 0, command, &map);
    w.request_count = w.image.len() / 65536;
    w.request_lens[..w.request_count].fill(length);
    w.request_stride = 0;
    w.layout[3] = 1;
}

/// Adds bytes to a digest (FNV-1a).
fn digest(value: u64, bytes: &[u8]) -> u64 {
    bytes.iter().fold(value, |value, byte| (value ^ *byte as u64).wrapping_mul(1_099_511_628_211))
}

/// A digest of packets or lines of a stride.
fn digest_all(bytes: &[u8], lens: &[u32], stride: usize) -> u64 {
    let each = lens.iter().enumerate();
    each.fold(NO_BYTES, |value, (i, length)| digest(value, &bytes[i * stride..i * stride + *length as usize]))
}

/// The lengths' sum.
fn total(lens: &[u32]) -> usize {
    lens.iter().map(|length| *length as usize).sum()
}

/// What was sent: the lines.
fn sent_lines(w: &World) -> Produced {
    let digest = digest_all(&w.lines, &w.line_lens[..w.line_count], STRIDE);
    Produced { digest, bytes: w.image.len(), calls: w.line_count }
}

/// What was collected: the lines again.
fn collected_lines(w: &World) -> Produced {
    let digest = digest_all(&w.lines, &w.line_lens[..w.line_count], STRIDE);
    Produced { digest, bytes: w.out_len, calls: w.step_count }
}

/// What was read: the bodies; or, without the last frames, what stands of the last long one.
fn read_bodies(w: &World) -> Produced {
    let open = w.leave_last == 1;
    let read = &w.out[..if open { BEFORE_LAST } else { w.out_len }];
    Produced { digest: digest(NO_BYTES, read), bytes: w.image.len(), calls: w.line_count }
}

/// The places of the bad texts.
fn found_places(w: &World) -> Produced {
    let places = w.line_places[..w.line_count].iter();
    let digest = places.fold(0u64, |value, place| value.wrapping_mul(31).wrapping_add(*place as u64));
    Produced { digest, bytes: total(&w.line_lens[..w.line_count]), calls: w.line_count }
}

/// The CRCs.
fn computed_crcs(w: &World) -> Produced {
    let bytes = w.image.len();
    Produced { digest: w.sum, bytes, calls: (bytes + w.body_size - 1) / w.body_size }
}

/// What was read in the replies.
fn read_replies(w: &World) -> Produced {
    let lens = &w.reply_lens[..w.reply_count];
    let numbers = w.numbers_read[..w.reply_count].iter().flatten();
    let sum = numbers.fold(0u64, |sum, number| sum.wrapping_mul(31).wrapping_add(*number as u64));
    let digest = digest_all(&w.replies, lens, PACKET) ^ sum;
    Produced { digest, bytes: total(lens), calls: w.reply_count }
}

/// The replies to the requests, and the slot.
fn answered(w: &World) -> Produced {
    let digest = digest(digest_all(&w.replies, &w.reply_lens[..w.reply_count], PACKET), &w.memory);
    let lens = &w.request_lens[w.first_request..w.request_count];
    Produced { digest, bytes: total(lens), calls: lens.len() }
}

/// The replies to the erases, and the slot, whose bytes are counted.
fn erased(w: &World) -> Produced {
    let answered = answered(w);
    Produced { bytes: answered.calls * w.layout[3], ..answered }
}

/// The lists, whose bytes are counted, and the memory.
fn listed(w: &World) -> Produced {
    Produced { bytes: total(&w.reply_lens[..w.reply_count]), ..answered(w) }
}

/// The packets that came over the line.
fn passed(w: &World) -> Produced {
    let digest = digest(NO_BYTES, &w.out[..w.out_len]);
    Produced { digest, bytes: w.image.len(), calls: w.request_count }
}

/// The slot, which has to hold the image.
fn uploaded(w: &World) -> Produced {
    if w.memory != w.image {
        fail("the slot does not hold the image");
    }
    Produced { digest: digest(NO_BYTES, &w.memory), bytes: w.image.len(), calls: w.request_count }
}

/// The transcript, and the bench's memory.
fn replayed(w: &World) -> Produced {
    let digest = digest(digest(NO_BYTES, &w.out[..w.out_len]), &w.bench.memory[..]);
    Produced { digest, bytes: RECORDING, calls: w.bench.count }
}

/// One round: what is counted (bench/count.c).
#[no_mangle]
#[inline(never)]
fn measured(run: fn(&mut World), w: &mut World) {
    run(w);
    compiler_fence(Ordering::SeqCst);
}

/// A path: what is made before, one round, what it produced; the bodies' length, whether the last frames are left out, and the lumps' length.
type Path = (fn(&mut World), fn(&mut World), fn(&World) -> Produced, usize, usize, usize);

/// The path of this name.
fn path_of(name: &str) -> Path {
    match name {
        "send" => (make_nothing, run_send, sent_lines, BODY, 0, 0),
        "sendlong" => (make_nothing, run_send, sent_lines, LONGEST, 0, 0),
        "sendlong-open" => (make_nothing, run_send, sent_lines, LONGEST, 1, 0),
        "collect256" => (make_stream, run_collect, collected_lines, BODY, 0, 256),
        "collect64" => (make_stream, run_collect, collected_lines, BODY, 0, 64),
        "collect16" => (make_stream, run_collect, collected_lines, BODY, 0, 16),
        "collect1" => (make_stream, run_collect, collected_lines, BODY, 0, 1),
        "read" => (run_send, run_read, read_bodies, BODY, 0, 0),
        "readlong" => (run_send, run_read, read_bodies, LONGEST, 0, 0),
        "readlong-open" => (run_send, run_read, read_bodies, LONGEST, 1, 0),
        "readbad" => (make_bad, run_bad, found_places, LONGEST, 0, 0),
        "crc" => (make_nothing, run_crc, computed_crcs, BODY, 0, 0),
        "reply" => (make_upload, run_reply, read_replies, 0, 0, 0),
        "echo" => (make_echo_replies, run_reply, read_replies, 0, 0, 0),
        "pairs" => (make_pairs, run_reply, read_replies, 0, 0, 0),
        "handle" => (make_echoes, run_handle, answered, 0, 0, 0),
        "chunks" => (make_chunks, run_handle, answered, 0, 0, 0),
        "unknown" => (make_unknown, run_handle, answered, 0, 0, 0),
        "erase" => (make_erases, run_handle, erased, 0, 0, 0),
        "list0" => (make_list, run_handle, listed, 0, 0, 0),
        "list60000" => (make_list, run_handle, listed, 60_000, 0, 0),
        "frames" => (make_upload, run_frames, passed, 0, 0, 0),
        "upload" => (make_nothing, run_upload, uploaded, 0, 0, 0),
        "replay" => (make_recording, run_replay, replayed, 0, 0, 0),
        _ if name.starts_with("fill-") => (make_fill, run_handle, answered, 0, 0, 0),
        _ => fail("no such path"),
    }
}

/// The buffers, touched before they are measured, and the image of a fixed seed.
fn set_up(size: usize, body_size: usize, leave_last: usize, lump_size: usize, family: &str) -> World {
    let packets = size / DATA + MAPS + 1;
    let mut state: u64 = 88_172_645_463_325_252;
    let mut next = || {
        state ^= state << 13;
        state ^= state >> 7;
        state ^= state << 17;
        (state >> 32) as u8
    };
    World {
        image: (0..size).map(|_| next()).collect(),
        memory: touched(size),
        layout: [0, 0, 0, size],
        body_size,
        leave_last,
        lump_size,
        step_count: 0,
        lines: touched((size / 64 + 16) * STRIDE),
        line_lens: vec![1; size / 64 + 16],
        line_places: vec![1; size / 64 + 16],
        line_count: 0,
        out: touched(2 * size + 2 * 65536),
        out_len: 0,
        requests: touched(packets * PACKET),
        request_lens: vec![1; packets],
        request_count: 0,
        request_stride: PACKET,
        first_request: 0,
        begun: [0; 4],
        begun_tag: [0; 32],
        replies: touched(packets * PACKET),
        reply_lens: vec![1; packets],
        reply_count: 0,
        numbers_read: vec![[1; 12]; packets],
        come: touched(65536),
        back: touched(65536),
        sum: 0,
        family: family.to_string(),
        bench: Bench {
            memory: Box::new([0; BENCH_MEMORY]),
            session: [0; 4],
            tag: [0; 32],
            reader: [0; 4],
            packet: [0; PACKET],
            reply: [0; PACKET],
            answers: vec![1; ANSWER * RECORDS],
            count: 0,
            recording: touched(RECORDING),
        },
    }
}

/// Sets up one path, runs its rounds and prints what came of it.
fn main() {
    let words: Vec<String> = std::env::args().collect();
    if words.len() != 4 {
        fail("usage: bench PATH KIB ROUNDS");
    }
    let number = |word: &str| word.parse::<usize>().unwrap_or_else(|_| fail("KIB and ROUNDS are numbers"));
    let (make, run, produced, body_size, leave_last, lump_size) = path_of(&words[1]);
    let family = words[1].trim_start_matches("fill-");
    let mut w = set_up(number(&words[2]) * 1024, body_size, leave_last, lump_size, family);
    make(&mut w);
    let mut best = u128::MAX;
    for _ in 0..number(&words[3]) {
        let from = Instant::now();
        measured(run, &mut w);
        best = best.min(from.elapsed().as_nanos());
    }
    let Produced { digest, bytes, calls } = produced(&w);
    println!("{digest:016x} {bytes} {calls} {best}");
}

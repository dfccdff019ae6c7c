//! "Both sides of each edge" and "Errors that come easily", with their literal bytes.

use second::{port, sender};

const IDLE: [u32; 4] = [0; 4];

/// A controller with an upload slot and an empty slot 0, for histories of packets.
struct Device {
    layout: [usize; 4],
    memory: Vec<u8>,
    record: [u32; 4],
    tag: [u8; 32],
}

impl Device {
    /// A configured controller whose memory is all 0.
    fn new(start: usize, size: usize, memory: usize) -> Device {
        let layout = [0, 0, start, size];
        let mut device = Device { layout, memory: vec![0; memory], record: [7; 4], tag: [7; 32] };
        assert_eq!(port::configure(&layout, memory, &mut device.record, &mut device.tag), 0);
        assert_eq!((device.record, device.tag), (IDLE, [0; 32]));
        device
    }

    /// The reply to a packet, and whether a reset is asked.
    fn ask(&mut self, packet: &[u8]) -> (Vec<u8>, bool) {
        let mut reply = [0xEE; 600];
        let mut answer = [9; 2];
        let Device { layout, memory, record, tag } = self;
        assert_eq!(port::handle(layout, memory, record, tag, packet, &mut reply, &mut answer), 0);
        let length = answer[0] as usize;
        assert!(reply[length..].iter().all(|byte| *byte == 0xEE));
        (reply[..length].to_vec(), answer[1] == 1)
    }

    /// The rc and off that a packet's reply has.
    fn numbers(&mut self, packet: &[u8]) -> (u32, Option<u32>) {
        let (reply, _) = self.ask(packet);
        let mut read = [0; 12];
        assert_eq!(port::read_reply(&reply, &mut read), 0);
        (read[6], (read[7] == 1).then_some(read[8]))
    }

    /// The slot's bytes.
    fn slot(&self) -> &[u8] {
        let [_, _, start, size] = self.layout;
        &self.memory[start..start + size]
    }
}

/// The packet with op 2 of a group, a command and a payload.
fn packet(group: u8, command: u8, payload: &[u8]) -> Vec<u8> {
    let length = (payload.len() as u16).to_be_bytes();
    [&[2, 0, length[0], length[1], 0, group, 0x42, command], payload].concat()
}

/// An upload packet, by the request writer.
fn upload(data: &[u8], off: u64, length: u64, tag: &[u8]) -> Vec<u8> {
    let mut out = vec![0; 2000];
    let mut written = 0;
    assert_eq!(port::write_upload(0x42, data, off, length, tag, &mut out, &mut written), 0);
    out.truncate(written as usize);
    out
}

/// The lines of a body.
fn lines(body: &[u8]) -> Vec<Vec<u8>> {
    let mut lines = Vec::new();
    let mut sent = [0, 1];
    while lines.len() < sent[1] as usize {
        let mut out = [0xEE; 127];
        assert_eq!(port::send_frame(body, lines.len(), &mut out, &mut sent), 0);
        assert!(out[sent[0] as usize..].iter().all(|byte| *byte == 0xEE));
        lines.push(out[..sent[0] as usize].to_vec());
    }
    let mut out = [0xEE; 127];
    assert_eq!(port::send_frame(body, lines.len(), &mut out, &mut sent), 13);
    lines
}

/// Takes one line, and sees to it that a place is given at refusal 4 alone.
fn take_line(record: &mut [u32; 4], line: &[u8], packet: &mut [u8], body: &mut u32) -> u32 {
    let mut place = 999;
    let returned = port::take_line(record, line, packet, body, &mut place);
    assert_eq!(returned == 4, place != 999);
    returned
}

/// A body of a length with bytes that differ.
fn body(length: usize) -> Vec<u8> {
    (0..length).map(|i| (i * 7 + i / 251) as u8).collect()
}

#[test]
fn eight_zero_bytes_in_one_line() {
    let expected = b"\x06\x09AAoAAAAAAAAAAAAA\x0A";
    assert_eq!(expected.len(), 19);
    assert_eq!(lines(&[0; 8]), [expected.to_vec()]);
    let mut record = IDLE;
    let mut buffer = [0xEE; 10];
    let mut length = 77;
    assert_eq!(take_line(&mut record, expected, &mut buffer, &mut length), 0);
    assert_eq!((length, record), (8, IDLE));
    assert_eq!(buffer, [0, 0, 0, 0, 0, 0, 0, 0, 0xEE, 0xEE]);
}

#[test]
fn reply_to_eight_zero_bytes() {
    let (reply, reset) = Device::new(0, 1, 1).ask(&[0; 8]);
    assert_eq!(reply, [0x01, 0, 0, 5, 0, 0, 0, 0, 0xA1, 0x62, 0x72, 0x63, 0x03]);
    assert!(!reset);
}

#[test]
fn success_at_512() {
    let mut device = Device::new(3, 1000, 1003);
    let (reply, _) = device.ask(&upload(&body(512), 0, 1000, &[]));
    let map = [0xA2, 0x62, 0x72, 0x63, 0x00, 0x63, 0x6F, 0x66, 0x66, 0x19, 0x02, 0x00];
    assert_eq!(reply[..8], [3, 0, 0, 12, 0, 1, 0x42, 1]);
    assert_eq!(reply[8..], map);
}

#[test]
fn data_01_at_512() {
    let map = [0xA2, 0x64, 0x64, 0x61, 0x74, 0x61, 0x41, 0x01, 0x63, 0x6F, 0x66, 0x66, 0x19, 0x02, 0x00];
    assert_eq!(upload(&[1], 512, 0, &[]), [&[2, 0, 0, 15, 0, 1, 0x42, 1], &map[..]].concat());
}

#[test]
fn frames_of_bodies_at_the_edges() {
    let lengths = |length| lines(&body(length)).iter().map(Vec::len).collect::<Vec<_>>();
    assert_eq!(lengths(88), [127]);
    assert_eq!(lengths(89), [127]);
    assert_eq!(lengths(90), [127, 7]);
    assert_eq!(lengths(91), [127, 7]);
    assert_eq!(lengths(92), [127, 7]);
    assert_eq!(lengths(93), [127, 11]);
    assert_eq!(lengths(182), [127, 127]);
    assert_eq!(lengths(183), [127, 127, 7]);
    assert_eq!(lengths(184), [127, 127, 7]);
    assert_eq!(lengths(275), [127, 127, 127]);
    assert_eq!(lengths(276), [127, 127, 127, 7]);
    assert_eq!(lengths(65_533).len(), 705);
}

#[test]
fn frame_count_is_the_formula() {
    for length in 8..=65_533usize {
        let formula = match length {
            0..=89 => 1,
            90..=182 => 2,
            _ => 2 + (length - 182 + 92) / 93,
        };
        assert_eq!(sender::cut(length).len(), formula);
    }
}

#[test]
fn sender_refuses() {
    let mut sent = [5, 6];
    assert_eq!(port::send_frame(&[0; 8], 9, &mut [0; 126], &mut sent), 12);
    assert_eq!(port::send_frame(&[0; 7], 9, &mut [0; 127], &mut sent), 12);
    assert_eq!(port::send_frame(&[0; 65_534], 0, &mut [0; 127], &mut sent), 12);
    assert_eq!(port::send_frame(&[0; 8], 1, &mut [0; 127], &mut sent), 13);
    assert_eq!(port::send_frame(&[0; 89], 1, &mut [0; 127], &mut sent), 13);
    assert_eq!(port::send_frame(&[0; 90], 2, &mut [0; 127], &mut sent), 13);
    assert_eq!(port::send_frame(&[0; 8], usize::MAX, &mut [0; 127], &mut sent), 13);
    assert_eq!(sent, [5, 6]);
}

#[test]
fn every_line_back_through_the_reader() {
    for length in (8..400).chain([4096, 65_532, 65_533]) {
        let body = body(length);
        let lines = lines(&body);
        let mut record = IDLE;
        let mut buffer = vec![0xEE; length];
        for (k, line) in lines.iter().enumerate() {
            let mut come = 99;
            assert_eq!(take_line(&mut record, line, &mut buffer, &mut come), 0);
            let last = k + 1 == lines.len();
            assert_eq!(come as usize, if last { length } else { 0 });
            assert_eq!(record[0], !last as u32);
        }
        assert_eq!(record, IDLE);
        assert_eq!(buffer, body);
    }
}

#[test]
fn len_of_the_slot_starts_and_one_more_is_rc_2() {
    let mut device = Device::new(2, 20, 30);
    assert_eq!(device.numbers(&upload(&[1, 2], 0, 21, &[])), (2, None));
    assert_eq!(device.numbers(&upload(&[1, 2], 0, 4_294_967_295, &[])), (2, None));
    assert_eq!((device.record, &device.memory), (IDLE, &vec![0; 30]));
    assert_eq!(device.numbers(&upload(&[1, 2], 0, 20, &[])), (0, Some(2)));
    assert_eq!(device.record, [1, 20, 2, 0]);
    let mut expected = vec![0; 30];
    expected[2..22].fill(255);
    expected[2..4].copy_from_slice(&[1, 2]);
    assert_eq!(device.memory, expected);
}

#[test]
fn chunk_ending_at_the_length_is_written_and_one_byte_more_is_rc_3() {
    let mut device = Device::new(2, 20, 30);
    assert_eq!(device.numbers(&upload(&[1, 2], 0, 10, &[])), (0, Some(2)));
    let before = device.memory.clone();
    assert_eq!(device.numbers(&upload(&[7; 9], 2, 0, &[])), (3, None));
    assert_eq!((device.record, &device.memory), ([1, 10, 2, 0], &before));
    assert_eq!(device.numbers(&upload(&[7; 8], 2, 0, &[])), (0, Some(10)));
    assert_eq!(device.record, [1, 10, 10, 0]);
    assert_eq!(device.slot()[..11], [1, 2, 7, 7, 7, 7, 7, 7, 7, 7, 255]);
    // The session stays open at its end.
    assert_eq!(device.numbers(&upload(&[7], 10, 0, &[])), (3, None));
    assert_eq!(device.numbers(&upload(&[7], 2, 0, &[])), (0, Some(10)));
}

#[test]
fn off_5_without_a_session_is_success_0() {
    let mut device = Device::new(0, 20, 20);
    assert_eq!(device.numbers(&upload(&[1], 5, 0, &[])), (0, Some(0)));
    assert_eq!((device.record, &device.memory), (IDLE, &vec![0; 20]));
}

#[test]
fn data_goes_to_place_n_only_where_off_is_n() {
    let mut device = Device::new(0, 20, 20);
    device.ask(&upload(&[1, 2, 3, 4], 0, 12, &[]));
    let before = device.memory.clone();
    for off in [1, 2, 3, 5, 11, 12, 13, 4_294_967_295] {
        assert_eq!(device.numbers(&upload(&[9; 3], off, 0, &[])), (0, Some(4)));
        assert_eq!(device.memory, before);
    }
    assert_eq!(device.numbers(&upload(&[9; 3], 4, 0, &[])), (0, Some(7)));
}

#[test]
fn off_plus_data_does_not_wrap() {
    // An impossible place is refused, so the sum is at most 1,048,576 plus the data; off itself may be the largest.
    let mut device = Device::new(0, 20, 20);
    device.ask(&upload(&[1, 2, 3, 4], 0, 12, &[]));
    assert_eq!(device.numbers(&upload(&[9; 9], 4_294_967_295, 0, &[])), (0, Some(4)));
    // off 2^32 + 4 is not 4.
    let map = b"\xA2\x64data\x41\x01\x63off\x1B\x00\x00\x00\x01\x00\x00\x00\x04";
    assert_eq!(device.numbers(&packet(1, 1, map)), (3, None));
    // off 2^64 - 1.
    let map = b"\xA2\x64data\x41\x01\x63off\x1B\xFF\xFF\xFF\xFF\xFF\xFF\xFF\xFF";
    assert_eq!(device.numbers(&packet(1, 1, map)), (3, None));
    // A string of 2^64 - 1 bytes.
    let map = b"\xA2\x64data\x5B\xFF\xFF\xFF\xFF\xFF\xFF\xFF\xFF\x63off\x04";
    assert_eq!(device.numbers(&packet(1, 1, map)), (3, None));
    assert_eq!(device.record, [1, 12, 4, 0]);
    // A region whose end wraps.
    assert_eq!(port::configure(&[0, 0, usize::MAX, 2], 20, &mut [0; 4], &mut [0; 32]), 1);
}

#[test]
fn repeated_chunk_gets_n_back() {
    let mut device = Device::new(0, 20, 20);
    device.ask(&upload(&[1, 2, 3, 4], 0, 12, &[]));
    let second = upload(&[5, 6], 4, 0, &[]);
    assert_eq!(device.numbers(&second), (0, Some(6)));
    let (memory, record) = (device.memory.clone(), device.record);
    assert_eq!(device.numbers(&second), (0, Some(6)));
    assert_eq!((memory, record), (device.memory, device.record));
}

#[test]
fn resume_needs_tag_and_length() {
    let tag: Vec<u8> = (100..132).collect();
    let mut device = Device::new(0, 20, 20);
    assert_eq!(device.numbers(&upload(&[1, 2, 3, 4], 0, 12, &tag)), (0, Some(4)));
    device.ask(&upload(&[5, 6], 4, 0, &[]));
    let (memory, record) = (device.memory.clone(), device.record);
    assert_eq!(record, [1, 12, 6, 1]);
    // The tag alone, with another length.
    assert_eq!(device.numbers(&upload(&[1, 2, 3, 4], 0, 13, &tag)), (6, None));
    // Both: resume, whatever the data.
    assert_eq!(device.numbers(&upload(&[9], 0, 12, &tag)), (0, Some(6)));
    assert_eq!((&memory, record), (&device.memory, device.record));
    // The length alone, without a tag or with another: start.
    assert_eq!(device.numbers(&upload(&[9], 0, 12, &[])), (0, Some(1)));
    assert_eq!((device.record, device.tag), ([1, 12, 1, 0], [0; 32]));
    assert_eq!(device.numbers(&upload(&[8], 0, 12, &[])), (0, Some(1)));
    assert_eq!(device.slot()[..2], [8, 255]);
    let other = [0; 32];
    assert_eq!(device.numbers(&upload(&[8, 8], 0, 12, &other)), (0, Some(2)));
    assert_eq!((device.record, device.tag), ([1, 12, 2, 1], [0; 32]));
}

#[test]
fn crc_is_over_the_body_only() {
    // Body of eight bytes 01: CRC with total would be another.
    let body = [1; 8];
    let right = second::crc::crc16(&body);
    let wrong = second::crc::crc16(&[0, 10, 1, 1, 1, 1, 1, 1, 1, 1]);
    assert_ne!(right, wrong);
    for (crc, expected) in [(right, 0), (wrong, 9)] {
        let raw = [&[0, 10][..], &body, &crc.to_be_bytes()].concat();
        let line = sender::line([6, 9], &raw);
        let mut record = [1, 50, 3, 0];
        let mut buffer = [0xEE; 8];
        let mut length = 99;
        assert_eq!(take_line(&mut record, &line, &mut buffer, &mut length), expected);
        assert_eq!(record, IDLE);
        assert_eq!((buffer, length), if expected == 0 { (body, 8) } else { ([0xEE; 8], 99) });
    }
}

#[test]
fn each_frame_decodes_by_itself() {
    // Frames of 3 and 10 raw bytes; the second's text ends in padding, so the joined texts would not be cut alike.
    let raw = [0, 11, 1, 2, 3, 4, 5, 6, 7, 8, 9];
    let crc = second::crc::crc16(&raw[2..]).to_be_bytes();
    let first = sender::line([6, 9], &raw[..4]);
    let second = sender::line([4, 20], &[&raw[4..], &crc].concat());
    assert_eq!(first, b"\x06\x09AAsBAg==\x0A");
    let mut record = IDLE;
    let mut buffer = [0xEE; 9];
    let mut length = 99;
    assert_eq!(take_line(&mut record, &first, &mut buffer, &mut length), 0);
    assert_eq!((record, length), ([1, 11, 2, 0], 0));
    assert_eq!(take_line(&mut record, &second, &mut buffer, &mut length), 0);
    assert_eq!((record, length), (IDLE, 9));
    assert_eq!(buffer, raw[2..]);
    // A text that is only well formed when joined with the next.
    let mut record = [1, 11, 2, 0];
    assert_eq!(take_line(&mut record, b"\x04\x14AA\x0A", &mut buffer, &mut length), 4);
    assert_eq!(record, IDLE);
}

#[test]
fn console_line_between_keeps_the_packet() {
    let body = body(200);
    let lines = lines(&body);
    let mut record = IDLE;
    let mut buffer = [0; 200];
    let mut length = 99;
    for line in &lines {
        assert_eq!(take_line(&mut record, line, &mut buffer, &mut length), 0);
        let before = (record, length);
        for (noise, refusal) in [
            (&b"hello\r\n"[..], 3),
            (b"", 3),
            (b"\x06\x09", 3),
            (b"\x06\x14AAAA\n", 3),
            (b"\x04\x09AAAA\n", 3),
            (b"\x06\x09AAAA", 3),
            (&[b'x'; 128], 2),
        ] {
            assert_eq!(take_line(&mut record, noise, &mut buffer, &mut length), refusal);
            assert_eq!((record, length), before);
        }
    }
    assert_eq!((length, &buffer[..]), (200, &body[..]));
}

#[test]
fn reader_refusals_and_records() {
    let take = |record: [u32; 4], line: &[u8], room: usize| {
        let mut after = record;
        let mut buffer = vec![0xEE; room];
        let mut length = 99;
        let answer = take_line(&mut after, line, &mut buffer, &mut length);
        if answer != 0 {
            assert!(buffer.iter().all(|byte| *byte == 0xEE));
            assert_eq!(length, 99);
        }
        (answer, after)
    };
    let open = [1, 20, 3, 0];
    // Empty texts, and a marked line ended 0D 0A.
    assert_eq!(take(open, b"\x06\x09\x0A", 100), (4, IDLE));
    assert_eq!(take(open, b"\x04\x14\x0A", 100), (4, IDLE));
    assert_eq!(take(open, b"\x04\x14AAAA\r\n", 100), (4, IDLE));
    // A partial frame without an open packet, or with an impossible one; bad text comes first.
    for bad in [[0, 20, 3, 0], [1, 9, 3, 0], [1, 65_536, 3, 0], [1, 20, 20, 0], [1, 20, 3, 256]] {
        assert_eq!(take(bad, b"\x04\x14AAAA\x0A", 100), (5, bad));
        assert_eq!(take(bad, b"\x04\x14AAA\x0A", 100), (4, IDLE));
    }
    // Any flag but 0 is open; a stray first byte within a byte is ignored and written as 0.
    assert_eq!(take([9, 20, 3, 255], b"\x04\x14AAAA\x0A", 100), (0, [1, 20, 6, 0]));
    // Under two raw bytes, total 9, total 10.
    assert_eq!(take(open, b"\x06\x09AA==\x0A", 100), (6, IDLE));
    assert_eq!(take(open, b"\x06\x09AAk=\x0A", 100), (6, IDLE));
    assert_eq!(take(open, b"\x06\x09AAo=\x0A", 100), (0, [1, 10, 0, 0]));
    // A body longer than the buffer, on both frames.
    assert_eq!(take(IDLE, b"\x06\x09AAo=\x0A", 7), (7, IDLE));
    assert_eq!(take(IDLE, b"\x06\x09AAo=\x0A", 8), (0, [1, 10, 0, 0]));
    assert_eq!(take(open, b"\x04\x14AAAA\x0A", 17), (7, IDLE));
    // More bytes than total says: 7 before 8, 8 before 9.
    assert_eq!(take([1, 20, 18, 0], b"\x04\x14AAAA\x0A", 17), (7, IDLE));
    assert_eq!(take([1, 20, 18, 0], b"\x04\x14AAAA\x0A", 18), (8, IDLE));
    // The CRC cut between two frames.
    assert_eq!(take([1, 20, 18, 0], b"\x04\x14Ag==\x0A", 18), (0, [1, 20, 19, 2]));
    assert_eq!(take([1, 20, 19, 2], b"\x04\x14Ag==\x0A", 18).0, 9);
}

#[test]
fn echo_and_its_room() {
    let request = |text: &[u8]| {
        let mut out = vec![0; text.len() + 20];
        let mut length = 0;
        assert_eq!(port::write_echo(7, text, &mut out, &mut length), 0);
        out.truncate(length as usize);
        out
    };
    assert_eq!(request(b""), [2, 0, 0, 4, 0, 0, 7, 0, 0xA1, 0x61, 0x64, 0x60]);
    let ask = |packet: &[u8], room: usize| {
        let mut reply = vec![0xEE; room];
        let mut answer = [9; 2];
        let (record, tag) = (&mut [0; 4], &mut [0; 32]);
        let number = port::handle(&[0, 0, 0, 4], &mut [0; 4], record, tag, packet, &mut reply, &mut answer);
        (number, reply, answer)
    };
    // Twenty characters fill a reply buffer of 32; one more does not fit.
    let (number, reply, answer) = ask(&request(&[b'x'; 20]), 32);
    assert_eq!((number, answer), (0, [32, 0]));
    assert_eq!(reply[..12], [3, 0, 0, 24, 0, 0, 7, 0, 0xA1, 0x61, 0x72, 0x74]);
    let (number, reply, answer) = ask(&request(&[b'x'; 21]), 32);
    assert_eq!((number, answer), (0, [13, 0]));
    assert_eq!(reply[..14], [3, 0, 0, 5, 0, 0, 7, 0, 0xA1, 0x62, 0x72, 0x63, 7, 0xEE]);
    assert_eq!(ask(&request(b"x"), 31), (11, vec![0xEE; 31], [9, 9]));
    // Refusal 11 stands before 10, and 1 before both.
    assert_eq!(ask(&[], 31).0, 11);
    assert_eq!(ask(&[], 32).0, 10);
    let (record, tag) = (&mut [1, 5, 1, 0], &mut [0; 32]);
    assert_eq!(port::handle(&[0, 0, 0, 4], &mut [0; 4], record, tag, &[], &mut [], &mut [0; 2]), 1);
}

#[test]
fn reset_erase_and_unknown_commands() {
    let tag = [3; 32];
    let mut device = Device::new(1, 6, 8);
    device.ask(&upload(&[1, 2, 3], 0, 5, &tag));
    let (memory, record) = (device.memory.clone(), device.record);
    // A malformed map, a wrong slot and an unknown command leave all as it was.
    assert_eq!(
        device.ask(&packet(0, 5, &[0xA1])),
        (vec![3, 0, 0, 5, 0, 0, 0x42, 5, 0xA1, 0x62, 0x72, 0x63, 3], false)
    );
    for slot in [&b"\xA1\x64slot\x00"[..], b"\xA1\x64slot\x02", b"\xA1\x64slot\x1B\0\0\0\x01\0\0\0\x01"] {
        assert_eq!(device.numbers(&packet(1, 5, slot)), (3, None));
    }
    assert_eq!(device.numbers(&packet(1, 0, &[0xFF])), (8, None));
    let mut op_0 = upload(&[9], 3, 0, &[]);
    op_0[0] = 0;
    assert_eq!(device.numbers(&op_0), (8, None));
    assert_eq!((&memory, record, tag), (&device.memory, device.record, device.tag));
    // A reset leaves the memory and ends the session.
    let (reply, reset) = device.ask(&packet(0, 5, b"\xA1\x65force\xF5"));
    assert_eq!(reply, [3, 0, 0, 5, 0, 0, 0x42, 5, 0xA1, 0x62, 0x72, 0x63, 0]);
    assert!(reset);
    assert_eq!((&memory, IDLE, [0; 32]), (&device.memory, device.record, device.tag));
    // An erase sets the whole slot and ends the session.
    device.ask(&upload(&[1, 2, 3], 0, 5, &tag));
    assert_eq!(device.numbers(&packet(1, 5, b"\xA1\x64slot\x18\x01")), (0, None));
    assert_eq!(device.memory, [0, 255, 255, 255, 255, 255, 255, 0]);
    assert_eq!((device.record, device.tag), (IDLE, [0; 32]));
}

#[test]
fn packets_that_are_no_requests() {
    let mut device = Device::new(0, 4, 4);
    let Device { layout, memory, record, tag } = &mut device;
    let mut refused =
        |packet: &[u8]| port::handle(layout, memory, record, tag, packet, &mut [0; 32], &mut [0; 2]);
    assert_eq!(refused(&[2, 0, 0, 0, 0, 0, 0]), 10);
    assert_eq!(refused(&[2, 0, 0, 1, 0, 0, 0, 5]), 10);
    assert_eq!(refused(&[2, 0, 0, 0, 0, 0, 0, 5, 0xA0]), 10);
    for op in [1, 3, 4, 10, 255] {
        assert_eq!(refused(&[op, 0, 0, 0, 0, 0, 0, 5]), 10);
    }
    // 8 plus the payload length matches, and is over 65,533.
    let mut long = vec![0; 65_534];
    long[..8].copy_from_slice(&[2, 0, 0xFF, 0xF6, 9, 9, 0, 9]);
    assert_eq!(refused(&long), 10);
    long.truncate(65_533);
    long[3] = 0xF5;
    assert_eq!(refused(&long), 0);
}

#[test]
fn first_chunk_checks() {
    let tag = [5; 32];
    let mut device = Device::new(0, 20, 20);
    device.ask(&upload(&[1, 2], 0, 9, &tag));
    // The map of an upload at offset 0 with more pairs behind "data" and "off".
    let first = |count: u8, more: &[u8]| {
        packet(1, 1, &[&[0xA2 + count][..], b"\x64data\x41\x07\x63off\x00", more].concat())
    };
    let sha = |length: u8, byte: u8| [&b"\x63sha\x58"[..], &[length], &vec![byte; length as usize]].concat();
    let with = |parts: &[&[u8]]| first(parts.len() as u8, &parts.concat());
    assert_eq!(device.numbers(&with(&[])), (3, None));
    assert_eq!(device.numbers(&with(&[b"\x63len\x00"])), (3, None));
    assert_eq!(device.numbers(&with(&[b"\x63len\x15"])), (2, None));
    assert_eq!(device.numbers(&with(&[b"\x63len\x09", b"\x65image\x01"])), (3, None));
    assert_eq!(device.numbers(&with(&[b"\x63len\x09", &sha(31, 5)])), (3, None));
    assert_eq!(device.numbers(&with(&[b"\x63len\x09", &sha(33, 5)])), (3, None));
    assert_eq!(device.numbers(&with(&[b"\x63len\x09", &sha(0, 5)])), (3, None));
    assert_eq!(device.numbers(&with(&[b"\x63len\x08", &sha(32, 5)])), (6, None));
    assert_eq!(device.numbers(&with(&[b"\x63len\x08", &sha(32, 5), b"\x67upgrade\xF5"])), (6, None));
    assert_eq!(device.numbers(&with(&[b"\x63len\x09", &sha(32, 5), b"\x67upgrade\xF5"])), (8, None));
    assert_eq!(device.numbers(&with(&[b"\x63len\x09", b"\x67upgrade\xF6"])), (3, None));
    assert_eq!(device.numbers(&with(&[b"\x63len\x09", b"\x63len\x09"])), (3, None));
    assert_eq!((device.record, device.tag), ([1, 9, 2, 1], tag));
    assert_eq!(device.slot()[..3], [1, 2, 255]);
    assert_eq!(device.numbers(&with(&[b"\x63len\x09", &sha(32, 5), b"\x67upgrade\xF4"])), (0, Some(2)));
    assert_eq!(
        device.numbers(&with(&[b"\x63len\x09", b"\x65image\x00", b"\x61x\x00", b"\x61x\x00"])),
        (0, Some(1))
    );
    assert_eq!((device.record, device.tag), ([1, 9, 1, 0], [0; 32]));
    assert_eq!(device.slot()[..3], [7, 255, 255]);
    // Data longer than "len", and of zero bytes.
    assert_eq!(device.numbers(&packet(1, 1, b"\xA3\x64data\x42\x07\x07\x63off\x00\x63len\x01")), (3, None));
    assert_eq!(device.numbers(&packet(1, 1, b"\xA3\x64data\x40\x63off\x00\x63len\x01")), (3, None));
    // Above offset 0 a long "len" and a wrong type count, a strange "image" does not.
    assert_eq!(
        device.numbers(&packet(1, 1, b"\xA3\x64data\x41\x07\x63off\x01\x63len\x1B\0\0\0\x01\0\0\0\0")),
        (3, None)
    );
    assert_eq!(device.numbers(&packet(1, 1, b"\xA3\x64data\x41\x07\x63off\x01\x63sha\x60")), (3, None));
    assert_eq!(
        device.numbers(&packet(1, 1, b"\xA4\x64data\x41\x07\x63off\x01\x65image\x09\x67upgrade\xF5")),
        (0, Some(2))
    );
}

#[test]
fn first_chunk_checks_stand_in_their_order() {
    let tag = [5; 32];
    let sha = [&b"\x63sha\x58\x20"[..], &tag].concat();
    let short = [&b"\x63sha\x58\x1F"[..], &tag[1..]].concat();
    let (above, most, over) =
        (b"\x63len\x15", b"\x63len\x1A\xFF\xFF\xFF\xFF", b"\x63len\x1B\0\0\0\x01\0\0\0\0");
    let (image, upgrade, one) = (b"\x65image\x01", b"\x67upgrade\xF5", b"\x63len\x01");
    let mut device = Device::new(0, 20, 20);
    device.ask(&upload(&[1, 2], 0, 9, &tag));
    // Each upload at offset 0 with two bytes of data and these pairs, and its rc.
    let uploads: [(&[&[u8]], u32); 14] = [
        (&[above], 2),
        (&[most], 2),
        (&[over], 3),
        (&[over, &sha, upgrade], 3),
        (&[above, image], 3),
        (&[above, &short], 2),
        (&[above, upgrade], 2),
        (&[above, &sha], 2),
        (&[above, &short, upgrade], 2),
        (&[one, &sha], 3),
        (&[one, &sha, upgrade], 3),
        (&[b"\x63len\x08", &sha], 6),
        (&[b"\x63len\x08", &sha, upgrade], 6),
        (&[b"\x63len\x08", &sha, image], 3),
    ];
    for (pairs, rc) in uploads {
        let map =
            [&[0xA2 + pairs.len() as u8], &b"\x64data\x42\x07\x07\x63off\x00"[..], &pairs.concat()].concat();
        assert_eq!(device.numbers(&packet(1, 1, &map)), (rc, None), "{pairs:x?}");
    }
    assert_eq!((device.record, device.tag), ([1, 9, 2, 1], tag));
    assert_eq!(device.slot()[..3], [1, 2, 255]);
    // Above offset 0 neither the length nor the tag counts.
    let map = [&b"\xA4\x64data\x41\x07\x63off\x02"[..], above, &sha].concat();
    assert_eq!(device.numbers(&packet(1, 1, &map)), (0, Some(3)));
}

#[test]
fn writer_refuses() {
    let write = |data: &[u8], off, length, tag: &[u8], room: usize| {
        let mut out = vec![0xEE; room];
        let mut written = 99;
        let number = port::write_upload(1, data, off, length, tag, &mut out, &mut written);
        if number != 0 {
            assert_eq!(written, 99);
            assert!(out.iter().all(|byte| *byte == 0xEE));
        }
        number
    };
    let largest = 4_294_967_295;
    assert_eq!(write(&[1], largest + 1, 1, &[], 100), 12);
    assert_eq!(write(&[1], largest, 1, &[], 100), 0);
    assert_eq!(write(&[], 1, 1, &[], 100), 12);
    assert_eq!(write(&[1], 0, 0, &[], 100), 12);
    assert_eq!(write(&[1], 0, largest + 1, &[], 100), 12);
    assert_eq!(write(&[1], 0, largest, &[], 100), 0);
    assert_eq!(write(&[1, 2], 0, 1, &[], 100), 12);
    assert_eq!(write(&[1, 2], 0, 2, &[], 100), 0);
    assert_eq!(write(&[1], 0, 1, &[0; 31], 100), 12);
    assert_eq!(write(&[1], 0, 1, &[0; 33], 100), 12);
    assert_eq!(write(&[1], 0, 1, &[0; 32], 100), 0);
    assert_eq!(write(&[1], 5, 0, &[0; 31], 100), 0);
    // 8 + A3, "data" 41 01, "len" 01, "off" 00.
    assert_eq!(write(&[1], 0, 1, &[], 26), 0);
    assert_eq!(write(&[1], 0, 1, &[], 25), 12);
    // The longest packets.
    assert_eq!(write(&[1; 65_511], 1, 0, &[], 70_000), 0);
    assert_eq!(write(&[1; 65_512], 1, 0, &[], 70_000), 12);
    let mut out = vec![0; 70_000];
    let mut written = 0;
    assert_eq!(port::write_echo(1, &[b'x'; 65_519], &mut out, &mut written), 0);
    assert_eq!(written, 65_533);
    assert_eq!(port::write_echo(1, &[b'x'; 65_520], &mut out, &mut written), 12);
    assert_eq!(port::write_reset(9, &mut out[..8], &mut written), 12);
    assert_eq!(port::write_reset(9, &mut out, &mut written), 0);
    assert_eq!(out[..written as usize], [2, 0, 0, 1, 0, 0, 9, 5, 0xA0]);
    assert_eq!(port::write_erase(9, &mut out, &mut written), 0);
    assert_eq!(out[..written as usize], [2, 0, 0, 1, 0, 1, 9, 5, 0xA0]);
}

#[test]
fn replies() {
    let read = |packet: &[u8]| {
        let mut reply = [99; 12];
        let number = port::read_reply(packet, &mut reply);
        if number != 0 {
            assert_eq!(reply, [99; 12]);
        }
        (number, reply)
    };
    // Without a map: rc 0.
    assert_eq!(read(&[1, 7, 0, 0, 2, 3, 4, 5]), (0, [1, 7, 0, 515, 4, 5, 0, 0, 0, 0, 0, 0]));
    // An empty text at the packet's end.
    assert_eq!(
        read(&[3, 0, 0, 4, 0, 0, 9, 0, 0xA1, 0x61, 0x72, 0x60]),
        (0, [3, 0, 4, 0, 9, 0, 0, 0, 0, 1, 12, 0])
    );
    // All three keys, in wide heads.
    let packet = b"\x03\x00\x00\x1D\x00\x01\x00\x01\xB8\x03\x78\x01r\x79\x00\x02hi\x62rc\x19\x00\x05\x63off\x1B\0\0\0\0\xFF\xFF\xFF\xFF";
    assert_eq!(read(packet), (0, [3, 0, 29, 1, 0, 1, 5, 1, 4_294_967_295, 1, 16, 2]));
    assert_eq!(read(&[2, 0, 0, 0, 0, 0, 0, 0]).0, 10);
    assert_eq!(read(&[1, 0, 0, 1, 0, 0, 0, 0]).0, 10);
    assert_eq!(read(&[1, 0, 0, 1, 0, 0, 0, 0, 0xF6]).0, 10);
    assert_eq!(read(b"\x01\0\0\x05\0\0\0\0\xA1\x62rc\x20").0, 10);
    assert_eq!(read(b"\x01\0\0\x09\0\0\0\0\xA2\x62rc\x00\x62rc\x00").0, 10);
    assert_eq!(read(b"\x01\0\0\x0D\0\0\0\0\xA1\x62rc\x1B\0\0\0\x01\0\0\0\0").0, 10);
    assert_eq!(read(b"\x01\0\0\x04\0\0\0\0\xA1\x61r\x40").0, 10);
}

#[test]
fn most_data() {
    // Past offset 0: 18 bytes, the heads of the data and of the offset, and the data.
    let later =
        [(20, 0), (21, 1), (43, 23), (44, 23), (45, 24), (276, 255), (277, 255), (278, 256), (512, 490)];
    for (room, most) in later {
        assert_eq!(port::most_data(room, 23, 0, 7), most, "{room}");
    }
    assert_eq!(port::most_data(512, 65_536, 0, 0), 486);
    // At offset 0 also the length, and a tag of 32 bytes with its key: 38 more.
    assert_eq!(port::most_data(512, 0, 100_000, 0), 481);
    assert_eq!(port::most_data(512, 0, 100_000, 32), 443);
    assert_eq!(port::most_data(512, 0, 5, 32), 5);
    assert_eq!(port::most_data(65_533, 1, 0, 0), 65_511);
    assert_eq!(port::most_data(70_000, 1, 0, 0), 65_511);
    for (off, length, tag) in [(0, 0, 0), (0, 4_294_967_296, 0), (0, 9, 31), (4_294_967_296, 9, 0)] {
        assert_eq!(port::most_data(512, off, length, tag), 0);
    }
}

#[test]
fn sequence_numbers() {
    assert_eq!(port::next_sequence(0), 1);
    assert_eq!(port::next_sequence(254), 255);
    assert_eq!(port::next_sequence(255), 0);
}

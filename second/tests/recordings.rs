//! Recordings of the line: what is one, its records, their replay and the transcript.

use second::{port, sender};

const TO: u8 = 0x3E;
const FROM: u8 = 0x3C;
const ZEROS: &[u8] = b"\x06\x09AAoAAAAAAAAAAAAA\x0A";

/// A record.
fn record(way: u8, line: &[u8]) -> Vec<u8> {
    let [high, low] = (line.len() as u16).to_be_bytes();
    [&[way, high, low], line].concat()
}

/// A file: some bytes, and a trailer with a distance and a number.
fn file(before: &[u8], distance: u32, number: u32) -> Vec<u8> {
    [before, &distance.to_be_bytes(), &number.to_be_bytes()].concat()
}

/// A recording of records, behind a preface.
fn recording(preface: &[u8], records: &[(u8, &[u8])]) -> Vec<u8> {
    let all: Vec<u8> = records.iter().flat_map(|(way, line)| record(*way, line)).collect();
    file(&[preface, &all].concat(), all.len() as u32, records.len() as u32)
}

/// The lines of a body.
fn lines(body: &[u8]) -> Vec<Vec<u8>> {
    let mut out = [0; 127];
    let mut lines = Vec::new();
    for k in 0..sender::cut(body.len()).len() {
        let (length, _) = sender::send_frame(body, k, &mut out).expect("a body and a frame of it");
        lines.push(out[..length].to_vec());
    }
    lines
}

/// An upload's packet, by the request writer.
fn upload(data: &[u8], off: u64, length: u64, tag: &[u8]) -> Vec<u8> {
    let mut out = vec![0; 2000];
    let mut written = 0;
    assert_eq!(port::write_upload(9, data, off, length, tag, &mut out, &mut written), 0);
    out.truncate(written as usize);
    out
}

/// The place of the first record and the number of records, or the refusal.
fn first(file: &[u8]) -> Result<[usize; 2], u32> {
    let mut first = [77, 78];
    match port::first_record(file, &mut first) {
        0 => Ok(first),
        refusal => {
            assert_eq!(first, [77, 78]);
            Err(refusal)
        }
    }
}

/// The record at a place, or the refusal.
fn next(file: &[u8], at: usize) -> Result<[usize; 3], u32> {
    let mut record = [77, 78, 79];
    match port::next_record(file, at, &mut record) {
        0 => Ok(record),
        refusal => {
            assert_eq!(record, [77, 78, 79]);
            Err(refusal)
        }
    }
}

/// Everything that a replay is lent.
#[derive(Clone, PartialEq)]
struct Bench {
    memory: [u8; 8192],
    session: [u32; 4],
    tag: [u8; 32],
    reader: [u32; 4],
    packet: [u8; 1024],
    reply: [u8; 1024],
    answers: Vec<u32>,
    count: usize,
}

impl Bench {
    /// A bench with anything on it, and so many numbers for answers.
    fn new(numbers: usize) -> Bench {
        Bench {
            memory: [7; 8192],
            session: [9; 4],
            tag: [9; 32],
            reader: [9; 4],
            packet: [0xEE; 1024],
            reply: [0xDD; 1024],
            answers: vec![99; numbers],
            count: 99,
        }
    }

    /// Replays a file.
    fn replay(&mut self, file: &[u8]) -> u32 {
        let Bench { memory, session, tag, reader, packet, reply, answers, count } = self;
        port::replay(file, memory, session, tag, reader, packet, reply, answers, count)
    }

    /// The transcript.
    fn transcript(&self) -> String {
        let mut out = vec![0xEE; 100_000];
        let mut length = 99;
        assert_eq!(
            port::write_transcript(&self.answers, self.count, &self.session, &mut out, &mut length),
            0
        );
        assert!(out[length..].iter().all(|byte| *byte == 0xEE));
        String::from_utf8(out[..length].to_vec()).unwrap()
    }
}

/// The transcript of a file's replay, or the refusal.
fn replayed(file: &[u8]) -> Result<String, u32> {
    let mut bench = Bench::new(2 * file.len());
    match bench.replay(file) {
        0 => Ok(bench.transcript()),
        refusal => {
            assert!(bench == Bench::new(2 * file.len()), "a refused replay leaves all");
            Err(refusal)
        }
    }
}

#[test]
fn eight_zeros_alone() {
    assert_eq!(replayed(&recording(b"", &[(TO, ZEROS)])), Ok("0 0 3\nend none\n".to_string()));
}

#[test]
fn no_records() {
    for preface in [&b""[..], b"x", b"\0\0\0\0\0\0\0\0", &recording(b"", &[(TO, ZEROS)])] {
        let file = recording(preface, &[]);
        assert_eq!(first(&file), Ok([preface.len(), 0]));
        assert_eq!(replayed(&file), Ok("end none\n".to_string()));
    }
}

#[test]
fn the_first_record_stands_where_the_trailer_points() {
    let whole = record(TO, ZEROS);
    for preface in [&b""[..], b"anything", &whole, &[&whole[..], &whole].concat()] {
        let file = recording(preface, &[(FROM, b"boot\n"), (TO, ZEROS)]);
        assert_eq!(first(&file), Ok([preface.len(), 2]));
        assert_eq!(replayed(&file), Ok("0 0 3\nend none\n".to_string()));
    }
}

#[test]
fn records_in_order_and_then_over() {
    let long = vec![b'x'; 300];
    let file = recording(b"pre", &[(TO, ZEROS), (FROM, b""), (TO, &long)]);
    assert_eq!(next(&file, 3), Ok([0x3E, 6, 19]));
    assert_eq!(next(&file, 25), Ok([0x3C, 28, 0]));
    assert_eq!(next(&file, 28), Ok([0x3E, 31, 300]));
    assert_eq!(next(&file, 331), Ok([0, 331, 0]));
    for at in [0, 1, 4, 26, 27, 29, 330, 332, 338, 339, 340, 1 << 32, usize::MAX - 2, usize::MAX] {
        assert_eq!(next(&file, at), Err(12), "{at}");
    }
}

#[test]
fn a_record_of_a_file_that_is_no_recording() {
    let file = file(&record(TO, b"abc"), 99, 99);
    assert_eq!(first(&file), Err(12));
    assert_eq!(next(&file, 0), Ok([0x3E, 3, 3]));
    assert_eq!(next(&file, 6), Ok([0, 6, 0]));
    for length in 0..8 {
        assert_eq!(next(&vec![0x3E; length], 0), Err(12));
        assert_eq!(first(&vec![0; length]), Err(12));
    }
    assert_eq!(next(&[0x3E; 8], 0), Ok([0, 0, 0]));
}

#[test]
fn a_record_ends_before_the_trailer() {
    for before in 0..6 {
        let bytes = &[TO, 0, 3, 1, 2, 3][..before];
        let expected = if before == 0 { Ok([0, 0, 0]) } else { Err(12) };
        assert_eq!(next(&file(bytes, 0, 0), 0), expected, "{before}");
    }
    assert_eq!(next(&file(&[TO, 0, 3, 1, 2, 3], 0, 0), 0), Ok([0x3E, 3, 3]));
    assert_eq!(next(&file(&[TO, 0, 4, 1, 2, 3], 0, 0), 0), Err(12));
    assert_eq!(next(&file(&[TO, 0xFF, 0xFF, 1, 2, 3], 0, 0), 0), Err(12));
    let most = record(FROM, &vec![0; 65_535]);
    assert_eq!(next(&file(&most, 0, 0), 0), Ok([0x3C, 3, 65_535]));
    assert_eq!(next(&file(&most[..65_537], 0, 0), 0), Err(12));
}

#[test]
fn only_3e_and_3c_begin_a_record() {
    for byte in 0..=255 {
        let bytes = record(byte, b"abc");
        let expected = if byte == 0x3E || byte == 0x3C { Ok([byte as usize, 3, 3]) } else { Err(12) };
        assert_eq!(next(&file(&bytes, 6, 1), 0), expected);
        assert_eq!(first(&file(&bytes, 6, 1)).is_ok(), expected.is_ok());
    }
}

#[test]
fn distance_and_number_have_to_fit() {
    let two = [record(TO, ZEROS), record(FROM, b"abc")].concat();
    assert_eq!(first(&file(&two, 28, 2)), Ok([0, 2]));
    assert_eq!(first(&file(&two, 6, 1)), Ok([22, 1]));
    assert_eq!(first(&file(&two, 0, 0)), Ok([28, 0]));
    for (distance, number) in [
        (28, 1),
        (28, 3),
        (28, 0),
        (28, u32::MAX),
        (27, 2),
        (29, 2),
        (36, 2),
        (u32::MAX, 2),
        (0, 1),
        (0, 2),
        (22, 1),
        (2, 28),
    ] {
        let file = file(&two, distance, number);
        assert_eq!(first(&file), Err(12), "{distance}, {number}");
        assert_eq!(replayed(&file), Err(12));
    }
}

#[test]
fn answers_by_their_lines() {
    let long = [&b"\x06\x09"[..], &[b'A'; 125], b"\n"].concat();
    let transcript = replayed(&recording(
        b"",
        &[
            (TO, &long),
            (TO, b"boot\n"),
            (TO, b""),
            (TO, b"\x06\x09AA-A\n"),
            (TO, b"\x04\x14AAAA\n"),
            (TO, b"\x06\x09AAkA\n"),
            (TO, b"\x06\x09BAMA\n"),
            (TO, b"\x06\x09AAoAAAAAAAAAAAAAAAAA\n"),
            (TO, b"\x06\x09AAoAAAAAAAAAAAAB\n"),
            (FROM, b"boot\n"),
            (TO, b"\x06\x09AAoA\n"),
            (TO, b"\x04\x14AAAAAAAAAAAA\n"),
            (TO, &lines(&[1, 0, 0, 0, 0, 0, 0, 0])[0]),
        ],
    ));
    let wanted =
        "0 2 -\n1 3 -\n2 3 -\n3 4 -\n4 5 -\n5 6 -\n6 7 -\n7 8 -\n8 9 -\n9 0 -\n10 0 3\n11 10 -\nend none\n";
    assert_eq!(transcript, Ok(wanted.to_string()));
}

#[test]
fn an_upload_and_a_list() {
    let begun = lines(&upload(&[1; 100], 0, 4096, &[]));
    let more = lines(&upload(&[2; 60], 100, 0, &[]));
    let reset = lines(&[2, 0, 0, 1, 0, 0, 7, 5, 0xA0]);
    let list = lines(&[0, 0, 0, 0, 0, 1, 7, 0]);
    let mut all: Vec<(u8, &[u8])> =
        begun.iter().chain(&list).chain(&more).map(|line| (TO, &line[..])).collect();
    let file = recording(b"", &all);
    assert_eq!(replayed(&file), Ok("0 0 -\n1 0 0\n2 0 0\n3 0 0\nend 160\n".to_string()));
    let mut bench = Bench::new(16);
    assert_eq!(bench.replay(&file), 0);
    assert_eq!((bench.session, bench.reader, bench.tag), ([1, 4096, 160, 0], [0; 4], [0; 32]));
    assert!(bench.memory[..4096].iter().all(|byte| *byte == 255));
    assert_eq!(bench.memory[4096..4256], [[1; 100].to_vec(), vec![2; 60]].concat());
    assert!(bench.memory[4256..].iter().all(|byte| *byte == 255));
    all.push((TO, &reset[0]));
    all.push((TO, &more[0]));
    let transcript = replayed(&recording(b"", &all));
    assert_eq!(transcript, Ok("0 0 -\n1 0 0\n2 0 0\n3 0 0\n4 0 0\n5 0 0\nend none\n".to_string()));
}

#[test]
fn bad_texts_have_their_places_and_three_fields() {
    let file = recording(
        b"",
        &[
            (TO, b"\x06\x09AA-A\n"),
            (FROM, b"\x06\x09A-AA\n"),
            (TO, b"\x04\x14\n"),
            (TO, b"\x06\x09AB==\n"),
            (TO, b"boot\n"),
            (TO, b"\x04\x14AAAAAAA\n"),
            (TO, ZEROS),
        ],
    );
    let mut bench = Bench::new(30);
    assert_eq!((bench.replay(&file), bench.count), (0, 6));
    let answers = [[4, 0, 0, 4], [4, 0, 0, 2], [4, 0, 0, 4], [3, 0, 0, 0], [4, 0, 0, 9], [0, 1, 3, 0]];
    assert_eq!(bench.answers[..24], answers.concat());
    assert_eq!(bench.answers[24..], [99; 6]);
    assert_eq!(bench.transcript(), "0 4 -\n1 4 -\n2 4 -\n3 3 -\n4 4 -\n5 0 3\nend none\n");
}

#[test]
fn rc_2_and_rc_6_in_a_replay() {
    let tag = [5; 32];
    let packets = [
        upload(&[1], 0, 4097, &tag),
        upload(&[1], 0, 4096, &tag),
        upload(&[1], 0, 4095, &tag),
        upload(&[1], 0, 4097, &tag),
        upload(&[2], 1, 0, &[]),
    ];
    let all: Vec<Vec<u8>> = packets.iter().flat_map(|packet| lines(packet)).collect();
    let records: Vec<(u8, &[u8])> = all.iter().map(|line| (TO, &line[..])).collect();
    let transcript = replayed(&recording(b"", &records));
    assert_eq!(transcript, Ok("0 0 2\n1 0 0\n2 0 6\n3 0 2\n4 0 0\nend 2\n".to_string()));
}

#[test]
fn room_for_an_answer_to_each_record() {
    let file = recording(b"", &[(FROM, b""), (TO, ZEROS), (FROM, b"")]);
    for numbers in [0, 1, 4, 9, 11] {
        let mut bench = Bench::new(numbers);
        assert_eq!(bench.replay(&file), 12);
        assert!(bench == Bench::new(numbers));
    }
    for numbers in [12, 13, 16] {
        let mut bench = Bench::new(numbers);
        assert_eq!(bench.replay(&file), 0);
        assert_eq!(bench.count, 1);
        assert_eq!(bench.answers[..4], [0, 1, 3, 0]);
        assert!(bench.answers[4..].iter().all(|number| *number == 99));
        assert_eq!(bench.memory, [255; 8192]);
        assert_eq!((bench.session, bench.tag, bench.reader), ([0; 4], [0; 32], [0; 4]));
        assert_eq!((bench.packet[7], bench.packet[8]), (0, 0xEE));
        assert_eq!((bench.reply[12], bench.reply[13]), (3, 0xDD));
    }
}

#[test]
fn a_transcript_of_any_numbers() {
    let most = u32::MAX;
    let answers = [12, 0, 7, 9, most, 2, most, most, 0, 1, 10, 0];
    let cases: [(usize, [u32; 4], &str); 5] = [
        (0, [0, 1, 2, 3], "end none\n"),
        (0, [2, 0, 0, 0], "end 0\n"),
        (1, [most, 0, most, 0], "0 12 -\nend 4294967295\n"),
        (2, [0; 4], "0 12 -\n1 4294967295 4294967295\nend none\n"),
        (3, [1, 9, 10, 1], "0 12 -\n1 4294967295 4294967295\n2 0 10\nend 10\n"),
    ];
    for (count, session, text) in cases {
        for room in [0, text.len() - 1, text.len(), text.len() + 1] {
            let mut out = vec![0xEE; room];
            let mut length = 99;
            let returned = port::write_transcript(&answers, count, &session, &mut out, &mut length);
            if room < text.len() {
                assert_eq!((returned, length), (12, 99));
                assert!(out.iter().all(|byte| *byte == 0xEE));
            } else {
                assert_eq!((returned, length), (0, text.len()));
                assert_eq!(&out[..length], text.as_bytes());
                assert!(out[length..].iter().all(|byte| *byte == 0xEE));
            }
        }
    }
}

#[test]
fn fewer_answers_than_asked_for() {
    let fourth = usize::MAX / 4;
    for (numbers, count) in [
        (0, 1),
        (3, 1),
        (4, 2),
        (7, 2),
        (8, fourth),
        (8, fourth + 1),
        (8, fourth + 3),
        (8, 1 << 63),
        (8, usize::MAX),
    ] {
        let mut out = [0xEE; 100];
        let mut length = 99;
        assert_eq!(port::write_transcript(&vec![0; numbers], count, &[0; 4], &mut out, &mut length), 12);
        assert_eq!((out, length), ([0xEE; 100], 99));
    }
}

/// Compares the transcript of every recording in a folder with the one beside it; gives how many there are.
fn same_transcripts(folder: &str) -> usize {
    let list = std::fs::read_to_string(format!("{folder}/list.txt")).unwrap();
    let cases: Vec<&str> = list.lines().filter(|line| !line.starts_with('#')).collect();
    for line in &cases {
        let number = line.split(' ').next().unwrap();
        let file = std::fs::read(format!("{folder}/{number}.bin")).unwrap();
        let wanted = std::fs::read_to_string(format!("{folder}/{number}.out")).unwrap();
        // What the program prints: it takes no longer recording.
        let printed = match replayed(&file) {
            Ok(transcript) if file.len() <= 49_152 => transcript,
            _ => "bad recording\n".to_string(),
        };
        assert_eq!(printed, wanted, "{line}");
    }
    cases.len()
}

#[test]
fn the_recordings_of_the_cases() {
    for (name, number) in [("W-205", 90), ("W-206", 24)] {
        let folder = format!("{}/../tests/cases/{name}", env!("CARGO_MANIFEST_DIR"));
        assert_eq!(same_transcripts(&folder), number);
    }
}

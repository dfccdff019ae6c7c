//! The place of a text that is not well formed: by kinds, by the sentence for every short text, and by the cases.

use second::{base64, port};
use std::collections::HashSet;

/// The longest text of a line.
const TEXT: usize = 124;

/// What an idle reader says to a line, and to one with an open packet, which says the same of a bad text: the refusal, and
/// the place where one is given.
fn take(line: &[u8]) -> (u32, Option<u32>) {
    let answers = [[0; 4], [1, 1000, 91, 0]].map(|mut record| {
        let mut packet = [0xEE; 1024];
        let (mut body, mut place) = (999, 999);
        let returned = port::take_line(&mut record, line, &mut packet, &mut body, &mut place);
        if returned == 4 {
            assert_eq!((record, body), ([0; 4], 999));
            assert!(packet.iter().all(|byte| *byte == 0xEE));
        }
        (returned, (place != 999).then_some(place))
    });
    if answers[0].0 == 4 {
        assert_eq!(answers[0], answers[1]);
    }
    answers[0]
}

/// The place of a text in a line of its own, which is refused 4.
fn place(text: &[u8]) -> u32 {
    let (returned, place) = take(&[b"\x06\x09", text, b"\n"].concat());
    assert_eq!(returned, 4, "{}", String::from_utf8_lossy(text));
    place.expect("a place")
}

#[test]
fn places_by_kind() {
    let places: [(&[u8], u32); 30] = [
        // Only too short: the place of the 0A.
        (b"", 2),
        (b"A", 3),
        (b"AB", 4),
        (b"AAA", 5),
        (b"AA=", 5),
        (b"AAAAA", 7),
        // A character of no value, in each place of four.
        (b"-AAA", 2),
        (b"A-AA", 3),
        (b"AA-A", 4),
        (b"AAA-", 5),
        (b"AAAA_AAA", 6),
        (b"AAAAAAA\xFF", 9),
        // The first of two.
        (b"A-A-", 3),
        // `=` too early.
        (b"=", 2),
        (b"====", 2),
        (b"A=", 3),
        (b"A===", 3),
        (b"AAAA=", 6),
        (b"AAAAA=", 7),
        // Unused bits: the first `=`.
        (b"AB==", 4),
        (b"AB=", 4),
        (b"AB=A", 4),
        (b"AAB=", 5),
        (b"AAAAAAB=", 9),
        // A character behind `=`, or behind a padded group.
        (b"AA=A", 5),
        (b"AAA==", 6),
        (b"AA==AAAA", 6),
        (b"AAA=A", 6),
        // A line end in the text.
        (b"AA\nA", 4),
        (b"AAAA\r", 6),
    ];
    for (text, expected) in places {
        assert_eq!(place(text), expected, "{}", String::from_utf8_lossy(text));
    }
    // The same at the end of a full line.
    let most = |ending: &[u8]| place(&[&vec![b'A'; TEXT - 4][..], ending].concat());
    assert_eq!([&b"-AAA"[..], b"A-AA", b"AA-A", b"AAA-"].map(most), [122, 123, 124, 125]);
    assert_eq!([&b"=AAA"[..], b"A=AA", b"AB==", b"AAB="].map(most), [122, 123, 124, 125]);
    assert_eq!([&b"A"[..], b"AA", b"AAA", b"AA="].map(most), [123, 124, 125, 125]);
}

#[test]
fn every_character_that_no_text_begins_with() {
    let alphabet = b"ABCDEFGHIJKLMNOPQRSTUVWXYZabcdefghijklmnopqrstuvwxyz0123456789+/";
    for byte in 0..=255 {
        for at in 0..8 {
            let mut text = *b"AAAAAAAA";
            text[at] = byte;
            // At the end one `=` pads; before that another character stands behind it.
            let good = alphabet.contains(&byte) || (byte == b'=' && at == 7);
            let expected = match (byte, at) {
                _ if good => None,
                // `=` is good as the third of four, and what stands behind it is not.
                (b'=', 2 | 6) => Some(at as u32 + 3),
                // So is the padding of a group that is not the last.
                (b'=', 3) => Some(at as u32 + 3),
                _ => Some(at as u32 + 2),
            };
            let line = [b"\x04\x14", &text[..], b"\n"].concat();
            let (returned, place) = take(&line);
            assert_eq!((returned == 4, place), (!good, expected), "{byte:x} at {at}");
        }
    }
}

#[test]
fn short_texts_by_the_sentence() {
    // Every text of up to 8 of these characters, and every beginning of those that are well formed. A beginning of up to 7
    // that can go on at all can end within 8.
    let characters = b"AB=-";
    let mut texts = vec![Vec::new()];
    let mut begun = 0;
    while texts.last().map_or(0, Vec::len) < 8 {
        let longer =
            texts[begun..].iter().flat_map(|text| characters.map(|next| [&text[..], &[next]].concat()));
        let longer: Vec<Vec<u8>> = longer.collect();
        begun = texts.len();
        texts.extend(longer);
    }
    assert_eq!(texts.len(), (4usize.pow(9) - 1) / 3);
    let mut beginnings = HashSet::new();
    for text in texts.iter().filter(|text| base64::decode(text).is_some()) {
        beginnings.extend((0..=text.len()).map(|length| &text[..length]));
    }
    let mut bad = 0;
    for text in texts.iter().filter(|text| text.len() < 8 && base64::decode(text).is_none()) {
        let fault = (0..text.len()).find(|at| !beginnings.contains(&text[..=*at]));
        assert_eq!(base64::fault(text), fault.unwrap_or(text.len()), "{}", String::from_utf8_lossy(text));
        bad += 1;
    }
    assert!(bad > 20_000, "{bad}");
}

#[test]
fn other_refusals_have_no_place() {
    assert_eq!(take(&[b'-'; 128]), (2, None));
    assert_eq!(take(b"\x06\x09A-AA"), (3, None));
    assert_eq!(take(b"\x04\x14AAAA\n"), (5, None));
    assert_eq!(take(b"\x06\x09AAAA\n"), (6, None));
    assert_eq!(take(b"\x06\x09//8A\n"), (7, None));
    assert_eq!(take(b"\x06\x09AAoAAAAAAAAAAAAAAAAA\n"), (8, None));
    assert_eq!(take(b"\x06\x09AAoAAAAAAAAAAAAB\n"), (9, None));
    assert_eq!(take(b"\x06\x09AAoA\n"), (0, None));
    assert_eq!(take(b"\x06\x09AAoAAAAAAAAAAAAA\n"), (0, None));
}

#[test]
fn the_lines_of_the_cases() {
    let file = concat!(env!("CARGO_MANIFEST_DIR"), "/../tests/cases/W-206.txt");
    let text = std::fs::read_to_string(file).unwrap();
    let mut cases = 0;
    for case in text.lines().filter(|line| line.starts_with("line ")) {
        let words: Vec<&str> = case.split(' ').take_while(|word| *word != "?").collect();
        let line: Vec<u8> = (0..words[1].len() / 2)
            .map(|i| u8::from_str_radix(&words[1][2 * i..][..2], 16).unwrap())
            .collect();
        let number = |at: usize| words[at].parse::<u32>().unwrap();
        let expected = match words[2] {
            "refused" => (number(3), words.get(4).map(|place| place.parse().unwrap())),
            _ => (0, None),
        };
        assert_eq!(take(&line), expected, "{case}");
        cases += 1;
    }
    assert_eq!(cases, 418);
}

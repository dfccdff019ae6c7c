//! The cases that the paper, the collector's promise and the published vectors name, with what they say of each.

use crate::call::*;
use crate::harness::Harness;
use second::replay::ANSWER;
use second::sender;

const IDLE: [u32; 4] = [0; 4];

/// The packet with op 2 of a group, a command and a payload.
fn packet(group: u8, command: u8, payload: &[u8]) -> Vec<u8> {
    let [high, low] = (payload.len() as u16).to_be_bytes();
    [&[2, 0, high, low, 0, group, 0x42, command], payload].concat()
}

/// A request on a memory of 40 bytes, slot 0 from 25 to 29 and the upload slot from 3 to 22, with a session.
fn on_slot(session: [u32; 4], tag: [u8; 32], packet: Vec<u8>) -> Call {
    handle([25, 5, 3, 20], vec![0x11; 40], session, tag, packet, vec![0xEE; 40], [77, 78])
}

/// An upload's packet, by the second program's writer.
fn upload(data: &[u8], off: u64, length: u64, tag: &[u8]) -> Vec<u8> {
    let mut out = vec![0; data.len() + 100];
    let mut written = 0;
    assert_eq!(second::port::write_upload(0x42, data, off, length, tag, &mut out, &mut written), 0);
    out.truncate(written as usize);
    out
}

/// The map of a reply to a request on the slot.
fn map(outcome: &Outcome) -> &[u8] {
    &outcome.buffers[3][8..outcome.words[4] as usize]
}

/// The map {"rc": rc}.
fn rc(rc: u8) -> [u8; 5] {
    [0xA1, 0x62, 0x72, 0x63, rc]
}

/// The map {"rc": 0, "off": n}, n below 24.
fn success(n: u8) -> [u8; 10] {
    [0xA2, 0x62, 0x72, 0x63, 0, 0x63, 0x6F, 0x66, 0x66, n]
}

/// Says whether a request on the slot left memory, session and tag as they were.
fn left_alone(outcome: &Outcome, session: [u32; 4], tag: [u8; 32]) -> bool {
    outcome.buffers[0] == [0x11; 40] && outcome.words[..4] == session && outcome.buffers[1] == tag
}

/// The slot after a start with some data, in the memory of `on_slot`.
fn started(data: &[u8]) -> Vec<u8> {
    let mut memory = vec![0x11; 40];
    memory[3..23].fill(255);
    memory[3..3 + data.len()].copy_from_slice(data);
    memory
}

/// "Both sides of each edge".
fn edges(harness: &mut Harness) {
    harness.kind("the paper: both sides of each edge");
    let line = b"\x06\x09AAoAAAAAAAAAAAAA\x0A".to_vec();
    harness.expect(send_frame(vec![0; 8], 0, vec![0xEE; 127], [5, 5]), |outcome| {
        outcome.returned == 0 && outcome.words == [19, 1] && outcome.buffers[1][..19] == line
    });
    harness.expect(take_line(IDLE, line.clone(), vec![0xEE; 9], [5, 6]), |outcome| {
        outcome.returned == 0
            && outcome.words == [0, 0, 0, 0, 8, 6]
            && outcome.buffers[1] == [0, 0, 0, 0, 0, 0, 0, 0, 0xEE]
    });
    harness.expect(on_slot(IDLE, [0; 32], vec![0; 8]), |outcome| {
        outcome.words[4..] == [13, 0]
            && outcome.buffers[3][..14] == [1, 0, 0, 5, 0, 0, 0, 0, 0xA1, 0x62, 0x72, 0x63, 3, 0xEE]
    });
    let first = upload(&[9; 512], 0, 1000, &[]);
    let layout = [0, 0, 0, 1000];
    harness.expect(handle(layout, vec![0; 1000], IDLE, [0; 32], first, vec![0; 32], [5, 5]), |outcome| {
        map(outcome) == [0xA2, 0x62, 0x72, 0x63, 0x00, 0x63, 0x6F, 0x66, 0x66, 0x19, 0x02, 0x00]
    });
    harness.expect(write_upload(0, vec![1], 512, 0, vec![], vec![0; 30], 5), |outcome| {
        outcome.words == [23]
            && outcome.buffers[2][8..23]
                == [0xA2, 0x64, 0x64, 0x61, 0x74, 0x61, 0x41, 0x01, 0x63, 0x6F, 0x66, 0x66, 0x19, 0x02, 0x00]
    });
    for (length, k, sent) in [
        (88, 0, [127, 1]),
        (89, 0, [127, 1]),
        (90, 0, [127, 2]),
        (90, 1, [7, 2]),
        (91, 1, [7, 2]),
        (92, 1, [7, 2]),
        (93, 1, [11, 2]),
        (182, 0, [127, 2]),
        (182, 1, [127, 2]),
        (183, 0, [127, 3]),
        (183, 1, [127, 3]),
        (183, 2, [7, 3]),
        (184, 2, [7, 3]),
        (275, 2, [127, 3]),
        (276, 2, [127, 4]),
        (276, 3, [7, 4]),
        (65_533, 0, [127, 705]),
        (65_533, 704, [91, 705]),
    ] {
        let body = (0..length).map(|i| (i % 253) as u8).collect();
        harness.expect(send_frame(body, k, vec![0xEE; 127], [5, 5]), |outcome| {
            outcome.returned == 0 && outcome.words == sent
        });
    }
    for (length, k) in [(88, 1), (89, 1), (90, 2), (182, 2), (183, 3), (275, 3), (276, 4), (65_533, 705)] {
        harness.expect(send_frame(vec![3; length], k, vec![0xEE; 127], [5, 5]), |outcome| {
            outcome.returned == 13
        });
    }
    harness.expect(on_slot(IDLE, [0; 32], upload(&[1, 2], 0, 20, &[])), |outcome| {
        map(outcome) == success(2)
            && outcome.words[..4] == [1, 20, 2, 0]
            && outcome.buffers[0] == started(&[1, 2])
    });
    for length in [21, 4_294_967_295] {
        harness.expect(on_slot(IDLE, [0; 32], upload(&[1, 2], 0, length, &[])), |outcome| {
            map(outcome) == rc(2) && left_alone(outcome, IDLE, [0; 32])
        });
    }
    let open = [1, 10, 4, 0];
    harness.expect(on_slot(open, [0; 32], upload(&[7; 6], 4, 0, &[])), |outcome| {
        let mut memory = vec![0x11; 40];
        memory[7..13].fill(7);
        map(outcome) == success(10) && outcome.words[..4] == [1, 10, 10, 0] && outcome.buffers[0] == memory
    });
    harness.expect(on_slot(open, [0; 32], upload(&[7; 7], 4, 0, &[])), |outcome| {
        map(outcome) == rc(3) && left_alone(outcome, open, [0; 32])
    });
    harness.expect(on_slot(IDLE, [0; 32], upload(&[7; 7], 5, 0, &[])), |outcome| {
        map(outcome) == success(0) && left_alone(outcome, IDLE, [0; 32])
    });
}

/// "Errors that come easily".
fn errors(harness: &mut Harness) {
    harness.kind("the paper: errors that come easily");
    let tag = [8; 32];
    let open = [1, 10, 4, 1];
    for off in [1, 2, 3, 5, 10, 11, 4_294_967_295] {
        harness.expect(on_slot(open, tag, upload(&[7; 3], off, 0, &[])), |outcome| {
            map(outcome) == success(4) && left_alone(outcome, open, tag)
        });
    }
    for off in [
        &b"\x1B\0\0\0\x01\0\0\0\x04"[..],
        b"\x1B\xFF\xFF\xFF\xFF\xFF\xFF\xFF\xFF",
        b"\x1B\xFF\xFF\xFF\xFF\0\0\0\x04",
    ] {
        let payload = [b"\xA2\x64data\x41\x01\x63off", off].concat();
        harness.expect(on_slot(open, tag, packet(1, 1, &payload)), |outcome| {
            map(outcome) == rc(3) && left_alone(outcome, open, tag)
        });
    }
    for length in [3, 9, 11, 20] {
        harness.expect(on_slot(open, tag, upload(&[7; 3], 0, length, &tag)), |outcome| {
            map(outcome) == rc(6) && left_alone(outcome, open, tag)
        });
    }
    harness.expect(on_slot(open, tag, upload(&[7; 3], 0, 10, &tag)), |outcome| {
        map(outcome) == success(4) && left_alone(outcome, open, tag)
    });
    harness.expect(on_slot(open, tag, upload(&[7; 3], 0, 10, &[])), |outcome| {
        map(outcome) == success(3)
            && outcome.words[..4] == [1, 10, 3, 0]
            && outcome.buffers[1] == [0; 32]
            && outcome.buffers[0] == started(&[7; 3])
    });
    harness.expect(on_slot([1, 10, 4, 0], [0; 32], upload(&[7; 3], 0, 10, &[0; 32])), |outcome| {
        map(outcome) == success(3) && outcome.words[..4] == [1, 10, 3, 1]
    });
    // The CRC with total in it, and the right one.
    for (with_total, answer) in [(true, 9), (false, 0)] {
        let raw = [0, 10, 1, 2, 3, 4, 5, 6, 7, 8];
        let crc = second::crc::crc16(if with_total { &raw } else { &raw[2..] });
        let line = sender::line([6, 9], &[&raw[..], &crc.to_be_bytes()].concat());
        harness.expect(take_line([1, 40, 3, 0], line, vec![0xEE; 8], [5, 6]), |outcome| {
            outcome.returned == answer && outcome.words[..4] == IDLE
        });
    }
    // A frame of 4 raw bytes, whose text ends in padding, and then the rest.
    harness.expect(take_line(IDLE, b"\x06\x09AAsBAg==\x0A".to_vec(), vec![0; 9], [5, 6]), |outcome| {
        outcome.returned == 0 && outcome.words == [1, 11, 2, 0, 0, 6] && outcome.buffers[1][..3] == [1, 2, 0]
    });
    harness.expect(take_line([1, 11, 2, 0], b"\x04\x14AA\x0A".to_vec(), vec![0; 9], [5, 6]), |outcome| {
        outcome.returned == 4 && outcome.words == [0, 0, 0, 0, 5, 4]
    });
    // A console line between.
    for (line, answer) in [(&b"hello\r\n"[..], 3), (b"\n", 3), (b"", 3), (&[b'x'; 128], 2)] {
        harness.expect(take_line([1, 11, 2, 0], line.to_vec(), vec![0; 9], [5, 6]), |outcome| {
            outcome.returned == answer && outcome.words == [1, 11, 2, 0, 5, 6]
        });
    }
}

/// A step on held bytes that are all `x`: record, lump and place; what it returns, record and `got` afterwards, and the
/// byte that all held ones are then.
type Step<'a> = ([u32; 2], &'a [u8], u64, u32, [u32; 4], u8);

/// The collector's line, lump, record and place at each edge; a lump's bytes are `x` too, but for 0A.
fn collector(harness: &mut Harness) {
    harness.kind("the collector: both sides of each edge");
    let step =
        |record, held, lump: &[u8], at| collect(record, held, lump.to_vec(), at, [0xEE; 127], [77, 78]);
    let steps: [Step; 20] = [
        ([0, 0], b"\n", 0, 0, [0, 0, 1, 1], 0),
        ([0, 0], b"x\n\nx", 1, 0, [0, 0, 1, 2], 0),
        ([125, 0], b"x", 0, 0, [126, 0, 0, 1], b'x'),
        ([126, 0], b"", 0, 0, [126, 0, 0, 0], b'x'),
        ([126, 0], b"\nx", 0, 0, [0, 0, 127, 1], 0),
        ([126, 0], b"x", 0, 0, [0, 1, 0, 1], 0),
        ([126, 0], b"xx\nx", 0, 2, [0, 0, 0, 3], 0),
        ([0, 0], &[b'x'; 256], 0, 0, [0, 1, 0, 256], 0),
        ([0, 0], &[b'x'; 257], 0, 12, [0, 0, 77, 78], b'x'),
        ([0, 1], b"xx", 0, 0, [0, 1, 0, 2], b'x'),
        ([2, 7], b"", 0, 0, [2, 1, 0, 0], b'x'),
        ([2, 7], b"xx", 0, 0, [2, 1, 0, 2], b'x'),
        ([2, 7], b"x\nx", 0, 2, [0, 0, 0, 2], 0),
        ([127, 0], b"", 0, 1, [127, 0, 77, 78], b'x'),
        ([127, 1], b"\n", 0, 1, [127, 1, 77, 78], b'x'),
        ([127, 0], &[b'x'; 257], 0, 1, [127, 0, 77, 78], b'x'),
        ([1, 0], b"x\n", 2, 0, [1, 0, 0, 2], b'x'),
        ([1, 0], b"x\n", 3, 0, [1, 0, 0, 2], b'x'),
        ([1, 0], b"x\n", 1 << 32, 0, [1, 0, 0, 2], b'x'),
        ([1, 0], b"x\n", u64::MAX, 0, [1, 0, 0, 2], b'x'),
    ];
    for (record, lump, at, returned, words, held) in steps {
        harness.expect(step(record, [b'x'; 126], lump, at), |outcome| {
            let mut line = [0xEE; 127];
            if returned == 0 && words[2] > 0 {
                line[..words[2] as usize].fill(b'x');
                line[words[2] as usize - 1] = 0x0A;
            }
            outcome.returned == returned
                && outcome.words == words
                && outcome.buffers[0] == [held; 126]
                && outcome.buffers[2] == line
        });
    }
    // An 0A as the last held byte, and as the first behind those.
    let mut held = [b'x'; 126];
    held[5] = 0x0A;
    for lump in [&b""[..], b"\n", &[b'x'; 257]] {
        harness.expect(step([6, 0], held, lump, 0), |outcome| {
            outcome.returned == 1 && outcome.words == [6, 0, 77, 78] && outcome.buffers[0] == held
        });
    }
    harness.expect(step([5, 0], held, b"\n", 0), |outcome| {
        outcome.returned == 0 && outcome.words == [0, 0, 6, 1] && outcome.buffers[2][..7] == *b"xxxxx\n\xEE"
    });
}

/// The smallest image of a version.
fn image([major, minor, low, high]: [u8; 4]) -> Vec<u8> {
    let header = [
        b"\x3D\xB8\xF3\x96\0\0\0\0\x20\0\0\0\0\0\0\0\0\0\0\0",
        &[major, minor, low, high, 0, 0, 0, 0, 0, 0, 0, 0][..],
    ];
    [&header.concat()[..], b"\x07\x69\x28\0\x10\0\x20\0", &[9; 32]].concat()
}

/// What the list has for such an image in a slot.
fn listed(slot: u8, version: &[u8]) -> Vec<u8> {
    let text = [&[0x60 + version.len() as u8], version].concat();
    [b"\xA3\x64slot", &[slot][..], b"\x67version", &text, b"\x64hash\x58\x20", &[9; 32]].concat()
}

/// The image list: its literal bytes, its refusals and their order.
fn images(harness: &mut Harness) {
    harness.kind("the image list: both sides of each edge");
    let ask = |layout, memory: &[u8], payload: &[u8], room| {
        let packet = [&[0, 0, 0, payload.len() as u8, 0, 1, 0x42, 0], payload].concat();
        handle(layout, memory.to_vec(), [1, 1, 1, 1], [8; 32], packet, vec![0xEE; room], [77, 78])
    };
    let longest = image([255; 4]);
    let both = [&longest[..], &longest].concat();
    let (first, second) = (listed(0, b"255.255.65535"), listed(1, b"255.255.65535"));
    let no_images = &b"\xA1\x66images\x80"[..];
    let touching = [0, 72, 72, 72];
    // Regions, room and payload, and the map of the reply.
    let answers: [(Layout, usize, &[u8], &[u8]); 12] = [
        (touching, 153, b"", &[&b"\xA1\x66images\x82"[..], &first, &second].concat()),
        ([72, 72, 0, 72], 153, b"\xA0", &[&b"\xA1\x66images\x82"[..], &first, &second].concat()),
        ([0, 71, 72, 72], 85, b"", &[&b"\xA1\x66images\x81"[..], &second].concat()),
        ([0, 72, 72, 71], 85, b"\xA1\x61x\xF6", &[&b"\xA1\x66images\x81"[..], &first].concat()),
        ([0, 71, 72, 71], 32, b"", no_images),
        ([100, 0, 72, 71], 32, b"", no_images),
        ([144, 0, 72, 71], 32, b"", no_images),
        (touching, 152, b"", &rc(7)),
        (touching, 32, b"", &rc(7)),
        (touching, 32, b"\xA1", &rc(3)),
        (touching, 153, b"\xA1\x61x\x80", &rc(3)),
        ([0, 71, 72, 71], 32, b"\xBF\xFF", &rc(3)),
    ];
    for (layout, room, payload, answer) in answers {
        harness.expect(ask(layout, &both, payload, room), |outcome| {
            outcome.returned == 0
                && outcome.words == [1, 1, 1, 1, 8 + answer.len() as u32, 0]
                && map(outcome) == answer
                && outcome.buffers[0] == both
                && outcome.buffers[3][8 + answer.len()..].iter().all(|byte| *byte == 0xEE)
        });
    }
    for layout in [
        [0, 73, 72, 72],
        [71, 73, 0, 72],
        [80, 1, 72, 72],
        [0, 144, 72, 72],
        [73, 72, 0, 72],
        [145, 0, 0, 72],
        [u64::MAX, 1, 0, 72],
        [u64::MAX - 71, 144, 72, 72],
    ] {
        for (room, payload) in [(31, &b"\xA1"[..]), (32, b"\xA1"), (153, b"")] {
            harness.expect(ask(layout, &both, payload, room), |outcome| {
                outcome.returned == 1
                    && outcome.words == [1, 1, 1, 1, 77, 78]
                    && outcome.buffers[0] == both
                    && outcome.buffers[3].iter().all(|byte| *byte == 0xEE)
            });
        }
        harness.expect(configure(layout, 144, [7; 4], [7; 32]), |outcome| {
            outcome.returned == 1 && outcome.words == [7; 4] && outcome.buffers[0] == [7; 32]
        });
    }
    // Slot 0 may be larger than the largest upload slot, and an image in it as large.
    let mut memory = [image([1, 2, 3, 0]), vec![255; 1_048_577]].concat();
    memory.copy_within(32..72, 1_048_577 - 40);
    memory[12..16].copy_from_slice(&(1_048_577u32 - 72).to_le_bytes());
    let answer = [&b"\xA1\x66images\x81"[..], &listed(0, b"1.2.3")].concat();
    harness.expect(ask([0, 1_048_577, 1_048_577, 72], &memory, b"", 77), |outcome| map(outcome) == answer);
    harness.expect(ask([0, 1_048_576, 1_048_577, 72], &memory, b"", 77), |outcome| map(outcome) == no_images);
    // The host's reader knows no array.
    let reply = [&[1, 0, 0, 9, 0, 1, 0x42, 0], no_images].concat();
    harness.expect(read_reply(reply, [5; 12]), |outcome| outcome.returned == 10 && outcome.words == [5; 12]);
}

/// The place of a bad text, by the sentence: no well-formed text begins with what stands up to there, or the 0A's.
fn places(harness: &mut Harness) {
    harness.kind("the places of bad texts: both sides of each edge");
    let texts: [(&[u8], u32); 34] = [
        (b"", 2),
        (b"A", 3),
        (b"AA", 4),
        (b"AAA", 5),
        (b"AA=", 5),
        (b"AAAAA", 7),
        (b"AAAAAAA", 9),
        (b"-AAA", 2),
        (b"A-AA", 3),
        (b"AA-A", 4),
        (b"AA_A", 4),
        (b"AAA-", 5),
        (b"AAAAAA A", 8),
        (b"A--A", 3),
        (b"=AAA", 2),
        (b"====", 2),
        (b"A=AA", 3),
        (b"A===", 3),
        (b"AAAA=", 6),
        (b"AB==", 4),
        (b"Zh==", 4),
        (b"AB=", 4),
        (b"AB=A", 4),
        (b"AAB=", 5),
        (b"Zm9=", 5),
        (b"AA=A", 5),
        (b"AA=-", 5),
        (b"AA==A", 6),
        (b"AA==AAAA", 6),
        (b"AAA=AAAA", 6),
        (b"AAA==", 6),
        (b"AA\nA", 4),
        (b"AAAA\r", 6),
        (b"\n\n", 2),
    ];
    for (text, place) in texts {
        for (marker, reader) in [([6, 9], IDLE), ([4, 20], [1, 20, 0, 0]), ([4, 20], [1, 9, 3, 0])] {
            let line = [&marker, text, b"\x0A"].concat();
            harness.expect(take_line(reader, line, vec![0xEE; 18], [5, 6]), |outcome| {
                outcome.returned == 4
                    && outcome.words == [0, 0, 0, 0, 5, place]
                    && outcome.buffers[1] == [0xEE; 18]
            });
        }
        let line = [b"\x06\x09", text, b"\x0A"].concat();
        harness.expect(replay(recording(&[&line]), bench(), vec![77; 5], 78), |outcome| {
            outcome.returned == 0 && outcome.words[8..] == [4, 0, 0, place, 77]
        });
    }
    // Every other refusal leaves the place, and so does a line that is taken.
    let lines: [(&[u8], u32); 7] = [
        (&[b'-'; 128], 2),
        (b"\x06\x09A-AA", 3),
        (b"\x04\x14AAAA\n", 5),
        (b"\x06\x09AAAA\n", 6),
        (b"\x06\x09//8A\n", 7),
        (b"\x06\x09AAoAAAAAAAAAAAAAAAAA\n", 8),
        (b"\x06\x09AAoAAAAAAAAAAAAB\n", 9),
    ];
    for (line, refusal) in lines {
        harness.expect(take_line(IDLE, line.to_vec(), vec![0xEE; 18], [5, 6]), |outcome| {
            outcome.returned == refusal && outcome.words == [0, 0, 0, 0, 5, 6]
        });
        harness.expect(replay(recording(&[line]), bench(), vec![77; 4], 78), |outcome| {
            outcome.returned == 0 && outcome.words[8..] == [refusal, 0, 0, 0]
        });
    }
}

/// The checks at offset 0 in the order listed, by two reasons at once.
fn orders(harness: &mut Harness) {
    harness.kind("uploads: the order of rc 3, 2, 6 and 8");
    let tag = [8; 32];
    let open = [1, 10, 4, 1];
    let len = |length: u64| [&b"\x63len\x1B"[..], &length.to_be_bytes()].concat();
    let sha = [&b"\x63sha\x58\x20"[..], &tag].concat();
    let short = [&b"\x63sha\x58\x1F"[..], &tag[1..]].concat();
    let (above, over, image, upgrade) = (len(21), len(1 << 32), b"\x65image\x01", b"\x67upgrade\xF5");
    // The pairs beside three bytes of data at offset 0, and the rc.
    let uploads: [(&[&[u8]], u8); 15] = [
        (&[&above], 2),
        (&[&len(0xFFFF_FFFF)], 2),
        (&[&over], 3),
        (&[&over, &sha], 3),
        (&[&over, upgrade], 3),
        (&[&above, image], 3),
        (&[&above, &short], 2),
        (&[&above, upgrade], 2),
        (&[&above, &sha], 2),
        (&[&len(2), &sha], 3),
        (&[&len(9), &sha], 6),
        (&[&len(9), &sha, image], 3),
        (&[&len(9), &sha, upgrade], 6),
        (&[&len(10), &sha, upgrade], 8),
        (&[&len(9), &short, upgrade], 3),
    ];
    for (pairs, answer) in uploads {
        let count = 0xA2 + pairs.len() as u8;
        let payload = [&[count][..], b"\x64data\x43\x07\x07\x07\x63off\x00", &pairs.concat()].concat();
        harness.expect(on_slot(open, tag, packet(1, 1, &payload)), |outcome| {
            map(outcome) == rc(answer) && left_alone(outcome, open, tag)
        });
    }
    // Above offset 0 neither length nor tag counts, but for what is over 32 bits.
    for (pairs, answer) in [(&above, success(5).to_vec()), (&over, rc(3).to_vec())] {
        let payload = [b"\xA4\x64data\x41\x07\x63off\x04", &sha[..], pairs].concat();
        harness.expect(on_slot(open, tag, packet(1, 1, &payload)), |outcome| map(outcome) == answer);
    }
}

/// The published vectors of CRC-16/XMODEM, RFC 4648 and RFC 8949, as far as calls can show them.
fn vectors(harness: &mut Harness) {
    harness.kind("published vectors");
    let raw = [b"\x00\x0B123456789", &[0x31, 0xC3][..]].concat();
    let line = sender::line([6, 9], &raw);
    harness.expect(send_frame(b"123456789".to_vec(), 0, vec![0; 127], [5, 5]), |outcome| {
        outcome.returned == 0 && outcome.buffers[1][..line.len()] == line
    });
    harness.expect(take_line(IDLE, line.clone(), vec![0; 9], [5, 6]), |outcome| {
        outcome.returned == 0 && outcome.buffers[1] == b"123456789"
    });
    // Leading zero bytes leave the register at 0, so the one-byte vectors end bodies of eight bytes.
    for (byte, crc) in [(0x00, 0x0000u16), (0x01, 0x1021), (b'A', 0x58E5)] {
        let body = [0, 0, 0, 0, 0, 0, 0, byte];
        let line = sender::line([6, 9], &[&[0, 10], &body[..], &crc.to_be_bytes()].concat());
        harness.expect(send_frame(body.to_vec(), 0, vec![0; 127], [5, 5]), |outcome| {
            outcome.buffers[1][..line.len()] == line
        });
    }
    let texts: [(&[u8], &[u8]); 6] = [
        (b"Zg==", b"f"),
        (b"Zm8=", b"fo"),
        (b"Zm9v", b"foo"),
        (b"Zm9vYg==", b"foob"),
        (b"Zm9vYmE=", b"fooba"),
        (b"Zm9vYmFy", b"foobar"),
    ];
    for (text, bytes) in texts {
        let line = [b"\x04\x14", text, b"\x0A"].concat();
        harness.expect(take_line([1, 20, 0, 0], line, vec![0; 18], [5, 6]), |outcome| {
            outcome.returned == 0
                && outcome.words == [1, 20, bytes.len() as u32, 0, 0, 6]
                && outcome.buffers[1][..bytes.len()] == *bytes
        });
    }
    let numbers: [(&[u8], Option<u32>); 16] = [
        (&[0x00], Some(0)),
        (&[0x01], Some(1)),
        (&[0x0A], Some(10)),
        (&[0x17], Some(23)),
        (&[0x18, 0x18], Some(24)),
        (&[0x18, 0x19], Some(25)),
        (&[0x18, 0x64], Some(100)),
        (&[0x19, 0x03, 0xE8], Some(1000)),
        (&[0x1A, 0x00, 0x0F, 0x42, 0x40], Some(1_000_000)),
        (&[0x1B, 0x00, 0x00, 0x00, 0xE8, 0xD4, 0xA5, 0x10, 0x00], None),
        (&[0x1B, 0xFF, 0xFF, 0xFF, 0xFF, 0xFF, 0xFF, 0xFF, 0xFF], None),
        (&[0x20], None),
        (&[0x29], None),
        (&[0x38, 0x63], None),
        (&[0x39, 0x03, 0xE7], None),
        (&[0xF9, 0x3E, 0x00], None),
    ];
    for (value, number) in numbers {
        let payload = [b"\xA1\x63off", value].concat();
        let packet = [&[1, 0, 0, payload.len() as u8, 0, 1, 0, 1], &payload[..]].concat();
        harness.expect(read_reply(packet, [5; 12]), |outcome| match number {
            Some(number) => outcome.returned == 0 && outcome.words[7..9] == [1, number],
            None => outcome.returned == 10 && outcome.words == [5; 12],
        });
    }
    let values: [(&[u8], bool); 24] = [
        (&[0x40], true),
        (&[0x44, 1, 2, 3, 4], true),
        (&[0x60], true),
        (&[0x61, 0x61], true),
        (&[0x64, 0x49, 0x45, 0x54, 0x46], true),
        (&[0xF4], true),
        (&[0xF5], true),
        (&[0xF6], true),
        (&[0x20], true),
        (&[0x29], true),
        (&[0x38, 0x63], true),
        (&[0x39, 0x03, 0xE7], true),
        (&[0x1B, 0xFF, 0xFF, 0xFF, 0xFF, 0xFF, 0xFF, 0xFF, 0xFF], true),
        (&[0x3B, 0xFF, 0xFF, 0xFF, 0xFF, 0xFF, 0xFF, 0xFF, 0xFF], true),
        (&[0xF7], false),
        (&[0xF9, 0x3E, 0x00], false),
        (&[0xFA, 0x47, 0xC3, 0x50, 0x00], false),
        (&[0xFB, 0x3F, 0xF1, 0x99, 0x99, 0x99, 0x99, 0x99, 0x9A], false),
        (&[0x5F, 0x41, 0x01, 0xFF], false),
        (&[0x7F, 0x61, 0x61, 0xFF], false),
        (&[0xBF, 0xFF], false),
        (&[0x82, 0x02, 0x03], false),
        (&[0xA0], false),
        (&[0xF8, 0x14], false),
    ];
    for (value, skipped) in values {
        let payload = [b"\xA1\x61a", value].concat();
        let packet = [&[1, 0, 0, payload.len() as u8, 0, 1, 0, 1], &payload[..]].concat();
        harness.expect(read_reply(packet, [5; 12]), |outcome| (outcome.returned == 0) == skipped);
    }
    harness.expect(read_reply(vec![1, 0, 0, 1, 0, 0, 0, 0, 0xA0], [5; 12]), |outcome| outcome.returned == 0);
    let nested = b"\x01\0\0\x09\0\0\0\0\xA2\x61\x61\x01\x61\x62\x82\x02\x03".to_vec();
    harness.expect(read_reply(nested, [5; 12]), |outcome| outcome.returned == 10);
}

/// A bench with something else than zeros on it.
fn bench() -> Bench {
    Bench {
        memory: vec![0x11; 8192],
        session: [9; 4],
        tag: [9; 32],
        reader: [9; 4],
        packet: vec![0xEE; 1024],
        reply: vec![0xDD; 1024],
    }
}

/// A recording of lines to the controller.
fn recording(lines: &[&[u8]]) -> Vec<u8> {
    let mut file = Vec::new();
    for line in lines {
        file.push(0x3E);
        file.extend_from_slice(&(line.len() as u16).to_be_bytes());
        file.extend_from_slice(line);
    }
    let distance = file.len() as u32;
    file.extend_from_slice(&distance.to_be_bytes());
    file.extend_from_slice(&(lines.len() as u32).to_be_bytes());
    file
}

/// Replays a file, and compares the transcript with a text, or with none where the file is no recording.
fn transcript(harness: &mut Harness, file: Vec<u8>, text: Option<&str>) {
    let records = file.len() / 3;
    let mut left = Vec::new();
    let mut count = 0;
    harness.expect(replay(file, bench(), vec![77; ANSWER * records], 78), |outcome| {
        left = outcome.words.clone();
        count = outcome.sizes[0];
        outcome.returned == if text.is_some() { 0 } else { 12 }
    });
    if let Some(text) = text {
        let session = left[..4].try_into().unwrap();
        let room = vec![0xEE; text.len()];
        harness.expect(write_transcript(left[8..].to_vec(), count as u64, session, room, 77), |outcome| {
            outcome.returned == 0 && outcome.sizes == [text.len()] && outcome.buffers[0] == text.as_bytes()
        });
    }
}

/// Both sides of each edge of a recording, its records and its replay.
fn recordings(harness: &mut Harness) {
    harness.kind("recordings: both sides of each edge");
    let zeros = &sender::line([6, 9], &[0, 10, 0, 0, 0, 0, 0, 0, 0, 0, 0, 0])[..];
    let file = recording(&[zeros]);
    transcript(harness, file.clone(), Some("0 0 3\nend none\n"));
    transcript(harness, recording(&[]), Some("end none\n"));
    transcript(harness, vec![0; 7], None);
    transcript(harness, vec![], None);
    let framed = |packet: &[u8]| {
        let mut out = [0; 127];
        let (length, _) = sender::send_frame(packet, 0, &mut out).unwrap();
        out[..length].to_vec()
    };
    let begun = framed(&upload(&[1, 2, 3], 0, 5, &[]));
    let reset = framed(&packet(0, 5, &[0xA0]));
    let no_request = framed(&[1, 0, 0, 0, 0, 0, 0, 0]);
    transcript(harness, recording(&[&begun]), Some("0 0 0\nend 3\n"));
    transcript(harness, recording(&[&begun, &reset]), Some("0 0 0\n1 0 0\nend none\n"));
    transcript(harness, recording(&[&no_request, b"boot\n"]), Some("0 10 -\n1 3 -\nend none\n"));
    transcript(harness, recording(&[b"\x06\x09A-\n", &begun]), Some("0 4 -\n1 0 0\nend 3\n"));
    let tagged = [5, 4, 4097].map(|length| framed(&upload(&[1, 2, 3], 0, length, &[8; 32])));
    let lines: Vec<&[u8]> = tagged.iter().map(|line| &line[..]).collect();
    transcript(harness, recording(&lines), Some("0 0 0\n1 0 6\n2 0 2\nend 3\n"));
    let parts: [&[u8]; 2] = [b"\x06\x09AAoA\n", b"\x04\x14AAAAAAAAAAAA\n"];
    transcript(harness, recording(&parts), Some("0 0 -\n1 0 3\nend none\n"));
    // Each byte of the trailer one more or less makes it no recording.
    for at in 22..30 {
        for step in [1, 255] {
            let mut file = file.clone();
            file[at] = file[at].wrapping_add(step);
            harness.expect(first_record(file.clone(), [77, 78]), |outcome| {
                outcome.returned == 12 && outcome.sizes == [77, 78]
            });
            transcript(harness, file, None);
        }
    }
    let preface = [&b"any"[..], &file].concat();
    harness.expect(first_record(preface.clone(), [77, 78]), |outcome| outcome.sizes == [3, 1]);
    for (at, record) in [(3, [0x3E, 6, 19]), (25, [0, 25, 0])] {
        harness.expect(next_record(preface.clone(), at, [77; 3]), |outcome| {
            outcome.returned == 0 && outcome.sizes == record
        });
    }
    for at in [0, 2, 4, 24, 26, 32, 33, 34, u64::MAX - 2, u64::MAX] {
        harness.expect(next_record(preface.clone(), at, [77; 3]), |outcome| {
            outcome.returned == 12 && outcome.sizes == [77; 3]
        });
    }
    let quarter = u64::MAX / 4;
    for count in [3, quarter, quarter + 1, quarter + 2, 1 << 63, (1 << 63) + 1, u64::MAX] {
        harness.expect(write_transcript(vec![1; 11], count, IDLE, vec![0xEE; 99], 77), |outcome| {
            outcome.returned == 12 && outcome.sizes == [77] && outcome.buffers[0] == [0xEE; 99]
        });
    }
}

/// Compares all of them.
pub fn run(harness: &mut Harness) {
    edges(harness);
    errors(harness);
    collector(harness);
    images(harness);
    places(harness);
    orders(harness);
    recordings(harness);
    vectors(harness);
    harness.kind("next sequence, every number");
    for sequence in 0..=255u8 {
        harness.expect(next_sequence(sequence), |outcome| outcome.returned == (sequence as u32 + 1) % 256);
    }
}

//! The line collector: each edge of a line, a lump and a record, and streams cut in many ways.

use second::port;

/// What a stream gives: a line, or refusal 2.
type Given = Result<Vec<u8>, u32>;

/// A collector's record and its bytes.
#[derive(Clone, Copy, Debug, PartialEq)]
struct Collector {
    record: [u32; 2],
    held: [u8; 126],
}

const EMPTY: Collector = Collector { record: [0; 2], held: [0; 126] };
const SKIPPING: Collector = Collector { record: [0, 1], held: [0; 126] };

impl Collector {
    /// A collector that holds these bytes, with others behind them.
    fn holding(bytes: &[u8]) -> Collector {
        let mut held = [0xEE; 126];
        held[..bytes.len()].copy_from_slice(bytes);
        Collector { record: [bytes.len() as u32, 0], held }
    }

    /// Makes one step; gives its answer, the line that it completed, and the place to go on from.
    fn step(&mut self, lump: &[u8], at: usize) -> (u32, Vec<u8>, usize) {
        let mut line = [0xDD; 127];
        let mut got = [77, 78];
        let returned = port::collect(&mut self.record, &mut self.held, lump, at, &mut line, &mut got);
        if !matches!(returned, 0 | 2) {
            assert_eq!(got, [77, 78]);
            got[0] = 0;
        }
        let length = got[0] as usize;
        assert!(line[length..].iter().all(|byte| *byte == 0xDD));
        (returned, line[..length].to_vec(), got[1] as usize)
    }

    /// Goes through a lump to its end, and gives what it gave.
    fn through(&mut self, lump: &[u8]) -> Vec<Given> {
        let mut given = Vec::new();
        let mut at = 0;
        loop {
            let (returned, line, place) = self.step(lump, at);
            match (returned, line.is_empty()) {
                (0, true) => {
                    assert_eq!(place, lump.len());
                    return given;
                }
                (0, false) => given.push(Ok(line)),
                (2, true) => given.push(Err(2)),
                _ => panic!("{returned} with a line of {} bytes", line.len()),
            }
            assert!(place > at);
            at = place;
        }
    }

    /// Says whether a step over a lump is refused by a number and leaves all.
    fn refuses(&self, number: u32, lump: &[u8]) -> bool {
        let mut tried = *self;
        tried.step(lump, 0) == (number, vec![], 78) && tried == *self
    }
}

/// What a whole stream gives and leaves, by its lines.
fn of_stream(stream: &[u8]) -> (Vec<Given>, Collector) {
    let mut lines: Vec<&[u8]> = stream.split_inclusive(|byte| *byte == 0x0A).collect();
    let rest = match lines.pop() {
        Some(last) if last.ends_with(&[0x0A]) => {
            lines.push(last);
            &[]
        }
        last => last.unwrap_or(&[]),
    };
    let given = lines.iter().map(|line| if line.len() > 127 { Err(2) } else { Ok(line.to_vec()) }).collect();
    let mut end = if rest.len() > 126 { SKIPPING } else { EMPTY };
    if rest.len() <= 126 {
        end.record[0] = rest.len() as u32;
        end.held[..rest.len()].copy_from_slice(rest);
    }
    (given, end)
}

/// Some bytes without an 0A, and an 0A after them.
fn line(before: usize) -> Vec<u8> {
    [vec![b'x'; before], vec![0x0A]].concat()
}

#[test]
fn an_0a_alone_is_a_line() {
    let mut collector = EMPTY;
    assert_eq!(collector.step(&[0x0A], 0), (0, vec![0x0A], 1));
    assert_eq!(collector, EMPTY);
}

#[test]
fn the_127th_byte_is_an_0a_or_begins_the_skipping() {
    let full = Collector::holding(&[b'x'; 126]);
    let mut collector = full;
    assert_eq!(collector.step(&[0x0A, b'y'], 0), (0, line(126), 1));
    assert_eq!(collector, EMPTY);
    let mut collector = full;
    assert_eq!(collector.step(b"y", 0), (0, vec![], 1));
    assert_eq!(collector, SKIPPING);
    assert_eq!(collector.step(&[b'z', 0x0A, b'z'], 0), (2, vec![], 2));
    assert_eq!(collector, EMPTY);
}

#[test]
fn bytes_behind_the_held_ones_stay_until_the_line_ends() {
    let mut collector = Collector::holding(b"ab");
    assert_eq!(collector.step(b"cd", 0), (0, vec![], 2));
    assert_eq!(collector, Collector::holding(b"abcd"));
    assert_eq!(collector.step(b"", 0), (0, vec![], 0));
    assert_eq!(collector, Collector::holding(b"abcd"));
    assert_eq!(collector.step(b"\n", 0), (0, b"abcd\n".to_vec(), 1));
    assert_eq!(collector, EMPTY);
}

#[test]
fn lumps_to_256_are_taken_and_257_are_refused() {
    for length in [0, 1, 255, 256] {
        let lump = vec![0x0A; length];
        let mut collector = EMPTY;
        assert_eq!(collector.through(&lump), vec![Ok(vec![0x0A]); length]);
        assert_eq!(collector, EMPTY);
        let mut collector = EMPTY;
        assert_eq!((collector.through(&vec![b'x'; length]), collector), of_stream(&vec![b'x'; length]));
    }
    for collector in [EMPTY, SKIPPING, Collector::holding(b"ab")] {
        assert!(collector.refuses(12, &[0x0A; 257]));
        assert!(collector.refuses(12, &[b'x'; 1000]));
    }
}

#[test]
fn impossible_records_are_refused_1_with_any_lump() {
    let mut records = Vec::new();
    for count in [127, 128, 256, u32::MAX] {
        records.push(Collector { record: [count, 0], held: [b'x'; 126] });
    }
    for (count, at) in [(1, 0), (2, 0), (2, 1), (126, 0), (126, 60), (126, 125)] {
        let mut collector = Collector::holding(&vec![b'x'; count]);
        collector.held[at] = 0x0A;
        records.push(collector);
    }
    for collector in records {
        for skipping in [0, 1, u32::MAX] {
            let collector = Collector { record: [collector.record[0], skipping], ..collector };
            for lump in [&b""[..], b"\n", b"abc", &[b'x'; 256], &[b'x'; 257]] {
                assert!(collector.refuses(1, lump), "{collector:?}");
            }
        }
    }
}

#[test]
fn an_0a_right_behind_the_held_bytes_is_not_looked_at() {
    for count in 0..126 {
        let mut collector = Collector::holding(&vec![b'x'; count]);
        collector.held[count] = 0x0A;
        assert_eq!(collector.step(b"", 0), (0, vec![], 0));
        assert_eq!(collector.held[count], 0x0A);
        assert_eq!(collector.step(b"\n", 0), (0, line(count), 1));
    }
}

#[test]
fn a_place_at_or_beyond_the_end_takes_nothing() {
    for at in [3, 4, 256, 1 << 32, usize::MAX] {
        for before in [EMPTY, SKIPPING, Collector::holding(b"ab")] {
            let mut collector = before;
            assert_eq!(collector.step(b"c\nd", at), (0, vec![], 3));
            assert_eq!(collector, before);
        }
    }
}

#[test]
fn a_skipping_record_keeps_the_bytes_it_holds_until_the_0a() {
    for skipping in [1, 2, u32::MAX] {
        let before = Collector { record: [2, skipping], ..Collector::holding(b"ab") };
        let skips = Collector { record: [2, 1], ..before };
        for lump in [&b""[..], b"c", &[b'c'; 256]] {
            let mut collector = before;
            assert_eq!(collector.step(lump, 0), (0, vec![], lump.len()));
            assert_eq!(collector, skips);
        }
        let mut collector = before;
        assert_eq!(collector.through(b"cd\ne\nf"), [Err(2), Ok(b"e\n".to_vec())]);
        assert_eq!(collector, of_stream(b"f").1);
    }
}

#[test]
fn a_line_too_long_is_refused_once_when_its_0a_comes() {
    for before in [127, 128, 255, 256, 257, 511, 512, 513, 1000] {
        let stream = [line(before), b"ok\n".to_vec()].concat();
        let mut collector = EMPTY;
        let (long, rest) = stream.split_at(before);
        for lump in long.chunks(256) {
            assert_eq!(collector.through(lump), []);
        }
        assert_eq!(collector, SKIPPING);
        // Its 0A is the last byte of a lump, the only one, or the first.
        for (first, given) in [(1, vec![Err(2)]), (4, vec![Err(2), Ok(b"ok\n".to_vec())])] {
            for lump in [rest[..first].to_vec(), [b"x", &rest[..first]].concat()] {
                let mut ends = collector;
                assert_eq!(ends.through(&lump), given);
                assert_eq!(ends, EMPTY);
            }
        }
    }
}

#[test]
fn a_stream_gives_the_same_however_it_is_lumped() {
    let mut streams: Vec<Vec<u8>> = vec![vec![], vec![0x0A; 256], vec![b'x'; 1000]];
    for before in [0, 1, 125, 126, 127, 128, 255, 256, 257, 300] {
        streams.push(line(before));
        streams.push(vec![b'x'; before]);
        streams.push([line(before), line(126), line(before), b"held".to_vec()].concat());
        streams.push([line(3), line(before), line(127), vec![b'x'; before]].concat());
    }
    for stream in streams {
        let expected = of_stream(&stream);
        for first in 0..=stream.len().min(256) {
            for size in [1, 2, 3, 64, 126, 127, 128, 255, 256] {
                let mut collector = EMPTY;
                let (begin, rest) = stream.split_at(first);
                let lumps = [begin].into_iter().chain(rest.chunks(size));
                let given: Vec<Given> = lumps.flat_map(|lump| collector.through(lump)).collect();
                assert_eq!((given, collector), expected, "{first}, then {size}");
            }
        }
    }
}

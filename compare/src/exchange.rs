//! A whole exchange: the host's request cut into lines, read and handled by a controller, its reply cut, read and read back.

use crate::call::{handle, read_reply, send_frame, take_line, write_upload};
use crate::harness::Harness;
use crate::rng::Rng;

/// Sends a body over the line, and gives it as it was read.
fn over_the_line(harness: &mut Harness, rng: &mut Rng, body: &[u8]) -> Vec<u8> {
    let mut reader = [0; 4];
    let room = body.len() + rng.below(9);
    let mut packet = rng.bytes(room);
    let mut k = 0;
    loop {
        let out = rng.bytes(127);
        let sent = harness.check(send_frame(body.to_vec(), k, out, [rng.word(), rng.word()]));
        let line = sent.buffers[1][..sent.words[0] as usize].to_vec();
        let taken = harness.check(take_line(reader, line, packet, [rng.word(), rng.word()]));
        reader = taken.words[..4].try_into().unwrap();
        packet = taken.buffers.into_iter().nth(1).unwrap();
        k += 1;
        if k == sent.words[1] as u64 {
            packet.truncate(taken.words[4] as usize);
            assert!(packet == body, "the line gives the body back");
            return packet;
        }
    }
}

/// Uploads an image of any bytes in chunks, with repeats, and compares the slot with it.
pub fn run(harness: &mut Harness, rng: &mut Rng) {
    harness.kind("whole exchanges: an image from host to slot");
    let length = rng.range(1, 1200);
    let image = rng.bytes(length);
    let size = length + rng.below(40);
    let start = rng.below(40);
    let mut memory = rng.bytes(start + size + 5);
    // Slot 0 is all before the upload slot, or all behind it.
    let slot_0 = if rng.once_in(2) { [0, start] } else { [start + size, 5] };
    let layout = [slot_0[0], slot_0[1], start, size].map(|number| number as u64);
    let outside = (memory[..start].to_vec(), memory[start + size..].to_vec());
    let (mut session, mut tag) = ([0; 4], [0; 32]);
    let own = if rng.once_in(2) { rng.tag().to_vec() } else { vec![] };
    let most = rng.range(1, 300).max(length / 12);
    let mut off = 0;
    let mut sequence = rng.byte();
    while off < length {
        // A lost reply: the same chunk again, or an older one.
        let at = if off > 0 && rng.once_in(6) { rng.below(off + 1) } else { off };
        let end = (at + rng.range(1, most)).min(length);
        let data = image[at..end].to_vec();
        let room = 100 + data.len();
        let out = rng.bytes(room);
        let written = harness.check(write_upload(
            sequence,
            data,
            at as u64,
            length as u64,
            own.clone(),
            out,
            rng.word(),
        ));
        let request = written.buffers[2][..written.words[0] as usize].to_vec();
        let packet = over_the_line(harness, rng, &request);
        let reply = rng.bytes(64);
        let answer = [rng.word(), rng.word()];
        let handled = harness.check(handle(layout, memory, session, tag, packet, reply, answer));
        session = handled.words[..4].try_into().unwrap();
        tag = handled.buffers[1][..].try_into().unwrap();
        let body = handled.buffers[3][..handled.words[4] as usize].to_vec();
        memory = handled.buffers.into_iter().next().unwrap();
        let reply = over_the_line(harness, rng, &body);
        let read = harness.check(read_reply(reply, std::array::from_fn(|_| rng.word())));
        assert!(read.words[6] == 0 && read.words[7] == 1, "a chunk of the image is a success");
        assert_eq!(read.words[4], sequence as u32);
        off = read.words[8] as usize;
        sequence = sequence.wrapping_add(1);
    }
    assert!(memory[start..start + length] == image, "the slot has the image");
    assert!(memory[start + length..start + size].iter().all(|byte| *byte == 255));
    assert!(memory[..start] == outside.0 && memory[start + size..] == outside.1);
}

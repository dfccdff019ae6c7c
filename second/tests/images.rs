//! The image list: each edge of an image, of the two regions and of the reply.

use second::images::{self, Fault, Image};
use second::port;

/// The smallest valid image: version 1.2.3, no body, and its hash alone in the area.
fn smallest() -> Vec<u8> {
    let header = b"\x3D\xB8\xF3\x96\0\0\0\0\x20\0\0\0\0\0\0\0\0\0\0\0\x01\x02\x03\0\0\0\0\0\0\0\0\0";
    [&header[..], &area(&[(0x10, &hash())])].concat()
}

/// The hash of the smallest image.
fn hash() -> [u8; 32] {
    std::array::from_fn(|i| i as u8 + 100)
}

/// An area with these entries.
fn area(entries: &[(u16, &[u8])]) -> Vec<u8> {
    let mut area = vec![0x07, 0x69, 0, 0];
    for (kind, bytes) in entries {
        area.extend_from_slice(&kind.to_le_bytes());
        area.extend_from_slice(&(bytes.len() as u16).to_le_bytes());
        area.extend_from_slice(bytes);
    }
    let total = (area.len() as u16).to_le_bytes();
    area[2..4].copy_from_slice(&total);
    area
}

/// The smallest image with other bytes from a place on.
fn with(at: usize, bytes: &[u8]) -> Vec<u8> {
    let mut image = smallest();
    image[at..at + bytes.len()].copy_from_slice(bytes);
    image
}

/// The smallest image with another area.
fn with_area(area: &[u8]) -> Vec<u8> {
    [&smallest()[..32], area].concat()
}

/// Why a region begins with no valid image.
fn fault(region: &[u8]) -> Option<Fault> {
    images::image(region).err()
}

#[test]
fn the_smallest_image_and_one_byte_less() {
    let image = smallest();
    assert_eq!(image.len(), 72);
    assert_eq!(images::image(&image), Ok(Image { major: 1, minor: 2, revision: 3, hash: hash() }));
    assert_eq!(images::image(&[&image[..], &[0x07]].concat()), images::image(&image));
    for length in 0..72 {
        let expected = match length {
            0..=31 => Fault::Region,
            32..=35 => Fault::AreaHead,
            _ => Fault::Area,
        };
        assert_eq!(fault(&image[..length]), Some(expected), "{length}");
    }
}

#[test]
fn every_byte_of_the_header() {
    for at in 0..32 {
        let expected = match at {
            0..=3 => Some(Fault::Magic),
            4..=7 => Some(Fault::LoadAddress),
            8 => Some(Fault::HeaderSize),
            9 | 12..=15 => Some(Fault::Body),
            10 | 11 => Some(Fault::ProtectedSize),
            16..=19 => Some(Fault::Flags),
            // Version, build number and padding.
            _ => None,
        };
        let byte = smallest()[at] ^ 0xE0;
        let byte = if at == 8 { 31 } else { byte };
        assert_eq!(fault(&with(at, &[byte])), expected, "{at}");
    }
    assert_eq!(fault(&with(0, &[0x96, 0xF3, 0xB8, 0x3D])), Some(Fault::Magic));
}

#[test]
fn header_sizes() {
    for (size, expected) in [
        (0u16, Some(Fault::HeaderSize)),
        (31, Some(Fault::HeaderSize)),
        (32, None),
        (33, Some(Fault::AreaMagic)),
        (72, Some(Fault::AreaHead)),
        (73, Some(Fault::Body)),
        (0xFFFF, Some(Fault::Body)),
    ] {
        assert_eq!(fault(&with(8, &size.to_le_bytes())), expected, "{size}");
    }
    // 256 bytes, of which the padding may hold anything.
    let padding: Vec<u8> = (0..224).map(|i| i as u8).collect();
    let long = [&with(8, &[0x00, 0x01])[..32], &padding, &area(&[(0x10, &hash())])].concat();
    assert_eq!(images::image(&long), images::image(&smallest()));
}

#[test]
fn body_sizes() {
    for (size, expected) in [
        (36u32, Some(Fault::AreaMagic)),
        (37, Some(Fault::AreaHead)),
        (40, Some(Fault::AreaHead)),
        (41, Some(Fault::Body)),
        (65_536, Some(Fault::Body)),
        // Header and body are 2^32 bytes, then 31 more.
        (0xFFFF_FFE0, Some(Fault::Body)),
        (0xFFFF_FFFF, Some(Fault::Body)),
    ] {
        assert_eq!(fault(&with(12, &size.to_le_bytes())), expected, "{size}");
    }
    let with_body = [&with(12, &[5, 0, 0, 0])[..32], b"hello", &area(&[(0x10, &hash())])].concat();
    assert_eq!(images::image(&with_body), images::image(&smallest()));
    assert_eq!(fault(&with_body[..76]), Some(Fault::Area));
}

#[test]
fn areas() {
    let hash = hash();
    // The protected area's magic, and the public one the other way round.
    assert_eq!(fault(&with(32, &[0x08, 0x69])), Some(Fault::AreaMagic));
    assert_eq!(fault(&with(32, &[0x69, 0x07])), Some(Fault::AreaMagic));
    for (total, expected) in [
        (0u16, Some(Fault::Total)),
        (3, Some(Fault::Total)),
        (4, Some(Fault::NoHash)),
        (5, Some(Fault::Entries)),
        (7, Some(Fault::Entries)),
        (8, Some(Fault::Entries)),
        (39, Some(Fault::Entries)),
        (40, None),
        (41, Some(Fault::Area)),
        (0xFFFF, Some(Fault::Area)),
    ] {
        assert_eq!(fault(&with(34, &total.to_le_bytes())), expected, "{total}");
    }
    // One to three bytes left over in the area, and an entry of no bytes.
    for left in 1..=4 {
        let mut longer = [&smallest()[..], &[0; 4]].concat();
        longer[34] = 40 + left;
        assert_eq!(fault(&longer), (left < 4).then_some(Fault::Entries), "{left}");
    }
    // An entry that ends with the area, and one byte behind it.
    for (length, expected) in
        [(7, Some(Fault::NoHash)), (8, Some(Fault::Entries)), (0xFFFF, Some(Fault::Entries))]
    {
        let mut image = with_area(&area(&[(0x20, &[0; 7])]));
        image[38..40].copy_from_slice(&u16::to_le_bytes(length));
        assert_eq!(fault(&image), expected, "{length}");
    }
    // Other entries around the hash, of any type.
    let others =
        area(&[(0x110, &hash), (0xFFFF, &[]), (0x10, &hash), (0x1000, &[0x10; 9]), (0x11, &[7; 32])]);
    assert_eq!(images::image(&with_area(&others)), images::image(&smallest()));
}

#[test]
fn hashes() {
    let hash = hash();
    assert_eq!(fault(&with_area(&area(&[]))), Some(Fault::NoHash));
    assert_eq!(fault(&with_area(&area(&[(0x110, &hash)]))), Some(Fault::NoHash));
    assert_eq!(fault(&with_area(&area(&[(0x1000, &hash)]))), Some(Fault::NoHash));
    for length in [0, 1, 31, 33, 64] {
        let one: &[(u16, &[u8])] = &[(0x10, &[9; 64][..length])];
        assert_eq!(fault(&with_area(&area(one))), Some(Fault::HashLength));
    }
    for length in [0, 31, 32, 33] {
        for two in [[&hash[..], &[9; 64][..length]], [&[9; 64][..length], &hash[..]]] {
            let two = area(&[(0x10, two[0]), (0x30, &[1]), (0x10, two[1])]);
            assert_eq!(fault(&with_area(&two)), Some(Fault::TwoHashes));
        }
    }
}

/// What a controller with this memory replies to a packet, into a buffer of this length; memory and session stay.
fn ask(layout: [usize; 4], memory: &[u8], packet: &[u8], room: usize) -> Result<Vec<u8>, u32> {
    let (record, tag) = ([1, 1, 1, 1], [5; 32]);
    let (mut memory_then, mut record_then, mut tag_then) = (memory.to_vec(), record, tag);
    let mut reply = vec![0xEE; room];
    let mut answer = [77, 78];
    let returned = port::handle(
        &layout,
        &mut memory_then,
        &mut record_then,
        &mut tag_then,
        packet,
        &mut reply,
        &mut answer,
    );
    assert!(memory_then == memory && record_then == record && tag_then == tag);
    if returned != 0 {
        assert!(answer == [77, 78] && reply.iter().all(|byte| *byte == 0xEE));
        return Err(returned);
    }
    let length = answer[0] as usize;
    assert!(answer[1] == 0 && reply[length..].iter().all(|byte| *byte == 0xEE));
    Ok(reply[..length].to_vec())
}

/// A state read with a payload.
fn state_read(payload: &[u8]) -> Vec<u8> {
    [&[0, 0, 0, payload.len() as u8, 0, 1, 0x42, 0], payload].concat()
}

/// The reply to a state read with a map.
fn reply(map: &[u8]) -> Vec<u8> {
    [&[1, 0, 0, map.len() as u8, 0, 1, 0x42, 0], map].concat()
}

/// What the list has for the smallest image in a slot, with another version.
fn entry(slot: u8, version: &str) -> Vec<u8> {
    let text = 0x60 + version.len() as u8;
    [b"\xA3\x64slot", &[slot][..], b"\x67version", &[text], version.as_bytes(), b"\x64hash\x58\x20", &hash()]
        .concat()
}

#[test]
fn lists() {
    let (image, none) = (smallest(), [255; 72]);
    let lists = [
        (
            &image[..],
            &image[..],
            [&b"\xA1\x66images\x82"[..], &entry(0, "1.2.3"), &entry(1, "1.2.3")].concat(),
        ),
        (&image, &none, [&b"\xA1\x66images\x81"[..], &entry(0, "1.2.3")].concat()),
        (&none, &image, [&b"\xA1\x66images\x81"[..], &entry(1, "1.2.3")].concat()),
        (&none, &none, b"\xA1\x66images\x80".to_vec()),
    ];
    for (slot_0, slot_1, map) in lists {
        let memory = [&[3; 5], slot_0, &[4; 6], slot_1, &[5; 7]].concat();
        assert_eq!(ask([5, 72, 83, 72], &memory, &state_read(&[0xA0]), 200), Ok(reply(&map)));
        // Slot 1 first in the memory.
        let memory = [slot_1, slot_0].concat();
        assert_eq!(ask([72, 72, 0, 72], &memory, &state_read(&[]), 200), Ok(reply(&map)));
    }
}

#[test]
fn versions() {
    for (bytes, text) in [
        ([0, 0, 0, 0], "0.0.0"),
        ([9, 10, 99, 0], "9.10.99"),
        ([100, 99, 0xE8, 0x03], "100.99.1000"),
        ([1, 0, 0x10, 0x27], "1.0.10000"),
        ([255, 255, 255, 255], "255.255.65535"),
    ] {
        let memory = [&with(20, &bytes)[..], &[255]].concat();
        let map = [&b"\xA1\x66images\x81"[..], &entry(0, text)].concat();
        assert_eq!(ask([0, 72, 72, 1], &memory, &state_read(&[]), 200), Ok(reply(&map)));
    }
}

#[test]
fn the_lists_room() {
    let longest = with(20, &[255; 4]);
    let both = [&longest[..], &longest].concat();
    let layout = [0, 72, 72, 72];
    assert_eq!(ask(layout, &both, &state_read(&[]), 153).map(|reply| reply.len()), Ok(153));
    assert_eq!(ask(layout, &both, &state_read(&[]), 152), Ok(reply(b"\xA1\x62rc\x07")));
    assert_eq!(ask(layout, &both, &state_read(&[]), 32), Ok(reply(b"\xA1\x62rc\x07")));
    assert_eq!(ask(layout, &[255; 144], &state_read(&[]), 32), Ok(reply(b"\xA1\x66images\x80")));
    assert_eq!(ask(layout, &both, &state_read(&[]), 31), Err(11));
    // A malformed map before a list that does not fit.
    for payload in [&b"\xA1"[..], b"\xA0\xA0", b"\xBF\xFF", b"\xA1\x61x\x80", b"\xA1\x01\x01", b"\x80"] {
        for room in [32, 153] {
            assert_eq!(ask(layout, &both, &state_read(payload), room), Ok(reply(b"\xA1\x62rc\x03")));
        }
    }
    // No key is known, so any may come twice.
    for payload in [&b"\xA1\x61x\xF6"[..], b"\xA2\x64slot\x20\x64slot\x07"] {
        assert_eq!(ask(layout, &both, &state_read(payload), 153).map(|reply| reply.len()), Ok(153));
    }
    // Op 2 is no state read.
    let mut packet = state_read(&[0xA1]);
    packet[0] = 2;
    let map = [&[3, 0, 0, 5, 0, 1, 0x42, 0][..], b"\xA1\x62rc\x08"].concat();
    assert_eq!(ask(layout, &both, &packet, 200), Ok(map));
}

#[test]
fn regions() {
    const MAX: usize = usize::MAX;
    for (layout, returned) in [
        // Touching, one byte in both, one inside the other, the same.
        ([0, 10, 10, 5], 0),
        ([0, 11, 10, 5], 1),
        ([15, 5, 10, 5], 0),
        ([14, 6, 10, 5], 1),
        ([11, 1, 10, 5], 1),
        ([9, 7, 10, 5], 1),
        ([10, 5, 10, 5], 1),
        // Empty: inside, at the memory's end, beyond it.
        ([12, 0, 10, 5], 0),
        ([20, 0, 10, 5], 0),
        ([21, 0, 10, 5], 1),
        ([MAX, 0, 10, 5], 1),
        // Slot 0 about the memory's end, and sums that wrap.
        ([16, 4, 10, 5], 0),
        ([16, 5, 10, 5], 1),
        ([MAX, 1, 10, 5], 1),
        ([MAX - 4, 10, 10, 5], 1),
        ([0, MAX, 10, 5], 1),
        // The upload slot's own bounds.
        ([0, 5, 10, 10], 0),
        ([0, 5, 10, 11], 1),
        ([0, 5, 10, 0], 1),
        ([0, 5, MAX, 2], 1),
    ] {
        let (mut record, mut tag) = ([7; 4], [7; 32]);
        assert_eq!(port::configure(&layout, 20, &mut record, &mut tag), returned, "{layout:?}");
        let after = if returned == 0 { ([0; 4], [0; 32]) } else { ([7; 4], [7; 32]) };
        assert_eq!((record, tag), after);
        let none = reply(b"\xA1\x66images\x80");
        let expected = if returned == 0 { Ok(none) } else { Err(1) };
        assert_eq!(ask(layout, &[0; 20], &state_read(&[]), 32), expected, "{layout:?}");
        // 1 before 11 and 10.
        let expected = if returned == 0 { 11 } else { 1 };
        assert_eq!(ask(layout, &[0; 20], &[], 31), Err(expected));
    }
    // Slot 0 may be larger than the largest upload slot.
    let configure = |layout| port::configure(&layout, 3_000_000, &mut [7; 4], &mut [7; 32]);
    assert_eq!(configure([0, 1_048_577, 1_048_577, 1_048_576]), 0);
    assert_eq!(configure([0, 1_048_577, 1_048_577, 1_048_577]), 1);
}

#[test]
fn a_half_uploaded_image() {
    let image = smallest();
    let layout = [72, 72, 0, 72];
    let mut memory = [&[0; 72][..], &with(20, &[7, 8, 9, 0])].concat();
    let (mut record, mut tag) = ([0; 4], [0; 32]);
    for at in 0..72 {
        let mut packet = vec![0; 100];
        let mut written = 0;
        port::write_upload(1, &image[at..at + 1], at as u64, 72, &[], &mut packet, &mut written);
        packet.truncate(written as usize);
        let mut reply = [0; 200];
        let mut answer = [0; 2];
        port::handle(&layout, &mut memory, &mut record, &mut tag, &packet, &mut reply, &mut answer);
        assert_eq!(record, [1, 72, at as u32 + 1, 0]);
        // The slot's bytes that have not come are 255, which the hash may have too.
        let stands = [&image[..=at], &vec![255; 71 - at]].concat();
        let packet = state_read(&[]);
        port::handle(&layout, &mut memory, &mut record, &mut tag, &packet, &mut reply, &mut answer);
        let list = images::list([&memory[72..], &stands]);
        assert_eq!(reply[8..answer[0] as usize], list);
        assert_eq!(list[8] == 0x82, at >= 39);
        assert_eq!(record, [1, 72, at as u32 + 1, 0]);
    }
}

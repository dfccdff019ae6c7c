//! The published vectors: CRC-16/XMODEM, RFC 4648 section 10, RFC 8949 appendix A.

use second::{base64, cbor, crc, port};

#[test]
fn crc_catalogue() {
    assert_eq!(crc::crc16(b""), 0x0000);
    assert_eq!(crc::crc16(b"123456789"), 0x31C3);
    assert_eq!(crc::crc16(&[0x00]), 0x0000);
    assert_eq!(crc::crc16(&[0x01]), 0x1021);
    assert_eq!(crc::crc16(b"A"), 0x58E5);
    let first = [
        0x0000, 0x1021, 0x2042, 0x3063, 0x4084, 0x50A5, 0x60C6, 0x70E7, 0x8108, 0x9129, 0xA14A, 0xB16B,
        0xC18C, 0xD1AD, 0xE1CE, 0xF1EF,
    ];
    assert_eq!(crc::TABLE[..16], first);
}

#[test]
fn base64_rfc_4648() {
    let vectors: [(&str, &str); 7] = [
        ("", ""),
        ("f", "Zg=="),
        ("fo", "Zm8="),
        ("foo", "Zm9v"),
        ("foob", "Zm9vYg=="),
        ("fooba", "Zm9vYmE="),
        ("foobar", "Zm9vYmFy"),
    ];
    for (bytes, text) in vectors {
        assert_eq!(base64::encode(bytes.as_bytes()), text.as_bytes());
        let decoded = base64::decode(text.as_bytes());
        // The paper wants a positive multiple of four characters, so the empty text is refused.
        let expected = if text.is_empty() { None } else { Some(bytes.as_bytes().to_vec()) };
        assert_eq!(decoded, expected);
    }
}

#[test]
fn base64_not_well_formed() {
    let texts: [&[u8]; 22] = [
        b"Zh==",
        b"Zm9=",
        b"A===",
        b"====",
        b"AA==AAAA",
        b"AA=A",
        b"A=AA",
        b"=AAA",
        b"AAAA=",
        b"AAAA==",
        b"AAAA====",
        b"A",
        b"AA",
        b"AAA",
        b"AAAAA",
        b"AA-A",
        b"AA_A",
        b"AA A",
        b"AA\nA",
        b"AAA\r",
        b"AA\0A",
        b"AA\xC3\xA9",
    ];
    for text in texts {
        assert_eq!(base64::decode(text), None, "{}", String::from_utf8_lossy(text));
    }
}

/// The off that a reply reader finds in {"off": value} with the value's bytes given, or refusal 10.
fn off(value: &[u8]) -> Result<u32, u32> {
    let payload = [&[0xA1, 0x63, 0x6F, 0x66, 0x66], value].concat();
    let packet = [&[1, 0, 0, payload.len() as u8, 0, 1, 0, 1], &payload[..]].concat();
    let mut reply = [0; 12];
    match port::read_reply(&packet, &mut reply) {
        0 => Ok(reply[8]),
        refusal => Err(refusal),
    }
}

/// Whether a value's bytes are skipped as the value of an unknown key.
fn skipped(value: &[u8]) -> bool {
    let payload = [&[0xA1, 0x61, 0x7A], value].concat();
    cbor::read_map(&payload).is_ok()
}

#[test]
fn cbor_numbers() {
    assert_eq!(off(&[0x00]), Ok(0));
    assert_eq!(off(&[0x01]), Ok(1));
    assert_eq!(off(&[0x0A]), Ok(10));
    assert_eq!(off(&[0x17]), Ok(23));
    assert_eq!(off(&[0x18, 0x18]), Ok(24));
    assert_eq!(off(&[0x18, 0x19]), Ok(25));
    assert_eq!(off(&[0x18, 0x64]), Ok(100));
    assert_eq!(off(&[0x19, 0x03, 0xE8]), Ok(1000));
    assert_eq!(off(&[0x1A, 0x00, 0x0F, 0x42, 0x40]), Ok(1_000_000));
    assert_eq!(off(&[0x1B, 0x00, 0x00, 0x00, 0xE8, 0xD4, 0xA5, 0x10, 0x00]), Err(10));
    assert_eq!(off(&[0x1B, 0xFF, 0xFF, 0xFF, 0xFF, 0xFF, 0xFF, 0xFF, 0xFF]), Err(10));
    assert_eq!(off(&[0x1B, 0, 0, 0, 0, 0, 0, 0, 5]), Ok(5));
    for negative in [&[0x20][..], &[0x29], &[0x38, 0x63], &[0x39, 0x03, 0xE7]] {
        assert_eq!(off(negative), Err(10));
        assert!(skipped(negative));
    }
}

#[test]
fn cbor_heads_are_written_shortest() {
    let vectors: [(u64, &[u8]); 10] = [
        (0, &[0x00]),
        (23, &[0x17]),
        (24, &[0x18, 0x18]),
        (100, &[0x18, 0x64]),
        (255, &[0x18, 0xFF]),
        (256, &[0x19, 0x01, 0x00]),
        (1000, &[0x19, 0x03, 0xE8]),
        (1_000_000, &[0x1A, 0x00, 0x0F, 0x42, 0x40]),
        (1_000_000_000_000, &[0x1B, 0x00, 0x00, 0x00, 0xE8, 0xD4, 0xA5, 0x10, 0x00]),
        (18_446_744_073_709_551_615, &[0x1B, 0xFF, 0xFF, 0xFF, 0xFF, 0xFF, 0xFF, 0xFF, 0xFF]),
    ];
    for (number, bytes) in vectors {
        let mut head = Vec::new();
        cbor::write_head(&mut head, cbor::UNSIGNED, number);
        assert_eq!(head, bytes);
    }
}

#[test]
fn cbor_what_is_skipped() {
    for value in [
        &[0x40][..],
        &[0x44, 1, 2, 3, 4],
        &[0x60],
        &[0x61, 0x61],
        &[0x64, 0x49, 0x45, 0x54, 0x46],
        &[0xF4],
        &[0xF5],
        &[0xF6],
        &[0x1B, 0xFF, 0xFF, 0xFF, 0xFF, 0xFF, 0xFF, 0xFF, 0xFF],
        &[0x3B, 0xFF, 0xFF, 0xFF, 0xFF, 0xFF, 0xFF, 0xFF, 0xFF],
    ] {
        assert!(skipped(value), "{value:02X?}");
    }
    for value in [
        &[][..],
        &[0xF7],
        &[0xF0],
        &[0xF8, 0x14],
        &[0xF8, 0xFF],
        &[0xF9, 0x3E, 0x00],
        &[0xFA, 0x47, 0xC3, 0x50, 0x00],
        &[0xFB, 0x3F, 0xF1, 0x99, 0x99, 0x99, 0x99, 0x99, 0x9A],
        &[0x5F, 0x41, 0x01, 0xFF],
        &[0x7F, 0x61, 0x61, 0xFF],
        &[0xBF, 0xFF],
        &[0x9F, 0xFF],
        &[0x80],
        &[0x82, 0x02, 0x03],
        &[0xA0],
        &[0xC0, 0x60],
        &[0xC1, 0x00],
        &[0x1C],
        &[0x1D],
        &[0x1E],
        &[0x1F],
        &[0x5B, 0xFF, 0xFF, 0xFF, 0xFF, 0xFF, 0xFF, 0xFF, 0xFF],
        &[0x41],
        &[0x18],
        &[0x19, 0x00],
        &[0x00, 0x00],
        &[0xFF],
    ] {
        assert!(!skipped(value), "{value:02X?}");
    }
    assert!(cbor::read_map(&[0xA0]).is_ok());
    assert!(cbor::read_map(&[0xA2, 0x61, 0x61, 0x01, 0x61, 0x62, 0x82, 0x02, 0x03]).is_err());
}

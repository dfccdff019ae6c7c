//! The images in the two slots: which regions begin with a valid one, and the list of them.

use crate::cbor;

/// The shortest header.
const HEADER: usize = 32;
/// The length of the TLV area's own head, and of an entry's.
const HEAD: usize = 4;
const MAGIC: u32 = 0x96F3_B83D;
const AREA_MAGIC: u16 = 0x6907;
/// The type and the length of the SHA-256 entry.
const SHA_256: u16 = 0x10;
const HASH: usize = 32;

/// What the list says of a valid image.
#[derive(Clone, Copy, Debug, PartialEq, Eq)]
pub struct Image {
    pub major: u8,
    pub minor: u8,
    pub revision: u16,
    pub hash: [u8; HASH],
}

/// Why a region begins with no valid image: the first reason in this order.
#[derive(Clone, Copy, Debug, PartialEq, Eq)]
pub enum Fault {
    /// The region is too small for a header.
    Region,
    Magic,
    LoadAddress,
    ProtectedSize,
    Flags,
    HeaderSize,
    /// Header and body do not fit the region.
    Body,
    /// The area's head does not fit the region behind them.
    AreaHead,
    AreaMagic,
    /// The area's total does not count its own head.
    Total,
    /// The area ends outside the region.
    Area,
    /// The entries do not fill the area's total.
    Entries,
    NoHash,
    TwoHashes,
    HashLength,
}

/// The 16-bit number at a place, its low byte first.
fn half(bytes: &[u8], at: usize) -> u16 {
    u16::from_le_bytes([bytes[at], bytes[at + 1]])
}

/// The 32-bit number at a place, its low byte first.
fn word(bytes: &[u8], at: usize) -> u32 {
    half(bytes, at) as u32 | (half(bytes, at + 2) as u32) << 16
}

/// Says that something holds, or gives the fault.
fn check(holds: bool, fault: Fault) -> Result<(), Fault> {
    if holds {
        Ok(())
    } else {
        Err(fault)
    }
}

/// Reads the region's header, and gives the part of the region behind header and body.
fn behind_body(region: &[u8]) -> Result<&[u8], Fault> {
    check(region.len() >= HEADER, Fault::Region)?;
    check(word(region, 0) == MAGIC, Fault::Magic)?;
    check(word(region, 4) == 0, Fault::LoadAddress)?;
    check(half(region, 10) == 0, Fault::ProtectedSize)?;
    check(word(region, 16) == 0, Fault::Flags)?;
    let header = half(region, 8);
    check(header as usize >= HEADER, Fault::HeaderSize)?;
    let end = header as u64 + word(region, 12) as u64;
    check(end <= region.len() as u64, Fault::Body)?;
    Ok(&region[end as usize..])
}

/// Reads the area at the start of some bytes, and gives its entries: each one's type and bytes.
fn entries(bytes: &[u8]) -> Result<Vec<(u16, &[u8])>, Fault> {
    check(bytes.len() >= HEAD, Fault::AreaHead)?;
    check(half(bytes, 0) == AREA_MAGIC, Fault::AreaMagic)?;
    let total = half(bytes, 2) as usize;
    check(total >= HEAD, Fault::Total)?;
    check(total <= bytes.len(), Fault::Area)?;
    let mut left = &bytes[HEAD..total];
    let mut entries = Vec::new();
    while !left.is_empty() {
        check(left.len() >= HEAD, Fault::Entries)?;
        let (head, rest) = left.split_at(HEAD);
        let length = half(head, 2) as usize;
        check(length <= rest.len(), Fault::Entries)?;
        entries.push((half(head, 0), &rest[..length]));
        left = &rest[length..];
    }
    Ok(entries)
}

/// The valid image that a region begins with, or why there is none.
pub fn image(region: &[u8]) -> Result<Image, Fault> {
    let entries = entries(behind_body(region)?)?;
    let mut hashes = entries.iter().filter(|(kind, _)| *kind == SHA_256);
    let (_, hash) = hashes.next().ok_or(Fault::NoHash)?;
    check(hashes.next().is_none(), Fault::TwoHashes)?;
    let hash = (*hash).try_into().map_err(|_| Fault::HashLength)?;
    Ok(Image { major: region[20], minor: region[21], revision: half(region, 22), hash })
}

/// The map {"images": [...]} with the valid images of slot 0 and slot 1, in this order.
pub fn list(slots: [&[u8]; 2]) -> Vec<u8> {
    let images: Vec<(usize, Image)> =
        slots.iter().enumerate().filter_map(|(slot, region)| Some((slot, image(region).ok()?))).collect();
    let mut map = Vec::new();
    cbor::write_head(&mut map, cbor::MAP, 1);
    cbor::write_string(&mut map, cbor::TEXT, b"images");
    cbor::write_head(&mut map, cbor::ARRAY, images.len() as u64);
    for (slot, image) in images {
        let version = format!("{}.{}.{}", image.major, image.minor, image.revision);
        cbor::write_head(&mut map, cbor::MAP, 3);
        cbor::write_unsigned(&mut map, "slot", slot as u64);
        cbor::write_string(&mut map, cbor::TEXT, b"version");
        cbor::write_string(&mut map, cbor::TEXT, version.as_bytes());
        cbor::write_string(&mut map, cbor::TEXT, b"hash");
        cbor::write_string(&mut map, cbor::BYTES, &image.hash);
    }
    map
}

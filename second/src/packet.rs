//! The packet: its header of eight bytes, and the payload after it.

/// The header's length.
pub const HEADER: usize = 8;
/// The longest packet, which is the longest body.
pub const LONGEST: usize = 65_533;

/// The fields of a header.
#[derive(Clone, Copy, Debug, PartialEq, Eq)]
pub struct Header {
    pub op: u8,
    pub flags: u8,
    pub length: u16,
    pub group: u16,
    pub sequence: u8,
    pub command: u8,
}

/// The header of a packet whose length is 8 plus its payload length, and at most 65,533.
pub fn header(packet: &[u8]) -> Option<Header> {
    if packet.len() < HEADER || packet.len() > LONGEST {
        return None;
    }
    let header = Header {
        op: packet[0],
        flags: packet[1],
        length: u16::from_be_bytes([packet[2], packet[3]]),
        group: u16::from_be_bytes([packet[4], packet[5]]),
        sequence: packet[6],
        command: packet[7],
    };
    if packet.len() != HEADER + header.length as usize {
        return None;
    }
    Some(header)
}

/// A packet with flags 0 and a payload, which must not be too long for one.
pub fn build(op: u8, group: u16, sequence: u8, command: u8, payload: &[u8]) -> Vec<u8> {
    assert!(HEADER + payload.len() <= LONGEST);
    let mut packet = vec![op, 0];
    packet.extend_from_slice(&(payload.len() as u16).to_be_bytes());
    packet.extend_from_slice(&group.to_be_bytes());
    packet.push(sequence);
    packet.push(command);
    packet.extend_from_slice(payload);
    packet
}

//! The CRC of a packet's body: polynomial 0x1021, start 0, no reflection, no final change.

/// The CRC register after one more byte, bit by bit from the highest.
const fn step(register: u16, byte: u8) -> u16 {
    let mut register = register ^ ((byte as u16) << 8);
    let mut bit = 0;
    while bit < 8 {
        let carry = register & 0x8000 != 0;
        register <<= 1;
        if carry {
            register ^= 0x1021;
        }
        bit += 1;
    }
    register
}

/// What each high byte of the register does to the rest of it.
pub static TABLE: [u16; 256] = {
    let mut table = [0; 256];
    let mut byte = 0;
    while byte < 256 {
        table[byte] = step(0, byte as u8);
        byte += 1;
    }
    table
};

/// The CRC register after more bytes.
pub fn extend(register: u16, bytes: &[u8]) -> u16 {
    bytes
        .iter()
        .fold(register, |register, byte| (register << 8) ^ TABLE[((register >> 8) as u8 ^ byte) as usize])
}

/// The CRC of a body.
pub fn crc16(body: &[u8]) -> u16 {
    extend(0, body)
}

#[cfg(test)]
mod tests {
    use super::*;

    #[test]
    fn table_and_bits_agree() {
        let mut bytes = Vec::new();
        let mut register = 0;
        for i in 0..2000u32 {
            let byte = (i * i * 31 + i / 7) as u8;
            bytes.push(byte);
            register = step(register, byte);
            assert_eq!(crc16(&bytes), register);
        }
    }
}

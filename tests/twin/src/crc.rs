//! The checksum of Modbus RTU: CRC-16, reflected polynomial 0xA001, start 0xFFFF.

const TABLE: [u16; 256] = table();

const fn table() -> [u16; 256] {
    let mut table = [0; 256];
    let mut byte = 0;
    while byte < 256 {
        let mut crc = byte as u16;
        let mut bit = 0;
        while bit < 8 {
            crc = if crc & 1 == 1 { crc >> 1 ^ 0xA001 } else { crc >> 1 };
            bit += 1;
        }
        table[byte] = crc;
        byte += 1;
    }
    table
}

fn step(crc: u16, byte: u8) -> u16 {
    crc >> 8 ^ TABLE[usize::from(crc as u8 ^ byte)]
}

pub fn crc(bytes: &[u8]) -> u16 {
    bytes.iter().fold(0xFFFF, |crc, &byte| step(crc, byte))
}

/// A word: its low byte, then its high byte.
pub fn crc_round(sum: u16, word: u16) -> u16 {
    let [low, high] = word.to_le_bytes();
    step(step(sum, low), high)
}

#[cfg(test)]
mod tests {
    use super::*;

    #[test]
    fn standard_vectors() {
        assert_eq!(crc(b"123456789"), 0x4B37);
        assert_eq!(crc(b""), 0xFFFF);
        assert_eq!(crc(&[0x01, 0x03, 0x25, 0x00, 0x00, 0x01]).to_le_bytes(), [0x8F, 0x06]);
    }

    #[test]
    fn a_round_is_two_bytes_of_a_message() {
        let sum = [0x3231, 0x3433, 0x3635, 0x3837].into_iter().fold(0xFFFF, crc_round);
        assert_eq!(sum, crc(b"12345678"));
        assert_eq!(step(sum, b'9'), 0x4B37);
    }
}

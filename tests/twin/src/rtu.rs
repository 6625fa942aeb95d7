//! Modbus RTU framing: the body, then its CRC-16, low byte first.

use crate::crc::crc;

/// The body of a frame of at most so many bytes; `None` for a bad one.
pub fn body(frame: &[u8], most: usize) -> Option<&[u8]> {
    if !(4..=most).contains(&frame.len()) {
        return None;
    }
    let (body, checksum) = frame.split_at(frame.len() - 2);
    (crc(body).to_le_bytes() == checksum).then_some(body)
}

/// Makes a frame of the body of so many bytes that a buffer begins with; gives the frame's length.
pub fn seal(buffer: &mut [u8], body: usize) -> usize {
    let checksum = crc(&buffer[..body]).to_le_bytes();
    buffer[body..body + 2].copy_from_slice(&checksum);
    body + 2
}

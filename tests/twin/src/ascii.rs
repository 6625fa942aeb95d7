//! Modbus ASCII framing: a colon, the body and its LRC as pairs of capital hexadecimal digits, CR, LF.

/// The most bytes that a frame decodes to, the LRC among them.
pub const DECODED_MOST: usize = 255;

/// What a digit stands for, by its character; `NO_DIGIT` for all others.
const VALUES: [u8; 256] = values();
pub const DIGITS: [u8; 16] = *b"0123456789ABCDEF";
const NO_DIGIT: u8 = 0xFF;

const fn values() -> [u8; 256] {
    let mut values = [NO_DIGIT; 256];
    let mut digit = 0;
    while digit < DIGITS.len() {
        values[DIGITS[digit] as usize] = digit as u8;
        digit += 1;
    }
    values
}

/// The two's complement of the sum of the bytes.
pub fn lrc(bytes: &[u8]) -> u8 {
    bytes.iter().fold(0, |sum: u8, byte| sum.wrapping_add(*byte)).wrapping_neg()
}

/// The body of a frame, decoded into `room`; `None` for a bad one.
pub fn body<'a>(frame: &[u8], room: &'a mut [u8; DECODED_MOST]) -> Option<&'a [u8]> {
    let digits = frame.strip_prefix(b":")?.strip_suffix(b"\r\n")?;
    let bytes = digits.len() / 2;
    if digits.len() % 2 != 0 || !(3..=DECODED_MOST).contains(&bytes) {
        return None;
    }
    let decoded = &mut room[..bytes];
    let mut seen = 0;
    for (byte, pair) in decoded.iter_mut().zip(digits.chunks_exact(2)) {
        let (high, low) = (VALUES[usize::from(pair[0])], VALUES[usize::from(pair[1])]);
        seen |= high | low;
        *byte = high << 4 | low;
    }
    let (checksum, body) = decoded.split_last()?;
    (seen != NO_DIGIT && lrc(body) == *checksum).then_some(body)
}

/// Makes a frame of the body of so many bytes that a buffer begins with; gives the frame's length. Goes from the end to the beginning, since
/// the characters of a byte stand behind it.
pub fn seal(buffer: &mut [u8], body: usize) -> usize {
    let checksum = lrc(&buffer[..body]);
    let frame = &mut buffer[..2 * body + 5];
    frame[2 * body + 1..].copy_from_slice(&[high(checksum), low(checksum), b'\r', b'\n']);
    for at in (0..body).rev() {
        let byte = frame[at];
        frame[2 * at + 1] = high(byte);
        frame[2 * at + 2] = low(byte);
    }
    frame[0] = b':';
    frame.len()
}

fn high(byte: u8) -> u8 {
    DIGITS[usize::from(byte >> 4)]
}

fn low(byte: u8) -> u8 {
    DIGITS[usize::from(byte & 0x0F)]
}

#[cfg(test)]
mod tests {
    use super::*;

    fn decoded(frame: &[u8]) -> Option<Vec<u8>> {
        body(frame, &mut [0xEE; DECODED_MOST]).map(<[u8]>::to_vec)
    }

    fn sealed(body: &[u8]) -> Vec<u8> {
        let mut buffer = [0xEE; 600];
        buffer[..body.len()].copy_from_slice(body);
        let length = seal(&mut buffer, body.len());
        assert!(buffer[length..].iter().all(|&byte| byte == 0xEE));
        buffer[..length].to_vec()
    }

    #[test]
    fn lrc_by_hand() {
        assert_eq!(lrc(&[]), 0x00);
        assert_eq!(lrc(&[0x01, 0xFF]), 0x00);
        assert_eq!(lrc(&[0x40, 0x40]), 0x80);
        // 0xF7 + 0x03 + 0x13 + 0x89 + 0x00 + 0x0A = 0x1A0, and 0x100 - 0xA0 = 0x60.
        assert_eq!(lrc(&[0xF7, 0x03, 0x13, 0x89, 0x00, 0x0A]), 0x60);
    }

    #[test]
    fn frames_by_hand() {
        let frames: [(&[u8], &[u8]); 4] = [
            (&[1, 3, 0, 0, 0, 1], b":010300000001FB\r\n"),
            (&[0xF7, 3, 0x13, 0x89, 0, 0x0A], b":F7031389000A60\r\n"),
            (&[1, 0x83, 2], b":0183027A\r\n"),
            (&[0xAB, 0xCD], b":ABCD88\r\n"),
        ];
        for (body, frame) in frames {
            assert_eq!(sealed(body), frame);
            assert_eq!(decoded(frame).as_deref(), Some(body));
        }
    }

    #[test]
    fn lengths() {
        for (bytes, good) in [(0, false), (1, false), (2, true), (3, true), (254, true), (255, false)] {
            let body = vec![0x5A; bytes];
            let frame = sealed(&body);
            assert_eq!(frame.len(), 2 * bytes + 5);
            assert_eq!(decoded(&frame), good.then_some(body), "{bytes} bytes");
        }
        assert_eq!(decoded(b""), None);
        assert_eq!(decoded(b":\r\n"), None);
        assert_eq!(decoded(b":\r"), None);
    }

    #[test]
    fn bad_forms() {
        let bad: [&[u8]; 18] = [
            b"0183027A\r\n",
            b"::0183027A\r\n",
            b" :0183027A\r\n",
            b":0183027a\r\n",
            b":01 83027A\r\n",
            b":01830 27A \r\n",
            b":183027A\r\n",
            b":0183027A\n",
            b":0183027A\r",
            b":0183027A\n\r",
            b":0183027A\r\n\0",
            b":0183027A\r\n\r\n",
            b":0183027B\r\n",
            b":01830286\r\n",
            b":0183027G\r\n",
            b":018302/A\r\n",
            b":018302\xB7A\r\n",
            b"\xBA0183027A\r\n",
        ];
        for frame in bad {
            assert_eq!(decoded(frame), None, "{}", frame.escape_ascii());
        }
    }

    #[test]
    fn digits_alone_have_values() {
        for character in 0..=255u8 {
            let value = (character as char).to_digit(16).filter(|_| !character.is_ascii_lowercase());
            assert_eq!(VALUES[usize::from(character)], value.map_or(NO_DIGIT, |value| value as u8));
        }
    }
}

//! Frames in either framing, and all ways in which one can break its form. ASCII is written here apart from the twin's own, in another way.

use crate::random::Random;
use twin::Framing;

/// How a frame breaks the form of the framing that the host names.
#[derive(Clone, Copy, Debug, PartialEq, Eq, PartialOrd, Ord)]
pub enum Breach {
    Empty,
    /// A colon with CR and LF alone.
    NoBytes,
    LoneLrc,
    /// One byte with its LRC.
    OneByte,
    /// The body has 255 bytes or more.
    Long,
    WrongLrc,
    LowerCase,
    Blank,
    NoColon,
    TwoColons,
    /// Bytes before the colon.
    Before,
    /// Bytes behind LF.
    Behind,
    OddDigits,
    /// A neighbour of the digits in the place of one.
    NoDigit,
    /// A character with its top bit set.
    TopBit,
    LoneLf,
    /// The frame ends in CR or in a digit.
    NoLf,
    /// LF before CR.
    Swapped,
    Cut,
    /// One character is another.
    Flip,
    /// Characters of ASCII frames in any order.
    Noise,
    /// An RTU frame that the host names ASCII.
    NamedAscii,
    /// An ASCII frame that the host names RTU.
    NamedRtu,
    /// An RTU frame with its checksum changed, or cut.
    Spoilt,
}

/// Those of a frame that the host names ASCII.
pub const OF_ASCII: [Breach; 22] = [
    Breach::Empty,
    Breach::NoBytes,
    Breach::LoneLrc,
    Breach::OneByte,
    Breach::Long,
    Breach::WrongLrc,
    Breach::LowerCase,
    Breach::Blank,
    Breach::NoColon,
    Breach::TwoColons,
    Breach::Before,
    Breach::Behind,
    Breach::OddDigits,
    Breach::NoDigit,
    Breach::TopBit,
    Breach::LoneLf,
    Breach::NoLf,
    Breach::Swapped,
    Breach::Cut,
    Breach::Flip,
    Breach::Noise,
    Breach::NamedAscii,
];

impl Breach {
    /// Whether the frame is bad whatever it carries. The others may be good by chance.
    pub fn certain(self) -> bool {
        !matches!(self, Breach::Noise | Breach::NamedAscii | Breach::NamedRtu | Breach::Spoilt)
    }
}

/// A good frame.
pub fn sealed(framing: Framing, body: &[u8]) -> Vec<u8> {
    match framing {
        Framing::Rtu => rtu(body),
        Framing::Ascii => ascii(body),
    }
}

pub fn rtu(body: &[u8]) -> Vec<u8> {
    [body, &twin::crc(body).to_le_bytes()].concat()
}

pub fn ascii(body: &[u8]) -> Vec<u8> {
    with_lrc(body, lrc(body))
}

fn lrc(body: &[u8]) -> u8 {
    let sum: usize = body.iter().map(|&byte| usize::from(byte)).sum();
    (0x100 - sum % 0x100) as u8
}

fn with_lrc(body: &[u8], lrc: u8) -> Vec<u8> {
    let digits: String = body.iter().chain([&lrc]).map(|byte| format!("{byte:02X}")).collect();
    format!(":{digits}\r\n").into_bytes()
}

/// A frame that is to carry a body of 2 to 254 bytes, and breaks the form of ASCII.
pub fn broken(breach: Breach, body: &[u8], random: &mut Random) -> Vec<u8> {
    match breach {
        Breach::Empty => Vec::new(),
        Breach::NoBytes => b":\r\n".to_vec(),
        Breach::LoneLrc => with_lrc(&[], random.pick(&[0, 0, 0, 1, body[0]])),
        Breach::OneByte => ascii(&body[..1]),
        Breach::Long => {
            let longer = random.pick(&[255, 255, 255, 256, 257, 290]);
            ascii(&[body, &[0x5A; 290]].concat()[..longer])
        }
        Breach::WrongLrc => with_lrc(body, wrong_lrc(body, random)),
        Breach::LowerCase => lower_case(body, random),
        Breach::Noise => noise(random),
        Breach::NamedAscii | Breach::NamedRtu | Breach::Spoilt => rtu(body),
        _ => changed(breach, ascii(body), random),
    }
}

/// The plain sum, its ones' complement, the sum with the characters around it, and others, but never the LRC.
fn wrong_lrc(body: &[u8], random: &mut Random) -> u8 {
    let (right, any) = (lrc(body), random.byte());
    let sum = right.wrapping_neg();
    let wrong = random.pick(&[
        sum,
        !sum,
        right.wrapping_sub(b':'),
        right.wrapping_add(1),
        right.wrapping_sub(1),
        right ^ 0x80,
        right.rotate_left(4),
        any,
    ]);
    if wrong == right {
        right ^ 1
    } else {
        wrong
    }
}

/// One letter, or all: the LRC stays right, so that the letter alone is wrong.
fn lower_case(body: &[u8], random: &mut Random) -> Vec<u8> {
    let mut frame = ascii(body);
    if !frame.iter().any(u8::is_ascii_uppercase) {
        frame = ascii(&[body[0], 0xAB]);
    }
    if random.chance(30) {
        return frame.to_ascii_lowercase();
    }
    let letters: Vec<usize> = (0..frame.len()).filter(|&at| frame[at].is_ascii_uppercase()).collect();
    frame[random.pick(&letters)] |= 0x20;
    frame
}

/// A good frame with characters put in, taken out or changed.
fn changed(breach: Breach, mut frame: Vec<u8>, random: &mut Random) -> Vec<u8> {
    let end = frame.len();
    let digit = random.between(1, end - 3);
    match breach {
        Breach::Blank => {
            let (blank, at) = (random.pick(b" \t\0"), random.between(0, end));
            (0..random.between(1, 2)).for_each(|_| frame.insert(at, blank));
        }
        Breach::NoColon if random.chance(50) => drop(frame.remove(0)),
        Breach::NoColon => frame[0] = random.pick(b";9/0A \r\n"),
        Breach::TwoColons if random.chance(50) => frame.insert(random.between(0, end - 2), b':'),
        Breach::TwoColons => drop(frame.splice(0..0, b":0103".iter().copied().take(random.between(1, 5)))),
        Breach::Before => drop(frame.splice(0..0, surplus(random))),
        Breach::Behind => frame.extend(surplus(random)),
        Breach::OddDigits if random.chance(50) => drop(frame.remove(digit)),
        Breach::OddDigits => frame.insert(random.between(1, end - 2), random.pick(b"09AF")),
        Breach::NoDigit => frame[digit] = random.pick(b"/:@G`g\r\n\x10\x16"),
        Breach::TopBit => frame[random.between(0, end - 1)] |= 0x80,
        Breach::LoneLf => drop(frame.remove(end - 2)),
        Breach::NoLf => frame.truncate(end - random.between(1, 2)),
        Breach::Swapped => frame.swap(end - 2, end - 1),
        Breach::Cut => frame.truncate(random.between(1, end - 1)),
        _ => {
            let (any, at) = (random.byte(), random.between(0, end - 1));
            let (bit, digit) = (frame[at] ^ 1 << random.below(8), random.pick(b"0123456789ABCDEF"));
            let other = random.pick(&[any, bit, digit]);
            frame[at] = if other == frame[at] { other ^ 1 } else { other };
        }
    }
    frame
}

/// Bytes that don't belong to the frame.
fn surplus(random: &mut Random) -> Vec<u8> {
    match random.below(6) {
        0 => b"\r\n".to_vec(),
        1 => b"00".to_vec(),
        2 => b":010300000001FB\r\n".to_vec(),
        3 => vec![random.byte(), random.byte()],
        _ => vec![random.pick(b"\0\r\n 0A\xFF")],
    }
}

fn noise(random: &mut Random) -> Vec<u8> {
    let mut frame: Vec<u8> = (0..random.between(0, 40))
        .map(|_| random.pick(b"0123456789ABCDEF:a \r\n"))
        .collect();
    if random.chance(70) {
        frame.insert(0, b':');
        frame.extend(b"\r\n");
    }
    frame
}

#[cfg(test)]
mod tests {
    use super::*;
    use twin::framing::Room;
    use twin::Port;

    fn is_bad(frame: &[u8]) -> bool {
        Framing::Ascii.body(frame, Port::Serial, &mut Room::None).is_none()
    }

    #[test]
    fn frames_by_hand() {
        assert_eq!(ascii(&[1, 3, 0, 0, 0, 1]), b":010300000001FB\r\n");
        assert_eq!(ascii(&[]), b":00\r\n");
        assert_eq!(rtu(&[1, 3, 0x25, 0, 0, 1]), [1, 3, 0x25, 0, 0, 1, 0x8F, 0x06]);
    }

    #[test]
    fn certain_breaches_are_bad() {
        let mut random = Random::new(1, 1);
        for body in [&[1, 3][..], &[0x11, 6, 0, 0x69, 0xE0, 1], &[0x80, 0x80], &[0x5A; 254]] {
            assert!(!is_bad(&ascii(body)));
            for breach in OF_ASCII.into_iter().filter(|breach| breach.certain()) {
                for _ in 0..1000 {
                    let frame = broken(breach, body, &mut random);
                    assert!(is_bad(&frame), "{breach:?}: {}", frame.escape_ascii());
                }
            }
        }
    }
}

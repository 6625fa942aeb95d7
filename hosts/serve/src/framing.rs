//! Frames as they are cut from the bytes of a line: Modbus RTU by silence, where what comes without a pause of 3.5 characters is one frame, and
//! Modbus ASCII from a colon to LF.

use serve_options::{Character, LineOptions};
use sonde::{Framing, Port};
use std::collections::VecDeque;
use std::time::{Duration, Instant};

const COLON: u8 = b':';
const LF: u8 = b'\n';

/// Frames that may wait for their replies. Of a line that brings more the others are dropped.
const WAITING: usize = 4096;

/// A frame, and when its first and its last byte were read.
#[derive(Debug, PartialEq)]
pub struct Frame {
    pub bytes: Vec<u8>,
    pub began: Instant,
    pub ended: Instant,
}

pub fn of(options: &LineOptions) -> Framing {
    match options.ascii {
        true => Framing::Ascii,
        false => Framing::Rtu,
    }
}

pub fn port(options: &LineOptions) -> Port {
    match options.radio {
        true => Port::Radio,
        false => Port::Serial,
    }
}

/// The longest frame that can be good. Of a longer one this many and one byte more are kept: enough for the library to count it bad.
fn longest(framing: Framing, port: Port) -> usize {
    match (framing, port) {
        (Framing::Rtu, Port::Serial) => 256,
        (Framing::Rtu, Port::Radio) => 64,
        (Framing::Ascii, _) => 513,
    }
}

/// The silence that ends an RTU frame: 3.5 characters of 11 bits, and above 19200 baud the standard's fixed 1.75 ms.
pub fn silence(speed: u32) -> Duration {
    if speed > 19200 {
        return Duration::from_micros(1750);
    }
    Duration::from_secs(1) * 77 / (2 * speed)
}

/// How long so many characters take on the wire.
pub fn duration(characters: usize, character: Character, speed: u32) -> Duration {
    Duration::from_secs(1) * (character.bits() * characters as u32) / speed
}

/// The bytes that a frame carries, with its checksum: address, function and so on. Of an ASCII frame that breaks the form, no bytes.
pub fn carried(framing: Framing, frame: &[u8]) -> Vec<u8> {
    match framing {
        Framing::Rtu => frame.to_vec(),
        Framing::Ascii => in_digits(frame).unwrap_or_default(),
    }
}

fn in_digits(frame: &[u8]) -> Option<Vec<u8>> {
    let digits = frame.strip_prefix(b":")?.strip_suffix(b"\r\n")?;
    let digits: Vec<u8> = digits.iter().map(|digit| value(*digit)).collect::<Option<_>>()?;
    let pairs = digits.chunks_exact(2);
    pairs
        .remainder()
        .is_empty()
        .then(|| pairs.map(|pair| pair[0] << 4 | pair[1]).collect())
}

/// The value of a capital hexadecimal digit.
fn value(digit: u8) -> Option<u8> {
    match digit {
        b'0'..=b'9' => Some(digit - b'0'),
        b'A'..=b'F' => Some(digit - b'A' + 10),
        _ => None,
    }
}

/// The code of an exception reply.
pub fn exception(framing: Framing, reply: &[u8]) -> Option<u8> {
    match carried(framing, reply)[..] {
        [_, function, code, ..] if function & 0x80 != 0 => Some(code),
        _ => None,
    }
}

/// A frame for the log: RTU's bytes in hexadecimal, ASCII's as text in which CR and LF are `\r\n` and other bytes `\xNN`.
pub fn shown(framing: Framing, frame: &[u8]) -> String {
    match framing {
        Framing::Rtu => frame.iter().map(|b| format!("{b:02X}")).collect::<Vec<_>>().join(" "),
        Framing::Ascii => frame.escape_ascii().to_string(),
    }
}

/// Cuts frames.
pub struct Framer {
    framing: Framing,
    longest: usize,
    /// The frame that hasn't ended, and when its first and its last byte were read.
    open: Vec<u8>,
    began: Instant,
    last: Instant,
    /// Those that have.
    ended: VecDeque<Frame>,
}

impl Framer {
    pub fn new(framing: Framing, port: Port) -> Framer {
        let now = Instant::now();
        Framer {
            framing,
            longest: longest(framing, port),
            open: Vec::new(),
            began: now,
            last: now,
            ended: VecDeque::new(),
        }
    }

    /// Takes what was read at this time.
    pub fn push(&mut self, bytes: &[u8], now: Instant) {
        if bytes.is_empty() {
            return;
        }
        if self.open.is_empty() {
            self.began = now;
        }
        self.last = now;
        match self.framing {
            Framing::Rtu => self.keep(bytes),
            Framing::Ascii => bytes.iter().for_each(|byte| self.push_character(*byte)),
        }
    }

    /// Outside a frame nothing is kept. A colon begins one wherever it stands.
    fn push_character(&mut self, character: u8) {
        match character {
            COLON => {
                self.began = self.last;
                self.open = vec![COLON];
            }
            _ if self.open.is_empty() => {}
            LF => {
                self.keep(&[LF]);
                self.end();
            }
            _ => self.keep(&[character]),
        }
    }

    fn keep(&mut self, bytes: &[u8]) {
        let room = self.longest + 1 - self.open.len();
        self.open.extend_from_slice(&bytes[..bytes.len().min(room)]);
    }

    fn end(&mut self) {
        let bytes = std::mem::take(&mut self.open);
        if self.ended.len() < WAITING {
            let (began, ended) = (self.began, self.last);
            self.ended.push_back(Frame { bytes, began, ended });
        }
    }

    /// A silence has come, which ends an RTU frame.
    pub fn fall_silent(&mut self) {
        if self.waits_for_silence() {
            self.end();
        }
    }

    pub fn waits_for_silence(&self) -> bool {
        self.framing == Framing::Rtu && !self.open.is_empty()
    }

    /// Whether bytes are to be read though frames wait. RTU's are, since a silence between them can't be seen afterwards. ASCII's frames are told
    /// apart by themselves, and stay with the kernel, which holds their sender up.
    pub fn takes_more(&self) -> bool {
        self.framing == Framing::Rtu || self.ended.is_empty()
    }

    /// The next frame that has ended.
    pub fn first(&self) -> Option<&Frame> {
        self.ended.front()
    }

    pub fn take(&mut self) -> Option<Frame> {
        self.ended.pop_front()
    }
}

#[cfg(test)]
mod tests;

//! What is measured, one row each.

use crate::sides::Side;

pub enum Work {
    /// On the serial port.
    Frame(Vec<u8>),
    Radio(Vec<u8>),
    Ascii(Vec<u8>),
    /// Accepted calibrations, `UPDATES` to a journal.
    Update,
    Audit,
    /// Of a valid volume: no word is changed.
    Salvage,
    Print,
}

pub struct Row {
    pub name: String,
    /// Entries that the journal has when the row begins.
    pub entries: usize,
    pub work: Work,
    /// Whether libmodbus can do it.
    pub libmodbus: bool,
}

/// Calibrations before a journal is begun again.
const UPDATES: usize = 16;

fn framed(body: &[u8]) -> Vec<u8> {
    [body, &twin::crc(body).to_le_bytes()].concat()
}

fn ascii(body: &[u8]) -> Vec<u8> {
    let mut frame = body.to_vec();
    frame.resize(2 * body.len() + 5, 0);
    twin::Framing::Ascii.seal(&mut frame, body.len());
    frame
}

fn body(function: u8, first: u16, second: u16) -> Vec<u8> {
    [&[1, function][..], &first.to_be_bytes(), &second.to_be_bytes()].concat()
}

fn words(function: u8, first: u16, second: u16) -> Vec<u8> {
    framed(&body(function, first, second))
}

fn row(name: impl Into<String>, entries: usize, work: Work, libmodbus: bool) -> Row {
    Row {
        name: name.into(),
        entries,
        work,
        libmodbus,
    }
}

/// A body of so many bytes: a read of register 0, or from 7 on a write of as many registers as fit. That of 7 has no byte for its register, that
/// of 254 one too many.
fn body_of(bytes: usize) -> Vec<u8> {
    if bytes < 7 {
        return body(3, 0, 1);
    }
    let data = bytes - 7;
    let registers = (data / 2).max(1);
    [&[1, 16, 0, 0, 0, registers as u8, data as u8][..], &vec![0x5A; data]].concat()
}

/// A frame whose CRC is wrong.
fn bad(body: &[u8]) -> Vec<u8> {
    let mut frame = framed(body);
    frame[body.len() + 1] ^= 0xFF;
    frame
}

/// A frame whose LRC is wrong: the last of its digits is another.
fn bad_ascii(body: &[u8]) -> Vec<u8> {
    let mut frame = ascii(body);
    let digit = &mut frame[2 * body.len() + 2];
    *digit = if *digit == b'0' { b'1' } else { b'0' };
    frame
}

/// The rows whose difference is the checksum of `SUMMED` bytes.
pub const BAD_255: &str = "bad frame of 255 bytes";
pub const BAD_8: &str = "bad frame of 8 bytes";
pub const SUMMED: f64 = 247.0;

/// The rows whose difference is the decoding and the checksum of `DECODED` bytes: bodies of 253 and of 9.
pub const ASCII_LONG: &str = "ASCII: long bad frame";
pub const ASCII_SHORT: &str = "ASCII: short bad frame";
pub const DECODED: f64 = 244.0;

/// The row of a salvage, and that of the audit that it is compared with.
pub const SALVAGE: &str = "salvage, 1000 entries";
pub const AUDIT: &str = "audit, 1000 entries";

/// Frames of these lengths, their checksum included, are measured good and bad.
const LENGTHS: [usize; 5] = [8, 9, 63, 255, 256];

pub fn rows() -> Vec<Row> {
    let mut rows = vec![
        row("read of 1 register", 0, Work::Frame(words(3, 0, 1)), true),
        row("read of 24 registers, the longest", 0, Work::Frame(words(3, 130, 24)), true),
        row("read of 125 registers, code 2", 0, Work::Frame(words(3, 130, 125)), true),
        row("write of one word", 0, Work::Frame(words(6, 133, 2)), true),
        row(
            "write of a float",
            0,
            Work::Frame(framed(&[1, 16, 0, 135, 0, 2, 4, 0x3F, 0x80, 0, 0])),
            true,
        ),
        row("mask write", 0, Work::Frame(framed(&[1, 22, 0, 133, 0, 0, 0, 1])), true),
        row("update, accepted", 0, Work::Update, true),
        row("refused: absent register", 0, Work::Frame(words(3, 0x2500, 1)), true),
        row("another's frame", 0, Work::Frame(framed(&[2, 3, 0, 0, 0, 1])), true),
    ];
    for entries in [0, 1, 10, 100, 1000] {
        rows.push(row(format!("audit, {entries} entries"), entries, Work::Audit, false));
    }
    rows.push(row(SALVAGE, 1000, Work::Salvage, false));
    for entries in [1, 10, 100, 1000] {
        rows.push(row(
            format!("read of 1 register, {entries} entries"),
            entries,
            Work::Frame(words(3, 0, 1)),
            false,
        ));
    }
    rows.extend(ascii_rows());
    rows.extend(radio_rows());
    rows.push(row("print, 1000 entries", 1000, Work::Print, false));
    for length in LENGTHS {
        let frame = bad(&body_of(length - 2));
        rows.push(row(format!("bad frame of {length} bytes"), 0, Work::Frame(frame), true));
    }
    for length in LENGTHS {
        let frame = framed(&body_of(length - 2));
        rows.push(row(format!("good frame of {length} bytes"), 0, Work::Frame(frame), true));
    }
    rows
}

fn ascii_rows() -> [Row; 5] {
    let frames = [
        ("ASCII: read of 1 register", ascii(&body(3, 0, 1))),
        ("ASCII: read of 24 registers, the longest", ascii(&body(3, 130, 24))),
        ("ASCII: write of one word", ascii(&body(6, 133, 2))),
        (ASCII_SHORT, bad_ascii(&body_of(9))),
        (ASCII_LONG, bad_ascii(&body_of(253))),
    ];
    frames.map(|(name, frame)| row(name, 0, Work::Ascii(frame), false))
}

/// The longest run of registers, which is shorter than the radio's longest read, and that read, which has to name absent ones.
fn radio_rows() -> [Row; 2] {
    let reads = [
        ("radio: read of 24 registers, the longest", 24),
        ("radio: read of 29 registers, code 2", 29),
    ];
    reads.map(|(name, count)| row(name, 0, Work::Radio(words(3, 130, count)), false))
}

impl Row {
    /// Whether a side can do it.
    pub fn has_part(&self, side: &str) -> bool {
        match side {
            "libmodbus" => self.libmodbus,
            _ => true,
        }
    }

    /// A journal with the row's entries, on the four sensors in turn, and sensors in mode.
    pub fn prepare(&self, side: &mut dyn Side) {
        for sensor in 1..=4 {
            side.rtu(&words(6, 100 * sensor + 5, 0xE000));
        }
        for entry in 0..self.entries {
            let sensor = entry as u16 % 4 + 1;
            side.rtu(&words(6, 100 * sensor + 5, 0xE001));
        }
    }

    /// The work, so many times.
    pub fn repeat(&self, side: &mut dyn Side, calls: usize) {
        match &self.work {
            Work::Frame(frame) => (0..calls).for_each(|_| {
                std::hint::black_box(side.rtu(std::hint::black_box(frame)));
            }),
            Work::Radio(frame) => (0..calls).for_each(|_| {
                std::hint::black_box(side.radio(std::hint::black_box(frame)));
            }),
            Work::Ascii(frame) => (0..calls).for_each(|_| {
                std::hint::black_box(side.ascii(std::hint::black_box(frame)));
            }),
            Work::Audit => (0..calls).for_each(|_| {
                std::hint::black_box(side.audit());
            }),
            Work::Salvage => (0..calls).for_each(|_| {
                assert_eq!(std::hint::black_box(side.salvage()), 0);
            }),
            Work::Print => (0..calls).for_each(|_| {
                std::hint::black_box(side.print());
            }),
            Work::Update => {
                let update = words(6, 105, 0xE001);
                for call in 0..calls {
                    if call % UPDATES == 0 {
                        side.begin();
                    }
                    std::hint::black_box(side.rtu(&update));
                }
            }
        }
    }
}

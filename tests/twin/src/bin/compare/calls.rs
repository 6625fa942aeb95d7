//! A call with its arguments, as both implementations get it.

use crate::breach::Breach;
use sonde::ffi;
use std::fmt;
use twin::{Arrival, Framing};

#[derive(Clone, Copy, Debug, PartialEq, Eq, PartialOrd, Ord)]
pub enum Kind {
    Fresh,
    Begin,
    PowerUp,
    Measure,
    Frame,
    Audit,
    Print,
    Append,
    Salvage,
    Cut,
}

/// `words` is how much of the volume is lent, from its beginning.
#[derive(Clone)]
pub enum Call {
    Fresh {
        address: u8,
    },
    Begin {
        words: usize,
    },
    PowerUp {
        address: u8,
        words: usize,
    },
    Measure {
        sensor: u8,
        present: bool,
        first: f32,
        second: f32,
    },
    Frame(Request),
    Audit {
        words: usize,
    },
    /// `page` is the bytes of the page.
    Print {
        words: usize,
        page: usize,
    },
    /// The first so many stores.
    Append {
        words: usize,
        entry: ffi::Entry,
        stores: usize,
    },
    Salvage {
        words: usize,
    },
    /// The salvage and the power-up that follow it are calls of their own.
    Cut(Cut),
}

/// A frame in which the supply fails after so many stores of its append.
#[derive(Clone)]
pub struct Cut {
    pub request: Request,
    pub stores: usize,
    /// Of the power-up after it, which isn't refused.
    pub address: u8,
}

impl Cut {
    /// The salvage and the power-up, which follow at once.
    pub fn following(&self) -> [Call; 2] {
        let (address, words) = (self.address, self.request.words);
        [Call::Salvage { words }, Call::PowerUp { address, words }]
    }
}

/// A frame as the host says that it came, and the bytes of the reply buffer.
#[derive(Clone)]
pub struct Request {
    pub arrival: Arrival,
    pub bytes: Vec<u8>,
    /// How the bytes break the framing's form; those of `None` don't.
    pub breach: Option<Breach>,
    pub reply: usize,
    pub words: usize,
}

impl Call {
    pub fn kind(&self) -> Kind {
        match self {
            Call::Fresh { .. } => Kind::Fresh,
            Call::Begin { .. } => Kind::Begin,
            Call::PowerUp { .. } => Kind::PowerUp,
            Call::Measure { .. } => Kind::Measure,
            Call::Frame(_) => Kind::Frame,
            Call::Audit { .. } => Kind::Audit,
            Call::Print { .. } => Kind::Print,
            Call::Append { .. } => Kind::Append,
            Call::Salvage { .. } => Kind::Salvage,
            Call::Cut(_) => Kind::Cut,
        }
    }
}

impl fmt::Display for Call {
    fn fmt(&self, f: &mut fmt::Formatter) -> fmt::Result {
        match self {
            Call::Fresh { address } => write!(f, "fresh(address {address})"),
            Call::Begin { words } => write!(f, "begin({words} words)"),
            Call::PowerUp { address, words } => write!(f, "power_up(address {address}, {words} words)"),
            Call::Measure {
                sensor,
                present,
                first,
                second,
            } => {
                let (first_bits, second_bits) = (first.to_bits(), second.to_bits());
                write!(
                    f,
                    "measure(sensor {sensor}, present {present}, {first:e} = {first_bits:#010X}, {second:e} = {second_bits:#010X})"
                )
            }
            Call::Frame(request) => write!(f, "{request}"),
            Call::Audit { words } => write!(f, "audit({words} words)"),
            Call::Print { words, page } => write!(f, "print({words} words, page {page})"),
            Call::Append { words, entry, stores } => write!(f, "append({words} words, {}, {stores} stores)", shown(entry)),
            Call::Salvage { words } => write!(f, "salvage({words} words)"),
            Call::Cut(Cut { request, stores, address }) => {
                write!(
                    f,
                    "{request}, cut after {stores} stores of its append (then power-up with address {address})"
                )
            }
        }
    }
}

impl fmt::Display for Request {
    fn fmt(&self, f: &mut fmt::Formatter) -> fmt::Result {
        let Request {
            arrival,
            bytes,
            breach,
            reply,
            words,
        } = self;
        let Arrival { clock, framing, port } = arrival;
        let shown = match framing {
            Framing::Rtu => hex(bytes),
            Framing::Ascii => format!("\"{}\"", bytes.escape_ascii()),
        };
        let form = breach.map_or("good".to_string(), |breach| format!("{breach:?}"));
        write!(
            f,
            "frame({framing:?}, port {port}, {form}, {} bytes {shown}, reply buffer {reply}, {words} words, clock {clock})",
            bytes.len()
        )
    }
}

/// An entry, its floats by their bits.
fn shown(entry: &ffi::Entry) -> String {
    let ffi::Entry {
        sensor,
        method,
        technician,
        calibration,
        points,
    } = *entry;
    let ffi::Calibration {
        coefficient1,
        coefficient2,
        coefficient3,
        time,
    } = calibration;
    let bits = |value: f32| format!("{:#010X}", value.to_bits());
    let coefficients = [coefficient1, coefficient2, coefficient3].map(bits).join(" ");
    let points = [points.x1, points.y1, points.x2, points.y2].map(bits).join(" ");
    format!("sensor {sensor}, method {method}, technician {technician}, time {time}, coefficients {coefficients}, points {points}")
}

pub fn hex(bytes: &[u8]) -> String {
    let digits: Vec<String> = bytes.iter().map(|byte| format!("{byte:02X}")).collect();
    format!("[{}]", digits.join(" "))
}

/// What a call gives beside the sonde, the reply, the page and the volume: `length` is a reply's or a page's length, the entries in use of an
/// audit, or the words that a salvage changed.
#[derive(Clone, Copy, Debug, PartialEq, Eq)]
pub struct Answer {
    pub number: u8,
    pub length: u32,
}

impl Answer {
    pub fn new(number: u8, length: impl Into<u32>) -> Answer {
        let length = length.into();
        Answer { number, length }
    }

    /// Of a call that has no length.
    pub fn of(number: u8) -> Answer {
        Answer { number, length: 0 }
    }
}

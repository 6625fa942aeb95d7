//! Who answers: the proved library, the second implementation, libmodbus. Each keeps its own sonde and volume.

use sonde::{Arrival, Sonde};

/// At this clock.
const CLOCK: u32 = 1_700_000_000;

pub trait Side {
    /// An RTU frame on the serial port; the length of the reply.
    fn rtu(&mut self, frame: &[u8]) -> usize;
    /// An RTU frame on the radio; the length of the reply.
    fn radio(&mut self, frame: &[u8]) -> usize;
    /// An ASCII frame on the serial port; the length of the reply.
    fn ascii(&mut self, frame: &[u8]) -> usize;
    /// A journal without entries.
    fn begin(&mut self);
    /// The entries in use.
    fn audit(&mut self) -> usize;
    /// The journal on a page; the length of the lines.
    fn print(&mut self) -> usize;
    /// The chain words that a salvage changes.
    fn salvage(&mut self) -> usize;
}

pub struct Library {
    sonde: Sonde,
    volume: Vec<u16>,
    reply: [u8; sonde::REPLY_BYTES],
    ascii_reply: [u8; sonde::ASCII_REPLY_BYTES],
    page: Vec<u8>,
}

impl Library {
    pub fn new() -> Library {
        let mut side = Library {
            sonde: Sonde::fresh(1).expect("an address"),
            volume: vec![0; sonde::MOST_WORDS],
            reply: [0; sonde::REPLY_BYTES],
            ascii_reply: [0; sonde::ASCII_REPLY_BYTES],
            page: vec![0; sonde::MOST_PAGE_BYTES],
        };
        side.begin();
        side
    }

    fn answer(&mut self, frame: &[u8], arrival: Arrival) -> usize {
        let reply = self.sonde.frame(frame, &mut self.reply, &mut self.volume, arrival);
        reply.expect("no number").len()
    }
}

impl Side for Library {
    fn rtu(&mut self, frame: &[u8]) -> usize {
        self.answer(frame, Arrival::rtu(CLOCK))
    }

    fn radio(&mut self, frame: &[u8]) -> usize {
        self.answer(frame, Arrival::radio(CLOCK))
    }

    fn ascii(&mut self, frame: &[u8]) -> usize {
        let reply = self
            .sonde
            .frame(frame, &mut self.ascii_reply, &mut self.volume, Arrival::ascii(CLOCK));
        reply.expect("no number").len()
    }

    fn begin(&mut self) {
        self.sonde.begin(&mut self.volume).expect("no number");
    }

    fn audit(&mut self) -> usize {
        self.sonde.audit(&self.volume).expect("no number").into()
    }

    fn print(&mut self) -> usize {
        sonde::print(&self.volume, &mut self.page).expect("no number").len()
    }

    fn salvage(&mut self) -> usize {
        sonde::salvage(&mut self.volume).expect("no number").into()
    }
}

pub struct Twin {
    sonde: twin::Sonde,
    volume: Vec<u16>,
    reply: [u8; sonde::REPLY_BYTES],
    ascii_reply: [u8; sonde::ASCII_REPLY_BYTES],
    page: Vec<u8>,
}

impl Twin {
    pub fn new() -> Twin {
        let mut side = Twin {
            sonde: twin::fresh(1).1,
            volume: vec![0; sonde::MOST_WORDS],
            reply: [0; sonde::REPLY_BYTES],
            ascii_reply: [0; sonde::ASCII_REPLY_BYTES],
            page: vec![0; sonde::MOST_PAGE_BYTES],
        };
        side.begin();
        side
    }

    fn answer(&mut self, frame: &[u8], arrival: twin::Arrival) -> usize {
        let (number, length) = twin::frame(&mut self.sonde, frame, &mut self.reply, &mut self.volume, arrival);
        assert_eq!(number, 0);
        length.into()
    }
}

impl Side for Twin {
    fn rtu(&mut self, frame: &[u8]) -> usize {
        self.answer(frame, twin::Arrival::rtu(CLOCK))
    }

    fn radio(&mut self, frame: &[u8]) -> usize {
        self.answer(frame, twin::Arrival::radio(CLOCK))
    }

    fn ascii(&mut self, frame: &[u8]) -> usize {
        let (reply, arrival) = (&mut self.ascii_reply, twin::Arrival::ascii(CLOCK));
        let (number, length) = twin::frame(&mut self.sonde, frame, reply, &mut self.volume, arrival);
        assert_eq!(number, 0);
        length.into()
    }

    fn begin(&mut self) {
        assert_eq!(twin::begin(&self.sonde, &mut self.volume), 0);
    }

    fn audit(&mut self) -> usize {
        let (number, entries) = twin::audit(&self.sonde, &self.volume);
        assert_eq!(number, 0);
        entries.into()
    }

    fn print(&mut self) -> usize {
        let (number, length) = twin::print(&self.volume, &mut self.page);
        assert_eq!(number, 0);
        length as usize
    }

    fn salvage(&mut self) -> usize {
        let (number, changed) = twin::salvage(&mut self.volume);
        assert_eq!(number, 0);
        changed.into()
    }
}

/// libmodbus' server on 500 registers in memory. It has no journal, no ASCII and no radio.
#[cfg(libmodbus)]
pub struct LibModbus;

#[cfg(libmodbus)]
extern "C" {
    fn line_frame(frame: *const u8, length: usize) -> usize;
}

#[cfg(libmodbus)]
impl Side for LibModbus {
    fn rtu(&mut self, frame: &[u8]) -> usize {
        // SAFETY: the slice is valid for its length, and one thread calls.
        unsafe { line_frame(frame.as_ptr(), frame.len()) }
    }

    fn radio(&mut self, _frame: &[u8]) -> usize {
        unreachable!("libmodbus takes no part in rows of the radio")
    }

    fn ascii(&mut self, _frame: &[u8]) -> usize {
        unreachable!("libmodbus takes no part in rows of ASCII")
    }

    fn begin(&mut self) {}

    fn audit(&mut self) -> usize {
        0
    }

    fn print(&mut self) -> usize {
        0
    }

    fn salvage(&mut self) -> usize {
        0
    }
}

pub const NAMES: [&str; 3] = ["library", "twin", "libmodbus"];

/// The side of a name; `None` for libmodbus where it isn't installed.
pub fn side(name: &str) -> Option<Box<dyn Side>> {
    match name {
        "library" => Some(Box::new(Library::new())),
        "twin" => Some(Box::new(Twin::new())),
        #[cfg(libmodbus)]
        "libmodbus" => Some(Box::new(LibModbus)),
        _ => None,
    }
}

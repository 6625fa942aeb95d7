//! A second implementation of the sonde's register service, written from documents 01 and 02 alone. It shares no code with the proved
//! library, so that a difference between the two (`src/bin/compare`) shows a mistake in one of them. It is also the baseline of speed.
//!
//! The modules follow the papers: words and floats, checksum, the two framings and the two ports, calibration, the sonde's state, the register map, readings,
//! the volume with its journal, its salvage, its page, requests and replies, the calls. `book` is the control book of demand 3.

#![forbid(unsafe_code)]

pub mod arrival;
pub mod ascii;
pub mod book;
pub mod calibration;
pub mod calls;
pub mod chains;
pub mod crc;
pub mod floats;
pub mod frames;
pub mod framing;
pub mod map;
pub mod page;
pub mod port;
pub mod readings;
pub mod rtu;
pub mod state;
pub mod volume;

pub use arrival::Arrival;
pub use calls::{audit, begin, cut, frame, fresh, measure, power_up, print, salvage};
pub use crc::{crc, crc_round};
pub use framing::Framing;
pub use port::Port;
pub use state::Sonde;
pub use volume::append;

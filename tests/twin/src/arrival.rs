//! When and how a frame came.

use crate::calls::{NO_PORT, SHORT_REPLY};
use crate::framing::Framing;
use crate::port::Port;

#[derive(Clone, Copy, Debug)]
pub struct Arrival {
    /// Whole seconds.
    pub clock: u32,
    pub framing: Framing,
    /// The number of the port that the host names; there may be no such port.
    pub port: u8,
}

impl Arrival {
    /// An RTU frame on the serial port.
    pub fn rtu(clock: u32) -> Arrival {
        Arrival {
            clock,
            framing: Framing::Rtu,
            port: Port::Serial as u8,
        }
    }

    /// An ASCII frame on the serial port.
    pub fn ascii(clock: u32) -> Arrival {
        Arrival {
            framing: Framing::Ascii,
            ..Arrival::rtu(clock)
        }
    }

    /// An RTU frame on the radio.
    pub fn radio(clock: u32) -> Arrival {
        Arrival {
            port: Port::Radio as u8,
            ..Arrival::rtu(clock)
        }
    }

    /// The port, where the frame may be looked at with a reply buffer of so many bytes; or else the number that refuses the call.
    pub fn admit(&self, reply_bytes: usize) -> Result<Port, u8> {
        let port = Port::of(self.port).ok_or(NO_PORT)?;
        match reply_bytes < self.framing.reply_least() {
            true => Err(SHORT_REPLY),
            false => Ok(port),
        }
    }
}

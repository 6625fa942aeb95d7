//! How a frame carries its body: address, function and data. What follows from a body is the same in either framing.

use crate::port::Port;
use crate::{ascii, rtu};

#[derive(Clone, Copy, Debug, PartialEq, Eq, PartialOrd, Ord)]
pub enum Framing {
    Rtu,
    Ascii,
}

/// Where an ASCII frame is decoded to.
pub type Room = Option<[u8; ascii::DECODED_MOST]>;

impl Framing {
    /// The least length of a reply buffer.
    pub fn reply_least(self) -> usize {
        match self {
            Framing::Rtu => 256,
            Framing::Ascii => 513,
        }
    }

    /// The body that a frame by this port carries, 2 to 254 bytes; `None` for a bad frame.
    pub fn body<'a>(self, frame: &'a [u8], port: Port, room: &'a mut Room) -> Option<&'a [u8]> {
        let limits = port.limits();
        match self {
            Framing::Rtu => rtu::body(frame, limits.frame_most),
            Framing::Ascii if limits.ascii => ascii::body(frame, room.insert([0; ascii::DECODED_MOST])),
            Framing::Ascii => None,
        }
    }

    /// Makes a frame of the body of so many bytes that a buffer begins with; gives the frame's length.
    pub fn seal(self, buffer: &mut [u8], body: usize) -> usize {
        match self {
            Framing::Rtu => rtu::seal(buffer, body),
            Framing::Ascii => ascii::seal(buffer, body),
        }
    }
}

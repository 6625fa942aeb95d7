//! The ports that frames come by (document 02, wish 7), and what each of them takes.

#[derive(Clone, Copy, Debug, PartialEq, Eq, PartialOrd, Ord)]
pub enum Port {
    Serial = 1,
    Radio = 2,
}

/// What a port takes.
pub struct Limits {
    /// Bytes of the longest RTU frame, with its CRC.
    pub frame_most: usize,
    /// Registers of the longest read.
    pub read_most: u16,
    /// Whether ASCII frames are taken.
    pub ascii: bool,
}

impl Port {
    /// The port of a number; `None` where there is no such port.
    pub fn of(number: u8) -> Option<Port> {
        [Port::Serial, Port::Radio].into_iter().find(|&port| port as u8 == number)
    }

    pub fn limits(self) -> Limits {
        match self {
            Port::Serial => Limits {
                frame_most: 256,
                read_most: 125,
                ascii: true,
            },
            Port::Radio => Limits {
                frame_most: 64,
                read_most: 29,
                ascii: false,
            },
        }
    }
}

#[cfg(test)]
mod tests {
    use super::*;

    #[test]
    fn two_ports() {
        assert_eq!((Port::of(1), Port::of(2)), (Some(Port::Serial), Some(Port::Radio)));
        assert!((0..=u8::MAX)
            .filter(|number| ![1, 2].contains(number))
            .all(|number| Port::of(number).is_none()));
    }
}

//! The ports that frames name: what is held of them beside the comparison, and lists that differ in ports alone. Such lists leave the same
//! volume, the same book and the same sonde but for its counters, for an RTU frame has the same effect by either port.

use crate::both::{Both, Comparison};
use crate::calls::{Answer, Call, Cut, Request};
use crate::convert::{difference, from_library, settings_difference};
use crate::interrupted::appends;
use crate::lists::{cut_by, follow};
use crate::random::Random;
use twin::book::Book;
use twin::frames::READ;
use twin::framing::Room;
use twin::{Arrival, Framing, Port, Sonde};

/// The longest frame on the radio, and the longest reply.
pub const RADIO_FRAME_MOST: usize = 64;
/// The longest reads.
const SERIAL_READ_MOST: u16 = 125;
const RADIO_READ_MOST: u16 = 29;

/// Ports that there aren't, which are tried most.
pub const NO_PORTS: [u8; 3] = [0, 3, 255];

/// A framing on a port.
#[derive(Clone, Copy, Debug, PartialEq, Eq, PartialOrd, Ord)]
pub struct Way {
    pub port: Port,
    pub framing: Framing,
}

/// Those in which good frames come.
pub const WAYS: [Way; 3] = [
    way(Port::Serial, Framing::Rtu),
    way(Port::Serial, Framing::Ascii),
    way(Port::Radio, Framing::Rtu),
];
/// In which every frame is bad.
pub const ASCII_ON_RADIO: Way = way(Port::Radio, Framing::Ascii);

const fn way(port: Port, framing: Framing) -> Way {
    Way { port, framing }
}

impl Way {
    /// `None` for a frame by a port that there isn't.
    pub fn of(arrival: Arrival) -> Option<Way> {
        Port::of(arrival.port).map(|port| way(port, arrival.framing))
    }

    /// What a frame carries, 2 to 254 bytes; `None` for a bad one.
    pub fn body<'a>(self, frame: &'a [u8], room: &'a mut Room) -> Option<&'a [u8]> {
        self.framing.body(frame, self.port, room)
    }

    /// The bytes of the longest body.
    pub fn body_most(self) -> usize {
        match self.port {
            Port::Serial => 254,
            Port::Radio => RADIO_FRAME_MOST - 2,
        }
    }

    /// The registers of the longest read.
    pub fn read_most(self) -> u16 {
        match self.port {
            Port::Serial => SERIAL_READ_MOST,
            Port::Radio => RADIO_READ_MOST,
        }
    }
}

/// Whether the port takes no such frame, whatever it carries.
pub fn off_port(request: &Request) -> bool {
    let Arrival { framing, port, .. } = request.arrival;
    port == Port::Radio as u8 && (framing == Framing::Ascii || request.bytes.len() > RADIO_FRAME_MOST)
}

/// Number 9 is that of ports other than 1 and 2 alone, and no reply on the radio is longer than its frames: both implementations alike could be
/// wrong.
pub fn hold_port(request: &Request, answer: Answer) -> Result<(), String> {
    let port = request.arrival.port;
    if (answer.number == 9) == [1, 2].contains(&port) {
        return Err(format!("both give number {} on port {port}", answer.number));
    }
    if port == 2 && answer.length as usize > RADIO_FRAME_MOST {
        return Err(format!("both reply with {} bytes on the radio", answer.length));
    }
    Ok(())
}

/// What a frame is that comes by the other port.
#[derive(Clone, Copy, Debug, PartialEq, Eq, PartialOrd, Ord)]
pub enum Moved {
    /// An accepted calibration.
    Calibration,
    /// One that is cut.
    Cut,
    /// A frame that is too long for the radio.
    LongFrame,
    /// A read of more registers than the radio's.
    LongRead,
}

pub const MOVED: [Moved; 4] = [Moved::Calibration, Moved::Cut, Moved::LongFrame, Moved::LongRead];

/// A list beside another one, from which it differs in the ports of RTU frames alone, each 1 or 2.
pub struct OtherPorts {
    both: Both,
    book: Book,
}

impl OtherPorts {
    /// What both lists begin with.
    pub fn new(both: &Both, book: &Book) -> OtherPorts {
        OtherPorts {
            both: both.clone(),
            book: book.clone(),
        }
    }

    /// The port that the call has in this list, where it isn't the other list's, and what comes by it.
    pub fn step(&mut self, comparison: &mut Comparison, call: &Call, random: &mut Random) -> Result<Option<(Port, Vec<Moved>)>, String> {
        let (call, port) = redrawn(call, random);
        let moved = port.map(|port| (port, moved(&self.both, &call)));
        let mut run = |both: &mut Both, call: &Call| comparison.run_unread(both, call, random);
        let done = match &call {
            Call::Cut(cut) => cut_by(&mut self.both, &call, cut, &mut run),
            _ => run(&mut self.both, &call),
        };
        done.map_err(|difference| format!("by other ports, {call}\n{difference}"))?;
        follow(&mut self.book, &call);
        Ok(moved)
    }

    /// The lists so far leave the same.
    pub fn hold(&self, both: &Both, book: &Book) -> Result<(), String> {
        same_volume(&both.library_volume, &self.both.library_volume)
            .and_then(|()| same_sonde(&from_library(&both.library), &from_library(&self.both.library)))
            .and_then(|()| same_book(book, &self.book))
            .map_err(|difference| format!("in the list and in one by other ports {difference}"))
    }
}

/// The call with the port of an RTU frame drawn anew, and that port where it is another one.
fn redrawn(call: &Call, random: &mut Random) -> (Call, Option<Port>) {
    let mut call = call.clone();
    let (Call::Frame(request) | Call::Cut(Cut { request, .. })) = &mut call else {
        return (call, None);
    };
    let arrival = &mut request.arrival;
    let (Some(old), Framing::Rtu) = (Port::of(arrival.port), arrival.framing) else {
        return (call, None);
    };
    let new = random.pick(&[Port::Serial, Port::Radio]);
    arrival.port = new as u8;
    (call, (new != old).then_some(new))
}

fn moved(both: &Both, call: &Call) -> Vec<Moved> {
    let (request, calibration) = match call {
        Call::Frame(request) => (request, Moved::Calibration),
        Call::Cut(cut) => (&cut.request, Moved::Cut),
        _ => return Vec::new(),
    };
    let mut items = Vec::new();
    items.extend(appends(both, request).map(|_| calibration));
    items.extend((request.breach.is_none() && request.bytes.len() > RADIO_FRAME_MOST).then_some(Moved::LongFrame));
    items.extend((request.breach.is_none() && long_read(&request.bytes)).then_some(Moved::LongRead));
    items
}

/// A read that the radio refuses for its count, and the serial port doesn't.
fn long_read(frame: &[u8]) -> bool {
    let counts = RADIO_READ_MOST + 1..=SERIAL_READ_MOST;
    match *frame {
        [to, READ, _, _, high, low, _, _] => to != 0 && counts.contains(&u16::from_be_bytes([high, low])),
        _ => false,
    }
}

fn same_volume(first: &[u16], second: &[u16]) -> Result<(), String> {
    match (0..first.len()).find(|&word| first[word] != second[word]) {
        None => Ok(()),
        Some(word) => Err(format!(
            "word {word} of the volume is {:#06X} and {:#06X}",
            first[word], second[word]
        )),
    }
}

/// The same sonde but for its counters.
fn same_sonde(first: &Sonde, second: &Sonde) -> Result<(), String> {
    let counted_alike = Sonde {
        counters: first.counters,
        ..*second
    };
    match difference(first, &counted_alike) {
        None => Ok(()),
        Some(field) => Err(format!("the sonde differs in {field}")),
    }
}

fn same_book(first: &Book, second: &Book) -> Result<(), String> {
    if first.address() != second.address() {
        return Err(format!("the book's addresses are {} and {}", first.address(), second.address()));
    }
    if let Some(field) = settings_difference(first.settings(), second.settings()) {
        return Err(format!("the book differs in {field}"));
    }
    let [first, second] = [first, second].map(|book| {
        let mut words = Vec::new();
        book.lay_out(&mut words);
        words
    });
    if first != second {
        return Err("the book's header or entries differ".to_string());
    }
    Ok(())
}

#[cfg(test)]
mod tests {
    use super::*;

    fn request(port: u8, framing: Framing, bytes: usize) -> Request {
        Request {
            arrival: Arrival { clock: 0, framing, port },
            bytes: vec![0; bytes],
            breach: None,
            reply: 600,
            words: 88,
        }
    }

    #[test]
    fn what_the_radio_takes() {
        assert!(!off_port(&request(2, Framing::Rtu, 64)) && off_port(&request(2, Framing::Rtu, 65)));
        assert!(off_port(&request(2, Framing::Ascii, 17)));
        assert!([Framing::Rtu, Framing::Ascii]
            .iter()
            .all(|&framing| !off_port(&request(1, framing, 256))));
    }

    #[test]
    fn ports_are_held() {
        let held = |port, number, length: u32| hold_port(&request(port, Framing::Rtu, 8), Answer::new(number, length)).is_ok();
        for port in 0..=u8::MAX {
            let there = port == 1 || port == 2;
            assert_eq!([0, 3, 4, 9].map(|number| held(port, number, 0)), [there, there, there, !there]);
        }
        assert_eq!(
            [(1, 65), (2, 64), (2, 65)].map(|(port, length)| held(port, 0, length)),
            [true, true, false]
        );
    }

    /// RTU frames alone go to the other port, and about half of them.
    #[test]
    fn ports_are_drawn_anew() {
        let mut random = Random::new(1, 1);
        for (port, framing) in [(0, Framing::Rtu), (3, Framing::Rtu), (1, Framing::Ascii), (2, Framing::Ascii)] {
            let (call, moved) = redrawn(&Call::Frame(request(port, framing, 8)), &mut random);
            let Call::Frame(Request { arrival, .. }) = call else {
                panic!("a frame becomes {call}");
            };
            assert_eq!((arrival.port, arrival.framing, moved), (port, framing, None));
        }
        for (port, other) in [(1, Port::Radio), (2, Port::Serial)] {
            let cut = Call::Cut(Cut {
                request: request(port, Framing::Rtu, 8),
                stores: 26,
                address: 1,
            });
            let drawn: Vec<_> = (0..100).map(|_| redrawn(&cut, &mut random)).collect();
            for (call, moved) in &drawn {
                let Call::Cut(cut) = call else {
                    panic!("a cut becomes {call}");
                };
                assert_eq!(cut.request.arrival.port, moved.map_or(port, |_| other as u8));
                assert!(moved.is_none_or(|moved| moved == other));
            }
            assert!((20..80).contains(&drawn.iter().filter(|(_, moved)| moved.is_some()).count()));
        }
    }

    #[test]
    fn counters_alone_may_differ() {
        let first = Sonde::fresh(1);
        let differs = |change: fn(&mut Sonde)| {
            let mut second = first;
            change(&mut second);
            same_sonde(&first, &second).is_err()
        };
        assert!(!differs(|sonde| [
            sonde.counters.good,
            sonde.counters.bad,
            sonde.counters.exceptions
        ] = [1, 2, 3]));
        assert!(differs(|sonde| sonde.address = 2));
        assert!(differs(|sonde| sonde.settings.technician = 1));
        assert!(differs(|sonde| sonde.settings.sensors[3].trial[0] = -0.0));
        assert!(differs(|sonde| sonde.samples[0].present = true));
    }

    /// Of two books, one told of a few writes more.
    #[test]
    fn books_are_compared() {
        let told = |writes: &[(u16, u16)]| {
            let mut book = Book::fresh(1);
            book.begin(112);
            for (register, value) in writes {
                let body = [&[1, 6][..], &register.to_be_bytes(), &value.to_be_bytes()].concat();
                book.frame(&crate::breach::rtu(&body), 256, Arrival::radio(7));
            }
            book
        };
        let [none, number, mode] = [&[][..], &[(9, 7)], &[(105, 0xE000)]].map(told);
        let [updated, left] = [&[(105, 0xE000), (105, 0xE001)][..], &[(105, 0xE000), (105, 0xE001), (105, 0xE002)]].map(told);
        let mut longer = none.clone();
        longer.begin(136);
        let mut elsewhere = none.clone();
        elsewhere.power_up(2);
        let books = [none, number, mode, updated, left, longer, elsewhere];
        for (i, first) in books.iter().enumerate() {
            for (j, second) in books.iter().enumerate() {
                assert_eq!(same_book(first, second).is_ok(), i == j, "{i} and {j}");
            }
        }
    }

    #[test]
    fn long_reads() {
        let counts = [29u16, 30, 125, 126].map(|count| {
            let [high, low] = count.to_be_bytes();
            long_read(&[1, 3, 0, 0, high, low, 0, 0])
        });
        assert_eq!(counts, [false, true, true, false]);
        assert!(!long_read(&[0, 3, 0, 0, 0, 30, 0, 0]) && !long_read(&[1, 6, 0, 0, 0, 30, 0, 0]));
    }
}

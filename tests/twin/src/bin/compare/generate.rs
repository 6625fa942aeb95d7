//! Calls that are likely to find a mistake: mostly valid ones, near every edge of documents 01 and 02, then spoilt ones.

use crate::both::{Both, PAGE_MOST};
use crate::breach::{self, broken, Breach, OF_ASCII};
use crate::calls::{Call, Cut, Request};
use crate::interrupted::appends;
use crate::ports::{Way, ASCII_ON_RADIO, NO_PORTS, RADIO_FRAME_MOST, WAYS};
use crate::random::Random;
use crate::values;
use sonde::ffi;
use std::collections::VecDeque;
use twin::calibration::{candidate, used_points, within_limits, DIRECT, LEVEL, LIMITS, ONE_POINT, TWO_POINTS};
use twin::floats::split;
use twin::frames::{MASK, READ, WRITE_MANY, WRITE_ONE};
use twin::map::{locate, Access, Field, Owner, Place, ENTER, LEAVE, LEVEL_IDS, PARAMETERS, UPDATE};
use twin::page::{page_bytes, LINE_BYTES};
use twin::state::{valid_address, Sonde};
use twin::volume::{capacity, APPEND_STORES, ENTRY_WORDS, HEADER_WORDS};
use twin::{Arrival, Framing};

/// Reply buffers at and beside the least lengths of both framings.
pub const REPLIES: [usize; 8] = [255, 256, 257, 511, 512, 513, 514, 600];

/// Start and count of the longest run of registers.
pub const LONGEST_READ: [u16; 2] = [130, 24];

/// The register of the technician's number, the last of the device's.
pub const TECHNICIAN: u16 = 9;

/// Requests for registers at the device's end: function, start, count, and the code, 0 where they are accepted.
pub const DEVICE_END: [(u8, u16, u16, u8); 14] = [
    (READ, 0, 10, 0),
    (READ, 8, 2, 0),
    (READ, 9, 1, 0),
    (READ, 0, 11, 2),
    (READ, 9, 2, 2),
    (READ, 10, 1, 2),
    (WRITE_ONE, 8, 1, 0xC2),
    (WRITE_ONE, 10, 1, 2),
    (MASK, 8, 1, 0xC2),
    (MASK, 10, 1, 2),
    (WRITE_MANY, 8, 2, 0x80),
    (WRITE_MANY, 8, 3, 2),
    (WRITE_MANY, 9, 2, 2),
    (WRITE_MANY, 10, 1, 2),
];

pub struct Generator {
    pub random: Random,
    /// The fields of the map.
    fields: Vec<Place>,
    writable: Vec<Place>,
    /// Those that can be written and have one word.
    words: Vec<Place>,
    /// Frames, without address and checksum, that finish a calibration.
    script: VecDeque<Vec<u8>>,
    /// Whether the sonde is a new one that has no volume yet.
    pub unbegun: bool,
}

impl Generator {
    pub fn new(random: Random) -> Generator {
        let mut fields: Vec<Place> = (0..500).filter_map(locate).collect();
        fields.dedup_by_key(|place| place.start);
        let writable: Vec<Place> = fields.iter().copied().filter(|place| place.access() != Access::ReadOnly).collect();
        let words = writable.iter().copied().filter(|place| place.field.words() == 1).collect();
        Generator {
            random,
            fields,
            writable,
            words,
            script: VecDeque::new(),
            unbegun: true,
        }
    }

    /// A call that keeps sonde and volume in agreement: no number 4.
    pub fn call(&mut self, both: &Both) -> Call {
        if self.unbegun {
            return self.call_before_begin(both);
        }
        match self.random.below(1000) {
            0..=9 => self.begin(both),
            10..=21 => self.power_up(both),
            22..=149 => self.measure(&both.twin),
            150..=189 => Call::Audit { words: self.words(both) },
            190..=204 => Call::Fresh {
                address: self.random.pick(&[0, 248, 249, 255]),
            },
            205..=209 => self.fresh(),
            210..=249 => {
                let words = self.words(both);
                self.print(both, words)
            }
            250..=254 => Call::Salvage { words: self.words(both) },
            _ => {
                let request = self.request(both);
                self.perhaps_cut(both, request)
            }
        }
    }

    /// The frame, or a cut of it: often of one that appends, seldom of others.
    fn perhaps_cut(&mut self, both: &Both, request: Request) -> Call {
        let percent = if appends(both, &request).is_some() { 12 } else { 2 };
        if !self.random.chance(percent) {
            return Call::Frame(request);
        }
        if self.random.chance(80) {
            self.script.clear();
        }
        let stores = self.stores();
        Call::Cut(self.cut(request, stores))
    }

    pub fn cut(&mut self, request: Request, stores: usize) -> Cut {
        let address = match self.address() {
            address if valid_address(address) => address,
            _ => 1,
        };
        Cut { request, stores, address }
    }

    /// How many stores of an append are made.
    fn stores(&mut self) -> usize {
        let within = self.random.between(0, APPEND_STORES);
        let more = self.random.pick(&[APPEND_STORES + 1, 100, 1 << 16, 1 << 32, usize::MAX]);
        if self.random.chance(90) {
            within
        } else {
            more
        }
    }

    /// An append of any entry to a volume of any words.
    pub fn append(&mut self, both: &Both) -> Call {
        let (lent, room) = (both.lent, both.twin_volume.len());
        let words = match self.random.below(10) {
            0 => self.random.between(0, room),
            1 => self.random.between(0, lent),
            _ => lent,
        };
        let entry = if self.random.chance(60) {
            self.valid_entry()
        } else {
            self.any_entry()
        };
        let stores = self.stores();
        Call::Append { words, entry, stores }
    }

    /// An entry that any journal with room may hold.
    fn valid_entry(&mut self) -> ffi::Entry {
        let sensor = self.random.below(4);
        let trial = [0, 1, 2].map(|coefficient| values::within(&mut self.random, sensor, coefficient));
        let method = if sensor == LEVEL { DIRECT } else { self.random.below(3) as u16 };
        let points = match method {
            ONE_POINT => self.one_point(sensor),
            _ => self.two_points(sensor),
        };
        let coefficients = candidate(method, &trial, &points);
        let (method, coefficients) = match within_limits(sensor, &coefficients) {
            true => (method, coefficients),
            false => (DIRECT, trial),
        };
        let (technician, time) = (self.random.word(), self.random.long());
        entry(
            sensor as u16 + 1,
            method,
            technician,
            coefficients,
            time,
            used_points(method, &points),
        )
    }

    fn any_entry(&mut self) -> ffi::Entry {
        let random = &mut self.random;
        let sensor = random.pick(&[0, 1, 2, 3, 4, 1, 2, 3, 4, 5, 6, 65535]);
        let any = random.word();
        let method = random.pick(&[0, 1, 2, 3, any]);
        let coefficients = [(); 3].map(|()| values::any(random));
        let points = [(); 4].map(|()| values::any(random));
        entry(sensor, method, random.word(), coefficients, random.long(), points)
    }

    /// Frames, audits and prints wait for the begin.
    fn call_before_begin(&mut self, both: &Both) -> Call {
        match self.random.below(10) {
            0 => self.fresh(),
            1 => self.measure(&both.twin),
            _ => self.begin(both),
        }
    }

    fn address(&mut self) -> u8 {
        let any = self.random.byte();
        self.random.pick(&[0, 1, 2, 17, 246, 247, 248, 255, any, any, any])
    }

    fn fresh(&mut self) -> Call {
        Call::Fresh { address: self.address() }
    }

    /// Takes the modes off, so that most of the time nothing is left of a calibration.
    fn power_up(&mut self, both: &Both) -> Call {
        if self.random.chance(80) {
            self.script.clear();
        }
        Call::PowerUp {
            address: self.address(),
            words: self.words(both),
        }
    }

    fn begin(&mut self, both: &Both) -> Call {
        let room = both.twin_volume.len();
        let most = capacity(room);
        let entries = [0, 1, 2, most, most, self.random.between(0, most)];
        let near = HEADER_WORDS + ENTRY_WORDS * self.random.pick(&entries) + self.random.between(0, 4) - 2;
        let any = self.random.between(0, room);
        let short = self.random.below(HEADER_WORDS + ENTRY_WORDS);
        let words = self.random.pick(&[near, near, near, any, room, short]);
        Call::Begin { words: words.min(room) }
    }

    /// A length with the capacity of the last begin.
    fn words(&mut self, both: &Both) -> usize {
        if self.random.chance(70) {
            return both.lent;
        }
        let capacity = capacity(both.lent);
        let least = HEADER_WORDS + ENTRY_WORDS * capacity;
        let room = both.twin_volume.len();
        let most = if capacity == twin::volume::CAPACITY_MOST {
            room
        } else {
            room.min(least + ENTRY_WORDS - 1)
        };
        self.random.between(least, most)
    }

    /// A print of so many words, on a page that is long enough or not: by the entries that the volume says to have in use.
    pub fn print(&mut self, both: &Both, words: usize) -> Call {
        let random = &mut self.random;
        let due = page_due(&both.twin_volume[..words]);
        let longer = due + random.between(2, 400);
        let shorter = random.below(due);
        let page = random.pick(&[due, due, due, due + 1, longer, longer, due - 1, due - LINE_BYTES, shorter, 0]);
        Call::Print {
            words,
            page: page.min(PAGE_MOST),
        }
    }

    pub fn measure(&mut self, sonde: &Sonde) -> Call {
        let random = &mut self.random;
        let sensor = if random.chance(5) {
            random.pick(&[0, 5, 6, 255])
        } else {
            random.between(1, 4) as u8
        };
        let [offset, slope, _] = sonde.settings.sensors[0].active.coefficients;
        let first = match random.below(10) {
            0 => values::any(random),
            1..=2 => random.pick(&[f32::MAX, -f32::MAX, 1e38, -2e38, 5e37, 1e-33, -1e-39, 0.0, -0.0]),
            3 => -offset / slope, // a conductivity of zero
            4..=5 => values::finite(random),
            _ => values::plain(random, -50.0, 2500.0),
        };
        let second = if random.chance(50) {
            values::any(random)
        } else {
            values::plain(random, -5.0, 40.0)
        };
        Call::Measure {
            sensor,
            present: random.chance(85),
            first,
            second,
        }
    }

    pub fn frame(&mut self, both: &Both) -> Call {
        Call::Frame(self.request(both))
    }

    /// A frame in either framing by either port, with a fit reply buffer; seldom a short one, or by a port that there isn't.
    fn request(&mut self, both: &Both) -> Request {
        let mut body = vec![self.frame_address(both.twin.address)];
        body.extend(self.body());
        let arrival = self.arrival();
        let (bytes, breach) = match arrival.framing {
            Framing::Rtu => self.seal_rtu(&body),
            Framing::Ascii => self.seal_ascii(&body),
        };
        Request {
            arrival,
            bytes,
            breach,
            reply: self.reply(arrival.framing),
            words: self.words(both),
        }
    }

    /// A frame that writes a register of one word, in a framing and by a port that takes it.
    pub fn word_frame(&mut self, address: u8, register: u16, value: u16, words: usize) -> Call {
        let mut body = vec![address];
        body.extend(self.write_word(register, value));
        let Way { port, framing } = self.random.pick(&WAYS);
        let (clock, port) = (self.random.long(), port as u8);
        Call::Frame(Request {
            arrival: Arrival { clock, framing, port },
            bytes: breach::sealed(framing, &body),
            breach: None,
            reply: framing.reply_least(),
            words,
        })
    }

    fn arrival(&mut self) -> Arrival {
        let random = &mut self.random;
        let taken = random.pick(&WAYS);
        let Way { port, framing } = if random.chance(3) { ASCII_ON_RADIO } else { taken };
        let (any, small) = (random.long(), random.long() >> random.below(32));
        Arrival {
            clock: random.pick(&[0, 1, u32::MAX, 0xFFFF, 0x1_0000, any, any, small]),
            framing,
            port: if random.chance(2) { self.other_port() } else { port as u8 },
        }
    }

    /// A port that there isn't, or seldom any.
    fn other_port(&mut self) -> u8 {
        let [none, any] = [self.random.pick(&NO_PORTS), self.random.byte()];
        self.random.pick(&[none, none, any])
    }

    /// A reply buffer; both framings' least lengths and their neighbours are tried in either.
    fn reply(&mut self, framing: Framing) -> usize {
        let random = &mut self.random;
        match framing {
            _ if random.chance(1) => random.pick(&REPLIES),
            Framing::Rtu if random.chance(1) => random.pick(&[255, 255, 128, 1, 0]),
            Framing::Ascii if random.chance(1) => random.pick(&[512, 512, 511, 257, 256, 255, 1, 0]),
            Framing::Rtu => random.pick(&[256, 256, 257, 300]),
            Framing::Ascii => random.pick(&[513, 513, 514, 600]),
        }
    }

    /// Function and data of a frame.
    fn body(&mut self) -> Vec<u8> {
        if self.script.is_empty() && self.random.chance(25) {
            self.plan_calibration();
        }
        if self.random.chance(70) {
            if let Some(body) = self.script.pop_front() {
                return body;
            }
        }
        match self.random.below(24) {
            0..=1 => self.read_present(),
            2..=4 => self.read(),
            5..=11 => self.write(),
            12..=13 => self.write_anything(),
            14..=17 => self.spoil(),
            18 => self.other_function(),
            19 => self.write_technician(),
            20 => self.device_end(),
            21..=22 => self.long(),
            _ => self.noise(),
        }
    }

    /// The sonde's own address, seldom another's or 0.
    fn frame_address(&mut self, own: u8) -> u8 {
        let random = &mut self.random;
        match random.below(100) {
            0..=2 => random.pick(&[248, 255, own.wrapping_add(1), own.wrapping_sub(1), own ^ 0x80]),
            3..=15 => 0,
            _ => own,
        }
    }

    /// Puts a checksum to a body; seldom a wrong one. Also how that breaks the form.
    fn seal_rtu(&mut self, body: &[u8]) -> (Vec<u8>, Option<Breach>) {
        let mut bytes = breach::rtu(body);
        let end = bytes.len();
        let random = &mut self.random;
        match random.below(100) {
            0 => bytes.swap(end - 2, end - 1),
            1 => bytes[end - 1 - random.below(2)] ^= 1 << random.below(8),
            2 => bytes.truncate(random.below(5)),
            3 => return (breach::ascii(body), Some(Breach::NamedRtu)),
            _ => return (bytes, length_breach(body)),
        }
        (bytes, Some(Breach::Spoilt))
    }

    /// Puts a body into characters; seldom such that they break the form, and how.
    fn seal_ascii(&mut self, body: &[u8]) -> (Vec<u8>, Option<Breach>) {
        if let Some(breach) = length_breach(body) {
            return (breach::ascii(body), Some(breach));
        }
        if !self.random.chance(8) {
            return (breach::ascii(body), None);
        }
        let breach = self.random.pick(&OF_ASCII);
        (broken(breach, body, &mut self.random), Some(breach))
    }

    /// A read of registers that are all there; it may begin and end inside a field.
    fn read_present(&mut self) -> Vec<u8> {
        if self.random.chance(5) {
            return words_body(READ, &LONGEST_READ);
        }
        let place = self.random.pick(&self.fields);
        let start = place.start + self.random.below(usize::from(place.field.words())) as u16;
        let run = (start..).take_while(|&register| locate(register).is_some()).count();
        let count = if self.random.chance(50) { run } else { self.random.between(1, run) };
        words_body(READ, &[start, count as u16])
    }

    /// Reads at the edges of every block and field, of zero to far too many registers.
    fn read(&mut self) -> Vec<u8> {
        let random = &mut self.random;
        let place = random.pick(&self.fields);
        let any = random.word();
        let start = match random.below(8) {
            0 => random.pick(&[0xFFFF, 0xFFFE, 0xFF83, 0xFF84, 0x2500, 99, 10, 500, 154, any]),
            1..=2 => (place.start + place.field.words()).wrapping_sub(random.below(3) as u16),
            3 => place.start.wrapping_sub(1),
            _ => place.start,
        };
        let fit = random.between(1, 126) as u16;
        let count = random.pick(&[
            0, 1, 2, 3, 4, 5, 6, 7, 8, 9, 16, 24, 25, 28, 29, 29, 30, 30, 31, 123, 124, 125, 126, 127, 128, 256, 65535, fit, fit, any,
        ]);
        words_body(READ, &[start, count])
    }

    /// A write of one whole field that may be written, most of the time with a value that may be written.
    fn write(&mut self) -> Vec<u8> {
        let fields = if self.random.chance(40) { &self.words } else { &self.writable };
        let place = self.random.pick(fields);
        if place.field.words() == 2 {
            let value = self.long_value(place);
            return write_long(place.start, value);
        }
        let value = self.word_value(place);
        if self.random.chance(10) {
            let and = self.random.pick(&[0, 0xFFFF, 0xFFFE, 0x00FF]);
            return words_body(MASK, &[place.start, and, self.random.pick(&[0, 0xFFFF, value])]);
        }
        self.write_word(place.start, value)
    }

    /// A value of a field of one word: listed, or a neighbour of a listed one.
    fn word_value(&mut self, place: Place) -> u16 {
        let random = &mut self.random;
        let any = random.word();
        match (place.owner, place.field) {
            (_, Field::Command) => random.pick(&[ENTER, ENTER, UPDATE, UPDATE, LEAVE, ENTER - 1, LEAVE + 1, 0, 1, any]),
            (_, Field::Method) => random.pick(&[0, 1, 2, 0, 1, 2, 3, 0xFFFF, any]),
            (_, Field::Id(_)) => random.pick(&[LEVEL_IDS[0], LEVEL_IDS[1], LEVEL_IDS[2], LEVEL_IDS[0] - 1, LEVEL_IDS[2] + 1, any]),
            (Owner::Sensor(sensor), Field::Units(i)) => {
                let listed = random.pick(PARAMETERS[sensor][i].units);
                random.pick(&[listed, listed, listed, listed + 1, listed - 1, any])
            }
            _ => any,
        }
    }

    /// The technician's number; a mask keeps any bits of the one that stands.
    fn write_technician(&mut self) -> Vec<u8> {
        let random = &mut self.random;
        let (any, small) = (random.word(), random.word() >> random.below(16));
        let number = random.pick(&[0, 1, 0xFFFF, any, any, small]);
        match random.below(3) {
            0 => words_body(WRITE_ONE, &[TECHNICIAN, number]),
            1 => write_many(TECHNICIAN, &[number]),
            _ => {
                let any = random.word();
                words_body(MASK, &[TECHNICIAN, random.pick(&[0, 0xFFFF, 0x00FF, any, any]), number])
            }
        }
    }

    /// Registers beside the technician's.
    fn device_end(&mut self) -> Vec<u8> {
        let random = &mut self.random;
        let (function, start, count, _) = random.pick(&DEVICE_END);
        let value = random.word();
        match function {
            READ => words_body(READ, &[start, count]),
            WRITE_ONE => words_body(WRITE_ONE, &[start, value]),
            MASK => words_body(MASK, &[start, random.word(), value]),
            _ => write_many(start, &vec![value; count.into()]),
        }
    }

    fn long_value(&mut self, place: Place) -> u32 {
        let random = &mut self.random;
        match (place.owner, place.field) {
            (_, Field::Next) => random.long(),
            (Owner::Sensor(sensor), Field::Coefficient(i)) if random.chance(40) => values::beside_limit(random, sensor, i).to_bits(),
            _ => values::any(random).to_bits(),
        }
    }

    /// One word by function 6, 16 or 22. The bits that a mask keeps are 0 in the value, or bit 0, which is 1 in a command register in mode.
    fn write_word(&mut self, register: u16, value: u16) -> Vec<u8> {
        let random = &mut self.random;
        match random.below(10) {
            0..=3 => words_body(WRITE_ONE, &[register, value]),
            4..=6 => write_many(register, &[value]),
            _ => {
                let and = random.word() & random.pick(&[0, 0, !value & 0xFFFE, !value | 1]);
                let or = value & !and | random.word() & and;
                words_body(MASK, &[register, and, or])
            }
        }
    }

    /// A write that names any field, half a field, two fields or none.
    fn write_anything(&mut self) -> Vec<u8> {
        let random = &mut self.random;
        let place = random.pick(&self.fields);
        let any = random.word();
        let register = random.pick(&[
            place.start,
            place.start,
            place.start.wrapping_sub(1),
            place.start + 1,
            place.start + 2,
            0xFFFF,
            any,
        ]);
        let value = random.pick(&[0, 1, 2, 0x3F80, ENTER, UPDATE, any]);
        match random.below(4) {
            0 => words_body(WRITE_ONE, &[register, value]),
            1 => words_body(MASK, &[register, random.pick(&[0, 0xFFFF, any]), value]),
            _ => {
                let mut words = vec![0x3F80; random.pick(&[1, 2, 2, 3, 4, 5, 8, 122, 123])];
                words[0] = value;
                write_many(register, &words)
            }
        }
    }

    /// A good request with its shape or a byte changed.
    fn spoil(&mut self) -> Vec<u8> {
        let mut body = if self.random.chance(30) { self.read() } else { self.write() };
        let random = &mut self.random;
        match random.below(7) {
            0 => body.truncate(random.below(body.len() + 1)),
            1 => body.extend([0; 4].iter().take(random.between(1, 4))),
            2 => {
                let at = random.below(body.len());
                body[at] = random.byte();
            }
            3 => body[0] = random.pick(&[READ, WRITE_ONE, WRITE_MANY, MASK, READ | 0x80, 23]),
            4 if body.len() > 5 => body[5] = random.pick(&[0, 1, 2, 3, 4, 5, 6, 246, 255]), // the byte count of 16
            5 if body.len() > 4 => body[4] = random.pick(&[0, 1, 2, 3, 123, 124, 125, 126]), // the count
            _ => return self.many_bytes(),
        }
        body
    }

    /// Function 16 with count and byte count at and past their ends.
    fn many_bytes(&mut self) -> Vec<u8> {
        let random = &mut self.random;
        let start = random.pick(&self.fields).start;
        let count = random.pick(&[0, 1, 2, 121, 122, 123, 124, 125, 126, 0x8001u16]);
        let mut body = words_body(WRITE_MANY, &[start, count]);
        let byte_count = (2 * count as u8).wrapping_add(random.pick(&[0, 0, 0, 1, 2, 254, 255]));
        body.push(byte_count);
        let data = usize::from(byte_count) + random.pick(&[0, 0, 0, 1, 2]);
        body.resize(6 + data, 0x3F);
        body
    }

    fn other_function(&mut self) -> Vec<u8> {
        let random = &mut self.random;
        let mut body = vec![0; random.between(1, 12)];
        random.fill_bytes(&mut body);
        if random.chance(50) {
            body[0] = random.pick(&[1, 2, 4, 5, 7, 8, 15, 17, 21, 23, 43, 0, 127, 128, 131, 134, 144, 150, 255]);
        }
        body
    }

    /// A frame of about the radio's longest, or of any longer one that is taken on the serial port: mostly a write of as many registers as its
    /// length has room for, which an even one leaves a byte of.
    fn long(&mut self) -> Vec<u8> {
        let random = &mut self.random;
        let any = random.between(RADIO_FRAME_MOST + 1, 256);
        let near = random.between(RADIO_FRAME_MOST - 2, RADIO_FRAME_MOST + 2);
        let frame = random.pick(&[near, near, near, any, any, 255, 256]);
        let mut body = vec![0; frame - 3];
        random.fill_bytes(&mut body);
        body[0] = random.pick(&[WRITE_MANY, WRITE_MANY, WRITE_MANY, READ, WRITE_ONE, MASK, 0x41]);
        if body[0] == WRITE_MANY {
            let (start, data) = (random.pick(&self.fields).start, body.len() - 6);
            body[1..3].copy_from_slice(&start.to_be_bytes());
            body[3..6].copy_from_slice(&[0, data as u8 / 2, data as u8]);
        }
        body
    }

    /// Bytes of any number, up to past the longest frame.
    fn noise(&mut self) -> Vec<u8> {
        let length = self.random.pick(&[0, 1, 2, 3, 252, 253, 254, 255, 256, 297]);
        let any = self.random.below(298);
        let mut body = vec![0; if self.random.chance(50) { length } else { any }];
        self.random.fill_bytes(&mut body);
        if let (Some(function), true) = (body.first_mut(), self.random.chance(60)) {
            *function = self.random.pick(&[READ, WRITE_ONE, WRITE_MANY, MASK]);
        }
        body
    }

    /// The frames of a calibration: technician, mode, method, points or trial coefficients, update.
    fn plan_calibration(&mut self) {
        let sensor = self.random.below(4);
        let base = 100 * (sensor as u16 + 1);
        self.plan_technician(40);
        self.plan_command(base, ENTER);
        let method = if sensor == LEVEL { 0 } else { self.random.below(3) as u16 };
        if sensor != LEVEL {
            let body = self.write_word(base + 6, method);
            self.script.push_back(body);
        }
        match method {
            ONE_POINT | TWO_POINTS => {
                let points = if method == ONE_POINT {
                    self.one_point(sensor)
                } else {
                    self.two_points(sensor)
                };
                let writes = (base + 16..)
                    .step_by(2)
                    .zip(points)
                    .map(|(register, point)| write_long(register, point.to_bits()));
                self.script.extend(writes);
            }
            _ => self.plan_trial(sensor, base),
        }
        for _ in 0..self.random.pick(&[1, 1, 1, 2]) {
            self.plan_technician(30);
            self.plan_command(base, UPDATE);
        }
        if sensor != LEVEL && self.random.chance(40) {
            self.plan_correction(sensor, base);
        }
        if self.random.chance(30) {
            self.plan_command(base, LEAVE);
        }
    }

    /// So often another number of the technician.
    fn plan_technician(&mut self, percent: usize) {
        if self.random.chance(percent) {
            let body = self.write_technician();
            self.script.push_back(body);
        }
    }

    fn plan_command(&mut self, base: u16, command: u16) {
        let body = self.write_word(base + 5, command);
        self.script.push_back(body);
    }

    /// Trial coefficients of which at most one is beside its limit.
    fn plan_trial(&mut self, sensor: usize, base: u16) {
        let random = &mut self.random;
        let beside = random.below(3);
        for coefficient in (0..3).filter(|&coefficient| LIMITS[sensor][coefficient].is_some()) {
            let value = if coefficient == beside {
                values::beside_limit(random, sensor, coefficient)
            } else if random.chance(10) {
                values::finite(random)
            } else {
                values::within(random, sensor, coefficient)
            };
            let value = if coefficient == 0 && random.chance(5) { -0.0 } else { value };
            self.script
                .push_back(write_long(base + 10 + 2 * coefficient as u16, value.to_bits()));
        }
    }

    /// What the update left of the trial goes into one by the direct method, with a slope or an offset written anew.
    fn plan_correction(&mut self, sensor: usize, base: u16) {
        let method = self.write_word(base + 6, DIRECT);
        let coefficient = self.random.below(2);
        let value = values::within(&mut self.random, sensor, coefficient);
        let write = write_long(base + 10 + 2 * coefficient as u16, value.to_bits());
        self.script.extend([method, write]);
        self.plan_command(base, UPDATE);
    }

    fn slope(&mut self, sensor: usize) -> f32 {
        if self.random.chance(50) {
            values::beside_limit(&mut self.random, sensor, 1)
        } else {
            values::within(&mut self.random, sensor, 1)
        }
    }

    /// A point with a slope in or beside limits, or any point; the second is filled with what must not matter.
    fn one_point(&mut self, sensor: usize) -> [f32; 4] {
        let slope = self.slope(sensor);
        let random = &mut self.random;
        let any = values::finite(random);
        let x1 = random.pick(&[1.0, 2.0, 0.5, -4.0, 1000.0, 3.0, 0.0, -0.0, f32::MIN_POSITIVE, any]);
        let y1 = random.pick(&[slope * x1, slope * x1, slope * x1, slope * x1, f32::MAX, 0.0, any]);
        let [y1, x2, y2] = [y1, values::finite(random), values::finite(random)].map(|value| if value.is_finite() { value } else { 1.0 });
        [x1, y1, x2, y2]
    }

    fn two_points(&mut self, sensor: usize) -> [f32; 4] {
        let slope = self.slope(sensor);
        let random = &mut self.random;
        let offset = if random.chance(50) {
            values::beside_limit(random, sensor, 0)
        } else {
            values::within(random, sensor, 0)
        };
        let [x1, x2] = [(); 2].map(|()| values::plain(random, -20.0, 20.0));
        let any = [(); 4].map(|()| values::finite(random));
        let huge = f32::MAX;
        match random.below(10) {
            0..=1 => [1.0, slope, 0.0, 0.0],
            2..=3 => [0.0, offset, 1.0, offset + 1.0],
            4 => random.pick(&[
                [x1, slope, x1, offset],
                [x1, slope, x1, slope],
                [0.0, 1.0, -0.0, 2.0],
                [-0.0, 1.0, 0.0, 1.0],
            ]),
            5 => random.pick(&[
                [1.0, huge, 2.0, -huge],
                [huge, huge, -huge, -huge],
                [huge, huge, 1.0, 1.0],
                [huge, -1.0, 0.0, huge],
                [huge, offset, -huge, slope],
            ]),
            6 => random.pick(&[
                [1e-45, 1e-45, 0.0, 0.0],
                [1e-40, 1e-40, -1e-40, -1e-40],
                [1e-45, huge, 0.0, 0.0],
                any,
            ]),
            _ => [x1, offset + slope * x1, x2, offset + slope * x2],
        }
    }
}

fn entry(sensor: u16, method: u16, technician: u16, coefficients: [f32; 3], time: u32, points: [f32; 4]) -> ffi::Entry {
    let [coefficient1, coefficient2, coefficient3] = coefficients;
    let [x1, y1, x2, y2] = points;
    ffi::Entry {
        sensor,
        method,
        technician,
        calibration: ffi::Calibration {
            coefficient1,
            coefficient2,
            coefficient3,
            time,
        },
        points: ffi::Points { x1, y1, x2, y2 },
    }
}

/// A body's length alone can make its frame a bad one.
fn length_breach(body: &[u8]) -> Option<Breach> {
    match body.len() {
        0 | 1 => Some(Breach::OneByte),
        2..=254 => None,
        _ => Some(Breach::Long),
    }
}

fn words_body(function: u8, words: &[u16]) -> Vec<u8> {
    let mut body = vec![function];
    body.extend(words.iter().flat_map(|word| word.to_be_bytes()));
    body
}

fn write_many(register: u16, words: &[u16]) -> Vec<u8> {
    let mut body = words_body(WRITE_MANY, &[register, words.len() as u16]);
    body.push(2 * words.len() as u8);
    body.extend(words.iter().flat_map(|word| word.to_be_bytes()));
    body
}

fn write_long(register: u16, value: u32) -> Vec<u8> {
    write_many(register, &split(value))
}

/// Bytes of the page of a volume, by the entries that it says to have in use.
pub fn page_due(volume: &[u16]) -> usize {
    page_bytes(volume.get(2).copied().unwrap_or(0).into())
}

/// Whether a fresh with this address makes a new sonde, which then needs a volume.
pub fn makes_sonde(call: &Call) -> bool {
    matches!(call, Call::Fresh { address } if valid_address(*address))
}

//! What the compared calls have met, and what they have to have met.

use crate::before::Before;
use crate::both::IMAGE;
use crate::breach::{Breach, OF_ASCII};
use crate::calls::{Answer, Call, Kind, Request};
use crate::corrupt::{Corruption, OF_SONDE, OF_VOLUME};
use crate::generate::{page_due, DEVICE_END, LONGEST_READ, REPLIES};
use crate::interrupted::{self, Appended, Interrupted};
use crate::ports::{off_port, Moved, Way, ASCII_ON_RADIO, MOVED, NO_PORTS, WAYS};
use crate::printed::{self, Fit, Printed, FITS};
use std::collections::BTreeMap;
use std::num::FpCategory;
use twin::calibration::{candidate, within_limits, Coefficients, DIRECT, LEVEL, LIMITS, ONE_POINT, SENSORS, TWO_POINTS};
use twin::floats::{all_finite, join};
use twin::frames::{
    judge, Change, SensorChange, Verdict, ABSENT, BROADCAST, ILLEGAL_FUNCTION, ILLEGAL_SHAPE, JOURNAL_FULL, MASK, OUT_OF_LIMITS, READ,
    WRITE_MANY,
};
use twin::framing::{Framing, Room};
use twin::map::{locate, Field, LEVEL_IDS, LEVEL_PARAMETER, PARAMETERS};
use twin::readings::{GOOD, NOT_FINITE};
use twin::state::{SensorSettings, Sonde};
use twin::volume::capacity;
use twin::{Arrival, Port};

#[derive(Clone, Copy, Debug, PartialEq, Eq, PartialOrd, Ord)]
pub enum Counter {
    Good,
    Bad,
    Exceptions,
}

#[derive(Clone, Copy, Debug, PartialEq, Eq, PartialOrd, Ord)]
pub enum Written {
    PlusZero,
    MinusZero,
    Subnormal,
    Normal,
    PlusInfinity,
    MinusInfinity,
    QuietNan,
    SignallingNan,
}

/// What a frame is, as far as it tells by itself.
#[derive(Clone, Copy, Debug, PartialEq, Eq, PartialOrd, Ord)]
pub enum Sort {
    Bad,
    Foreign,
    Broadcast,
    Own,
}

const SORTS: [Sort; 4] = [Sort::Bad, Sort::Foreign, Sort::Broadcast, Sort::Own];

/// Where working a candidate out divides by zero or leaves the finite floats.
#[derive(Clone, Copy, Debug, PartialEq, Eq, PartialOrd, Ord)]
pub enum Division {
    ByPlusZero,
    ByMinusZero,
    Equal,
    Overflow,
    FirstOverflow,
    /// The second is a zero, since the difference of the x overflows: all are finite.
    DifferenceOverflow,
}

/// Sensors, coefficients and parameters count from 0.
#[derive(Clone, Copy, Debug, PartialEq, Eq, PartialOrd, Ord)]
pub enum Item {
    Number {
        call: Kind,
        number: u8,
    },
    Frame {
        way: Way,
        number: u8,
    },
    /// A frame by a port that there isn't; `None` for one that is seldom tried.
    NoPort {
        framing: Framing,
        port: Option<u8>,
    },
    /// The same where this number would refuse it on either port.
    NoPortBefore {
        framing: Framing,
        number: u8,
    },
    /// A reply buffer at or beside the least lengths.
    Reply {
        way: Way,
        bytes: usize,
        number: u8,
    },
    ShortReply {
        way: Way,
        sort: Sort,
    },
    /// A frame on the radio with a right checksum, of so many bytes.
    RadioFrame {
        bytes: usize,
    },
    /// One that writes as many registers as it has room for, so that the serial port looks at them.
    RadioWrite {
        bytes: usize,
    },
    /// A frame that the radio doesn't take, by what the serial port would find in it.
    OffRadio {
        framing: Framing,
        sort: Sort,
    },
    /// A bad RTU frame.
    TooShort,
    TooLong,
    WrongChecksum,
    NamedRtu,
    BadAscii(Breach),
    /// The body of a good frame, where it is the shortest or the longest.
    Body {
        way: Way,
        bytes: usize,
    },
    Foreign(Way),
    ReadAtZero(Way),
    /// Of more registers than the way's longest read.
    LongReadAtZero(Way),
    /// The code that refuses a read of a number of registers near the longest reads.
    ReadRefused {
        way: Way,
        count: u16,
        code: u8,
    },
    Code {
        way: Way,
        code: u8,
        broadcast: bool,
    },
    Accepted {
        way: Way,
        function: u8,
        broadcast: bool,
    },
    LongestRead(Way),
    Update {
        sensor: usize,
        method: u16,
    },
    UpdateBy {
        way: Way,
        function: u8,
        broadcast: bool,
    },
    Limit {
        sensor: usize,
        coefficient: usize,
        high: bool,
        inside: bool,
    },
    ThirdRefused {
        sensor: usize,
    },
    /// An update that was refused for its limits alone.
    Failed {
        sensor: usize,
        method: u16,
        full: bool,
    },
    FailedBy {
        way: Way,
        function: u8,
        broadcast: bool,
    },
    /// The trial's third coefficient becomes +0.0 by it.
    FailedThird {
        sensor: usize,
        method: u16,
    },
    /// The trial that it left, one coefficient of which was written anew, is accepted by the direct method.
    Corrected {
        sensor: usize,
    },
    Division {
        method: u16,
        division: Division,
    },
    /// A write of the technician's number.
    TechnicianBy {
        way: Way,
        function: u8,
        broadcast: bool,
    },
    /// The least or the greatest number in place of another.
    TechnicianWritten(u16),
    /// A mask over a number other than 0, and whether it keeps bits of it: then it gives another than over 0.
    TechnicianMasked {
        keeps: bool,
    },
    /// The technician of an entry, and whether a number was given.
    Technician {
        sensor: usize,
        given: bool,
    },
    /// An entry whose number isn't the one that stood at 0xE000.
    TechnicianInMode {
        sensor: usize,
    },
    /// Two entries of a journal, of one sensor or of two, with different numbers other than 0.
    TwoTechnicians {
        one_sensor: bool,
    },
    /// An entry with 0, since a power-up has cleared the number.
    TechnicianCleared,
    /// A request for registers at the device's end; code 0 where it is accepted.
    DeviceEnd {
        way: Way,
        function: u8,
        start: u16,
        count: u16,
        code: u8,
    },
    Full {
        capacity: usize,
    },
    RefusedFull {
        capacity: usize,
    },
    Saturated(Counter),
    Written(Written),
    Quality {
        sensor: usize,
        parameter: usize,
        quality: u16,
    },
    Units {
        sensor: usize,
        parameter: usize,
        units: u16,
    },
    LevelId {
        id: u16,
        calibrating: bool,
    },
    ResistivityAtZero {
        calibrating: bool,
    },
    PowerUpWithEntries,
    PowerUpWithTechnician,
    BeginAgain,
    BeginCalibrating,
    BeginWithTechnician,
    AuditWithEntries,
    AuditWithTechnician,
    /// A page beside the one that the entries in use take.
    Page {
        fit: Fit,
        number: u8,
    },
    Printed(Printed),
    Interrupted(Interrupted),
    Appended(Appended),
    /// The words that a salvage changed, up to 3.
    Salvaged {
        words: u32,
    },
    Corrupted {
        corruption: Corruption,
        call: Kind,
        number: u8,
    },
    /// In a list that differs from another one in ports alone.
    Moved {
        to: Port,
        moved: Moved,
    },
    /// A corrupted volume by itself, and whether it has a fault to name.
    Fault {
        corruption: Corruption,
        named: bool,
    },
}

#[derive(Default)]
pub struct Coverage(BTreeMap<Item, u64>);

impl Coverage {
    pub fn note(&mut self, item: Item) {
        *self.0.entry(item).or_default() += 1;
    }

    fn note_if(&mut self, met: bool, item: Item) {
        if met {
            self.note(item);
        }
    }

    pub fn merge(&mut self, other: &Coverage) {
        for (item, count) in &other.0 {
            *self.0.entry(*item).or_default() += count;
        }
    }

    /// Notes all that an answered call met.
    pub fn note_call(&mut self, before: &Before, call: &Call, answer: Answer) {
        self.note(Item::Number {
            call: call.kind(),
            number: answer.number,
        });
        if let Call::Frame(request) = call {
            self.note_reply(before, request, answer.number);
        }
        if answer.number != 0 {
            return;
        }
        match call {
            Call::Frame(request) => self.note_frame(before, request),
            Call::PowerUp { .. } => {
                self.note_if(before.in_use > 0, Item::PowerUpWithEntries);
                self.note_if(before.with_technician(), Item::PowerUpWithTechnician);
            }
            Call::Audit { .. } => {
                self.note_if(answer.length > 0, Item::AuditWithEntries);
                self.note_if(before.with_technician(), Item::AuditWithTechnician);
            }
            Call::Begin { .. } => self.note_begin(before),
            Call::Salvage { .. } => self.note(Item::Salvaged {
                words: answer.length.min(3),
            }),
            Call::Fresh { .. } | Call::Measure { .. } | Call::Print { .. } | Call::Append { .. } | Call::Cut(_) => {}
        }
    }

    /// Notes how the page of a print fits, and what it shows.
    pub fn note_print(&mut self, volume: &[u16], page: usize, number: u8) {
        let fit = Fit::of(page, page_due(volume));
        self.note(Item::Page { fit, number });
        if number == 0 {
            printed::shown(volume).into_iter().for_each(|item| self.note(Item::Printed(item)));
        }
    }

    fn note_begin(&mut self, before: &Before) {
        let settings = &before.sonde.settings;
        let again = before.lent > 0 && settings.sensors.iter().any(|settings| settings.active.time != 0);
        self.note_if(again, Item::BeginAgain);
        let calibrating = settings.sensors.iter().any(|settings| settings.calibrating);
        self.note_if(calibrating, Item::BeginCalibrating);
        self.note_if(settings.technician != 0, Item::BeginWithTechnician);
    }

    /// How a frame's number goes with its port, its framing and its reply buffer.
    fn note_reply(&mut self, before: &Before, request: &Request, number: u8) {
        let Some(way) = Way::of(request.arrival) else {
            return self.note_no_port(request);
        };
        let bytes = request.reply;
        self.note(Item::Frame { way, number });
        if number != 4 && REPLIES.contains(&bytes) {
            self.note(Item::Reply { way, bytes, number });
        }
        if number == 3 {
            let sort = sort(before.sonde.address, request);
            self.note(Item::ShortReply { way, sort });
        }
    }

    fn note_no_port(&mut self, request: &Request) {
        let Arrival { framing, port, .. } = request.arrival;
        let port = NO_PORTS.contains(&port).then_some(port);
        self.note(Item::NoPort { framing, port });
        let number = 3;
        self.note_if(request.reply < framing.reply_least(), Item::NoPortBefore { framing, number });
    }

    fn note_frame(&mut self, before: &Before, request: &Request) {
        let Some(way) = Way::of(request.arrival) else {
            return;
        };
        if way.port == Port::Radio && request.breach.is_none() {
            self.note_on_radio(&request.bytes);
        }
        let mut room = Room::None;
        let Some(body) = way.body(&request.bytes, &mut room) else {
            return self.note_bad(before, request);
        };
        if [2, way.body_most()].contains(&body.len()) {
            self.note(Item::Body { way, bytes: body.len() });
        }
        let capacity = capacity(request.words);
        let full = before.in_use == capacity;
        let verdict = judge(before.sonde.address, &before.sonde.settings, full, way.port, body);
        self.note_counters(before, &verdict);
        let broadcast = body[0] == BROADCAST;
        let accepted = Item::Accepted {
            way,
            function: body[1],
            broadcast,
        };
        match verdict {
            Verdict::Foreign => self.note(Item::Foreign(way)),
            Verdict::Ignored => self.note_read_at_zero(way, body),
            Verdict::Read { start, count } => {
                self.note(accepted);
                if [start, count] == LONGEST_READ {
                    self.note(Item::LongestRead(way));
                }
            }
            Verdict::Refused(code) => {
                self.note(Item::Code { way, code, broadcast });
                self.note_refused(before, code, capacity, body);
                self.note_read_refused(way, code, body);
            }
            Verdict::OutOfLimits { sensor, candidate } => {
                self.note(Item::FailedBy {
                    way,
                    function: body[1],
                    broadcast,
                });
                self.note_failed(before, sensor, candidate, capacity);
            }
            Verdict::Write(change) => {
                self.note(accepted);
                self.note_change(before, way, body, change, capacity);
            }
        }
        self.note_device_end(way, body, &verdict);
        self.note_written(body);
    }

    /// A good frame, but for its port.
    fn note_on_radio(&mut self, frame: &[u8]) {
        let bytes = frame.len();
        self.note_if(RADIO_FRAMES.contains(&bytes), Item::RadioFrame { bytes });
        let registers = match *frame {
            [_, WRITE_MANY, _, _, high, low, data, ..] if usize::from(data) + 9 == bytes => u16::from_be_bytes([high, low]),
            _ => 0,
        };
        let whole = 2 * usize::from(registers) + 9 == bytes;
        self.note_if(whole && RADIO_WRITES.contains(&bytes), Item::RadioWrite { bytes });
    }

    fn note_read_at_zero(&mut self, way: Way, body: &[u8]) {
        self.note(Item::ReadAtZero(way));
        self.note_if(body.len() == 6 && word(body, 4) > way.read_most(), Item::LongReadAtZero(way));
    }

    /// A read of the right length whose count or whose registers are refused.
    fn note_read_refused(&mut self, way: Way, code: u8, body: &[u8]) {
        if body[1] == READ && body.len() == 6 && READ_COUNTS.contains(&word(body, 4)) {
            let count = word(body, 4);
            self.note(Item::ReadRefused { way, count, code });
        }
    }

    fn note_change(&mut self, before: &Before, way: Way, body: &[u8], change: Change, capacity: usize) {
        let (function, broadcast) = (body[1], body[0] == BROADCAST);
        match change {
            Change::Technician(number) => {
                self.note(Item::TechnicianBy { way, function, broadcast });
                self.note_number(before, body, number);
            }
            Change::Sensor {
                sensor,
                change: SensorChange::Update(_),
            } => {
                self.note(Item::UpdateBy { way, function, broadcast });
                self.note_update(before, sensor, capacity);
                self.note_technician(before, sensor);
            }
            Change::Sensor { .. } => {}
        }
    }

    /// A technician's number that is written.
    fn note_number(&mut self, before: &Before, body: &[u8], number: u16) {
        let old = before.sonde.settings.technician;
        if number != old && [0, u16::MAX].contains(&number) {
            self.note(Item::TechnicianWritten(number));
        }
        if body[1] == MASK && old != 0 {
            let keeps = old & word(body, 4) != 0;
            self.note(Item::TechnicianMasked { keeps });
        }
    }

    /// The technician of an entry.
    fn note_technician(&mut self, before: &Before, sensor: usize) {
        let technician = before.sonde.settings.technician;
        let given = technician != 0;
        self.note(Item::Technician { sensor, given });
        self.note_if(technician != before.history.entered[sensor], Item::TechnicianInMode { sensor });
        self.note_if(before.history.cleared, Item::TechnicianCleared);
        for (other, number) in before.technicians.into_iter().enumerate() {
            let one_sensor = other == sensor;
            self.note_if(given && ![0, technician].contains(&number), Item::TwoTechnicians { one_sensor });
        }
    }

    fn note_device_end(&mut self, way: Way, body: &[u8], verdict: &Verdict) {
        let code = match verdict {
            Verdict::Foreign | Verdict::Ignored | Verdict::Refused(ILLEGAL_FUNCTION | ILLEGAL_SHAPE) => return,
            _ => verdict.code().unwrap_or(0),
        };
        let (function, start) = (body[1], word(body, 2));
        let count = if [READ, WRITE_MANY].contains(&function) { word(body, 4) } else { 1 };
        let mut requests = DEVICE_END.iter().map(|&(function, start, count, _)| (function, start, count));
        if requests.any(|request| request == (function, start, count)) {
            self.note(Item::DeviceEnd {
                way,
                function,
                start,
                count,
                code,
            });
        }
    }

    fn note_bad(&mut self, before: &Before, request: &Request) {
        if before.sonde.counters.bad == u16::MAX {
            self.note(Item::Saturated(Counter::Bad));
        }
        let framing = request.arrival.framing;
        let sort = sort(before.sonde.address, request);
        self.note(match (framing, request.breach) {
            _ if off_port(request) => Item::OffRadio { framing, sort },
            (Framing::Ascii, Some(breach)) => Item::BadAscii(breach),
            (_, Some(Breach::NamedRtu)) => Item::NamedRtu,
            _ if request.bytes.len() < 4 => Item::TooShort,
            _ if request.bytes.len() > 256 => Item::TooLong,
            _ => Item::WrongChecksum,
        });
    }

    fn note_counters(&mut self, before: &Before, verdict: &Verdict) {
        let counters = before.sonde.counters;
        match verdict {
            Verdict::Foreign => {}
            _ if verdict.code().is_some() && counters.exceptions == u16::MAX => self.note(Item::Saturated(Counter::Exceptions)),
            _ if counters.good == u16::MAX => self.note(Item::Saturated(Counter::Good)),
            _ => {}
        }
    }

    fn note_update(&mut self, before: &Before, sensor: usize, capacity: usize) {
        let settings = &before.sonde.settings.sensors[sensor];
        self.note(Item::Update {
            sensor,
            method: settings.method,
        });
        if before.in_use + 1 == capacity {
            self.note(Item::Full { capacity });
        }
        if corrected(sensor, settings) {
            self.note(Item::Corrected { sensor });
        }
        let coefficients = candidate(settings.method, &settings.trial, &settings.points);
        for (coefficient, limits) in LIMITS[sensor].iter().enumerate() {
            let on = |limit: f32| coefficients[coefficient] == limit;
            if let Some((low, high)) = limits.filter(|&(low, high)| on(low) || on(high)) {
                self.note(Item::Limit {
                    sensor,
                    coefficient,
                    high: !on(low) && on(high),
                    inside: true,
                });
            }
        }
    }

    fn note_refused(&mut self, before: &Before, code: u8, capacity: usize, body: &[u8]) {
        match code {
            JOURNAL_FULL => self.note(Item::RefusedFull { capacity }),
            OUT_OF_LIMITS => {
                let settings = &before.sonde.settings.sensors[usize::from(word(body, 2)) / 100 - 1];
                let coefficients = candidate(settings.method, &settings.trial, &settings.points);
                self.note_division(settings, coefficients);
            }
            _ => {}
        }
    }

    fn note_division(&mut self, settings: &SensorSettings, coefficients: Coefficients) {
        if let Some(division) = division(settings, coefficients) {
            self.note(Item::Division {
                method: settings.method,
                division,
            });
        }
    }

    fn note_failed(&mut self, before: &Before, sensor: usize, coefficients: Coefficients, capacity: usize) {
        let settings = &before.sonde.settings.sensors[sensor];
        let method = settings.method;
        let full = before.in_use == capacity;
        self.note(Item::Failed { sensor, method, full });
        if settings.trial[2].to_bits() != coefficients[2].to_bits() {
            self.note(Item::FailedThird { sensor, method });
        }
        self.note_division(settings, coefficients);
        for (coefficient, limits) in LIMITS[sensor].iter().enumerate() {
            // The others have to be within their limits, so that this one alone is the reason.
            let alone = |limit: f32| {
                let mut others = coefficients;
                others[coefficient] = limit;
                within_limits(sensor, &others)
            };
            match *limits {
                Some((low, _)) if coefficients[coefficient] == low.next_down() && alone(low) => {
                    self.note(Item::Limit {
                        sensor,
                        coefficient,
                        high: false,
                        inside: false,
                    });
                }
                Some((_, high)) if coefficients[coefficient] == high.next_up() && alone(high) => {
                    self.note(Item::Limit {
                        sensor,
                        coefficient,
                        high: true,
                        inside: false,
                    });
                }
                None if alone(0.0) => self.note(Item::ThirdRefused { sensor }),
                _ => {}
            }
        }
    }

    /// The class of a float that a frame writes to a whole field.
    fn note_written(&mut self, body: &[u8]) {
        if body.len() != 11 || body[1] != 16 {
            return;
        }
        let start = word(body, 2);
        let float_field = |field| matches!(field, Field::Coefficient(_) | Field::Point(_) | Field::Sentinel(_));
        if locate(start).is_some_and(|place| place.start == start && float_field(place.field)) {
            self.note(Item::Written(class(f32::from_bits(join(word(body, 7), word(body, 9))))));
        }
    }

    /// Notes what the registers that were read back show.
    pub fn note_registers(&mut self, sonde: &Sonde, registers: &[u16; IMAGE]) {
        for (sensor, parameters) in PARAMETERS.iter().enumerate() {
            for parameter in 0..parameters.len() {
                let at = 100 * (sensor + 1) + 30 + 8 * parameter;
                let (units, quality) = (registers[at + 3], registers[at + 4]);
                self.note(Item::Quality {
                    sensor,
                    parameter,
                    quality,
                });
                if quality == GOOD {
                    self.note(Item::Units { sensor, parameter, units });
                }
            }
        }
        let (level, calibrating) = (registers[340], registers[305] == 1);
        if registers[342] != NOT_FINITE && sonde.samples[LEVEL].present {
            self.note(Item::LevelId { id: level, calibrating });
        }
        if sonde.samples[0].present && join(registers[138], registers[139]) << 1 == 0 {
            self.note(Item::ResistivityAtZero {
                calibrating: registers[105] == 1,
            });
        }
    }

    /// The table of counts, and what was required but never met.
    pub fn report(&self) -> (String, Vec<Item>) {
        let table = self.0.iter().map(|(item, count)| format!("{count:>12}  {item:?}\n")).collect();
        let missing = required().into_iter().filter(|item| !self.0.contains_key(item)).collect();
        (table, missing)
    }

    /// What was printed: pages, and prints that were refused.
    pub fn prints(&self) -> String {
        let of = |number| {
            let call = Kind::Print;
            self.0.get(&Item::Number { call, number }).copied().unwrap_or(0)
        };
        format!("{} pages printed and {} refused", of(0), of(4) + of(7))
    }

    /// What was cut, accepted calibrations of each kind after each number of stores; appends to any words, and salvages.
    pub fn cuts(&self) -> String {
        let count = |item: Item| self.0.get(&item).copied().unwrap_or(0);
        let of_each: Vec<u64> = interrupted::required_updates()
            .into_iter()
            .map(|cut| count(Item::Interrupted(cut)))
            .collect();
        let (kinds, least, cuts) = (of_each.len(), of_each.iter().min().unwrap_or(&0), of_each.iter().sum::<u64>());
        let [appends, salvages, beyond] =
            [(Kind::Append, 0), (Kind::Salvage, 0), (Kind::Salvage, 8)].map(|(call, number)| count(Item::Number { call, number }));
        format!(
            "{cuts} cuts of calibrations (at least {least} of each of {kinds} kinds), {appends} appends to any words, {salvages} salvages and {beyond} refused"
        )
    }

    /// Frames on the radio, those that it doesn't take, and frames by ports that there aren't.
    pub fn ports(&self) -> String {
        let radio = self.sum(|item| matches!(item, Item::Frame { way, .. } if way.port == Port::Radio));
        let off = self.sum(|item| matches!(item, Item::OffRadio { .. }));
        let none = self.sum(|item| matches!(item, Item::NoPort { .. }));
        format!("{radio} frames on the radio ({off} that it doesn't take) and {none} by no port")
    }

    fn sum(&self, of: fn(&Item) -> bool) -> u64 {
        self.0.iter().filter(|(item, _)| of(item)).map(|(_, count)| count).sum()
    }

    /// What was met in ASCII: frames, calibrations and bad frames of each kind.
    pub fn ascii(&self) -> String {
        use Framing::Ascii;
        let frames = self.sum(|item| matches!(item, Item::Frame { way, .. } if way.framing == Ascii));
        let calibrations = self.sum(|item| matches!(item, Item::UpdateBy { way, .. } if way.framing == Ascii));
        let bad = self.sum(|item| matches!(item, Item::BadAscii(_)));
        let of_each = OF_ASCII.map(|breach| self.0.get(&Item::BadAscii(breach)).copied().unwrap_or(0));
        let (kinds, least) = (of_each.len(), of_each.into_iter().min().unwrap_or(0));
        format!("{frames} frames in ASCII with {calibrations} calibrations and {bad} bad ones (at least {least} of each of {kinds} kinds)")
    }
}

/// A big-endian word of the body.
fn word(body: &[u8], at: usize) -> u16 {
    u16::from_be_bytes([body[at], body[at + 1]])
}

/// By what the frame carries on the port that takes it.
fn sort(address: u8, request: &Request) -> Sort {
    match request.arrival.framing.body(&request.bytes, Port::Serial, &mut Room::None) {
        None => Sort::Bad,
        Some([BROADCAST, ..]) => Sort::Broadcast,
        Some([to, ..]) if *to == address => Sort::Own,
        Some(_) => Sort::Foreign,
    }
}

fn class(value: f32) -> Written {
    match (value.classify(), value.is_sign_negative()) {
        (FpCategory::Zero, false) => Written::PlusZero,
        (FpCategory::Zero, true) => Written::MinusZero,
        (FpCategory::Subnormal, _) => Written::Subnormal,
        (FpCategory::Normal, _) => Written::Normal,
        (FpCategory::Infinite, false) => Written::PlusInfinity,
        (FpCategory::Infinite, true) => Written::MinusInfinity,
        (FpCategory::Nan, _) if value.to_bits() & 0x0040_0000 != 0 => Written::QuietNan,
        (FpCategory::Nan, _) => Written::SignallingNan,
    }
}

fn division(settings: &SensorSettings, coefficients: [f32; 3]) -> Option<Division> {
    let [x1, _, x2, _] = settings.points;
    match settings.method {
        ONE_POINT if x1.to_bits() == 0 => Some(Division::ByPlusZero),
        ONE_POINT if x1 == 0.0 => Some(Division::ByMinusZero),
        TWO_POINTS if x1 == x2 => Some(Division::Equal),
        ONE_POINT | TWO_POINTS if !coefficients[1].is_finite() => Some(Division::Overflow),
        TWO_POINTS if !coefficients[0].is_finite() => Some(Division::FirstOverflow),
        TWO_POINTS if !(x1 - x2).is_finite() => Some(Division::DifferenceOverflow),
        _ => None,
    }
}

/// Whether the trial is what the points that are set failed with, but for one coefficient; the first can't be the one in force.
fn corrected(sensor: usize, settings: &SensorSettings) -> bool {
    settings.method == DIRECT
        && [ONE_POINT, TWO_POINTS].into_iter().any(|method| {
            let failed = candidate(method, &settings.trial, &settings.points);
            let differs = |other: &Coefficients, i: usize| failed[i].to_bits() != other[i].to_bits();
            !within_limits(sensor, &failed)
                && all_finite(&failed)
                && differs(&settings.active.coefficients, 0)
                && (0..3).filter(|&i| differs(&settings.trial, i)).count() == 1
        })
}

const FRAMINGS: [Framing; 2] = [Framing::Rtu, Framing::Ascii];

/// Lengths of frames on the radio: the shortest, those around its longest, and the serial port's longest.
const RADIO_FRAMES: [usize; 7] = [4, 62, 63, 64, 65, 66, 256];

/// Lengths of writes there, which are odd.
const RADIO_WRITES: [usize; 3] = [63, 65, 255];

/// Registers of reads, around the longest of either port.
const READ_COUNTS: [u16; 6] = [28, 29, 30, 31, 125, 126];

/// What a run has to meet.
fn required() -> Vec<Item> {
    let mut items = vec![
        Item::TooShort,
        Item::TooLong,
        Item::WrongChecksum,
        Item::NamedRtu,
        Item::PowerUpWithEntries,
        Item::PowerUpWithTechnician,
        Item::BeginAgain,
        Item::BeginCalibrating,
        Item::BeginWithTechnician,
        Item::AuditWithEntries,
        Item::AuditWithTechnician,
    ];
    items.extend(required_answers());
    items.extend(WAYS.into_iter().flat_map(required_frames));
    items.extend([WAYS.as_slice(), &[ASCII_ON_RADIO]].concat().into_iter().flat_map(required_numbers));
    items.extend(required_ports());
    items.extend(OF_ASCII.map(Item::BadAscii));
    items.extend(required_updates());
    items.extend(required_technicians());
    items.extend(required_readings());
    items.extend(required_prints());
    items.extend(interrupted::required_cuts().into_iter().map(Item::Interrupted));
    items.extend(interrupted::required_appends().into_iter().map(Item::Appended));
    items.extend((0..=3).map(|words| Item::Salvaged { words }));
    items.extend(required_corruptions());
    items.extend(required_faults());
    items
}

/// Pages of each length, of valid volumes and of others, and all that they have to show.
fn required_prints() -> impl Iterator<Item = Item> {
    let pages = FITS.into_iter().flat_map(|fit| [(fit, fit.number()), (fit, 4)]);
    let pages = pages.map(|(fit, number)| Item::Page { fit, number });
    pages.chain(printed::required().into_iter().map(Item::Printed))
}

/// Each corruption, with every call that looks at what is wrong, and with a print, which looks at the volume alone.
fn required_corruptions() -> Vec<Item> {
    let mut items = Vec::new();
    let of_sonde = OF_SONDE.map(|corruption| (corruption, &[Kind::Begin, Kind::Measure][..]));
    let of_volume = OF_VOLUME.map(|corruption| (corruption, &[Kind::PowerUp][..]));
    for (corruption, calls) in of_sonde.into_iter().chain(of_volume) {
        let number = if corruption.harmless() { 0 } else { 4 };
        items.extend([Kind::Frame, Kind::Audit].map(|call| Item::Corrupted { corruption, call, number }));
        let number = if corruption.disagreement() { 0 } else { number };
        items.extend(calls.iter().map(|&call| Item::Corrupted { corruption, call, number }));
        let number = if OF_VOLUME.contains(&corruption) { number } else { 0 };
        items.push(Item::Corrupted {
            corruption,
            call: Kind::Print,
            number,
        });
    }
    items.extend(required_salvages());
    for corruption in [Corruption::WordLonger, Corruption::WordShorter] {
        items.push(Item::Corrupted {
            corruption,
            call: Kind::Audit,
            number: 0,
        });
    }
    items
}

/// A salvage of each corrupted volume, with either number where it can have both and isn't seldom valid.
fn required_salvages() -> impl Iterator<Item = Item> {
    use Corruption::{EntryLonger, EntryMethod, EntryPoint, EntryShorter};
    let each = OF_VOLUME.into_iter().flat_map(|corruption| [(corruption, 0), (corruption, 8)]);
    each.filter(|(corruption, number)| corruption.beyond_salvage().is_none_or(|beyond| beyond == (*number == 8)))
        .filter(|pair| {
            ![EntryLonger, EntryMethod, EntryPoint, EntryShorter]
                .map(|seldom| (seldom, 0))
                .contains(pair)
        })
        .map(|(corruption, number)| Item::Corrupted {
            corruption,
            call: Kind::Salvage,
            number,
        })
}

/// Each corruption of a volume with a fault, without one, or both.
fn required_faults() -> impl Iterator<Item = Item> {
    let each = OF_VOLUME
        .into_iter()
        .flat_map(|corruption| [(corruption, false), (corruption, true)]);
    each.filter(|(corruption, named)| corruption.invalid().is_none_or(|invalid| invalid == *named))
        .map(|(corruption, named)| Item::Fault { corruption, named })
}

fn required_answers() -> Vec<Item> {
    let numbers: [(Kind, &[u8]); 10] = [
        (Kind::Fresh, &[0, 1]),
        (Kind::Begin, &[0, 2, 4]),
        (Kind::PowerUp, &[0, 1, 4]),
        (Kind::Measure, &[0, 4, 5, 6]),
        (Kind::Frame, &[0, 3, 4, 9]),
        (Kind::Audit, &[0, 4]),
        (Kind::Print, &[0, 4, 7]),
        (Kind::Append, &[0]),
        (Kind::Salvage, &[0, 8]),
        (Kind::Cut, &[0, 3, 9]),
    ];
    let mut items: Vec<Item> = numbers
        .iter()
        .flat_map(|(call, numbers)| numbers.iter().map(|&number| Item::Number { call: *call, number }))
        .collect();
    items.extend([Counter::Good, Counter::Bad, Counter::Exceptions].map(Item::Saturated));
    use Written::*;
    items.extend(
        [
            PlusZero,
            MinusZero,
            Subnormal,
            Normal,
            PlusInfinity,
            MinusInfinity,
            QuietNan,
            SignallingNan,
        ]
        .map(Item::Written),
    );
    items
}

/// The numbers of frames in a framing on a port, which don't go by what the port takes.
fn required_numbers(way: Way) -> Vec<Item> {
    let mut items: Vec<Item> = [0, 3, 4].map(|number| Item::Frame { way, number }).into();
    items.extend(REPLIES.map(|bytes| Item::Reply {
        way,
        bytes,
        number: if bytes < way.framing.reply_least() { 3 } else { 0 },
    }));
    items
}

/// Ports that there aren't, what the radio takes and doesn't, and lists that differ in ports alone.
fn required_ports() -> Vec<Item> {
    let mut items = Vec::new();
    for framing in FRAMINGS {
        let ports = NO_PORTS.map(Some).into_iter().chain([None]);
        items.extend(ports.map(|port| Item::NoPort { framing, port }));
        items.extend([3, 4].map(|number| Item::NoPortBefore { framing, number }));
        items.extend(SORTS.map(|sort| Item::OffRadio { framing, sort }));
    }
    items.extend(RADIO_FRAMES.map(|bytes| Item::RadioFrame { bytes }));
    items.extend(RADIO_WRITES.map(|bytes| Item::RadioWrite { bytes }));
    for to in [Port::Serial, Port::Radio] {
        items.extend(MOVED.map(|moved| Item::Moved { to, moved }));
    }
    items
}

/// All that good frames in a framing on a port have to meet.
fn required_frames(way: Way) -> Vec<Item> {
    let mut items = vec![
        Item::Foreign(way),
        Item::ReadAtZero(way),
        Item::LongReadAtZero(way),
        Item::LongestRead(way),
    ];
    items.extend(SORTS.map(|sort| Item::ShortReply { way, sort }));
    items.extend([2, way.body_most()].map(|bytes| Item::Body { way, bytes }));
    items.extend(READ_COUNTS.map(|count| Item::ReadRefused {
        way,
        count,
        code: if count > way.read_most() { ILLEGAL_SHAPE } else { ABSENT },
    }));
    for broadcast in [false, true] {
        items.extend([1, 3, 2, 0x80, 0xC2, 0x92, 0x84, 0x97, 0xC0].map(|code| Item::Code { way, code, broadcast }));
        for function in [6, 16, 22] {
            items.push(Item::Accepted { way, function, broadcast });
            items.push(Item::UpdateBy { way, function, broadcast });
            items.push(Item::FailedBy { way, function, broadcast });
            items.push(Item::TechnicianBy { way, function, broadcast });
        }
    }
    items.extend(DEVICE_END.map(|(function, start, count, code)| Item::DeviceEnd {
        way,
        function,
        start,
        count,
        code,
    }));
    items.push(Item::Accepted {
        way,
        function: 3,
        broadcast: false,
    });
    items
}

fn required_updates() -> Vec<Item> {
    let mut items = Vec::new();
    for (sensor, limits) in LIMITS.iter().enumerate() {
        let methods = if sensor == LEVEL { 1 } else { 3 };
        items.extend((0..methods).map(|method| Item::Update { sensor, method }));
        let either = (0..methods).flat_map(|method| [(method, false), (method, true)]);
        items.extend(either.map(|(method, full)| Item::Failed { sensor, method, full }));
        if sensor != LEVEL {
            items.extend([ONE_POINT, TWO_POINTS].map(|method| Item::FailedThird { sensor, method }));
            items.push(Item::Corrected { sensor });
        }
        for (coefficient, limits) in limits.iter().enumerate() {
            let sides = [(false, false), (false, true), (true, false), (true, true)];
            match limits {
                Some(_) => items.extend(sides.map(|(high, inside)| Item::Limit {
                    sensor,
                    coefficient,
                    high,
                    inside,
                })),
                None => items.push(Item::ThirdRefused { sensor }),
            }
        }
    }
    items.extend([1, 2, 1000].map(|capacity| Item::Full { capacity }));
    items.extend([1, 2, 1000].map(|capacity| Item::RefusedFull { capacity }));
    let one = [Division::ByPlusZero, Division::ByMinusZero, Division::Overflow];
    let two = [
        Division::Equal,
        Division::Overflow,
        Division::FirstOverflow,
        Division::DifferenceOverflow,
    ];
    items.extend(one.map(|division| Item::Division {
        method: ONE_POINT,
        division,
    }));
    items.extend(two.map(|division| Item::Division {
        method: TWO_POINTS,
        division,
    }));
    items
}

fn required_technicians() -> Vec<Item> {
    let mut items = vec![Item::TechnicianCleared];
    items.extend([0, u16::MAX].map(Item::TechnicianWritten));
    for either in [false, true] {
        items.push(Item::TechnicianMasked { keeps: either });
        items.push(Item::TwoTechnicians { one_sensor: either });
        items.extend((0..SENSORS).map(|sensor| Item::Technician { sensor, given: either }));
    }
    items.extend((0..SENSORS).map(|sensor| Item::TechnicianInMode { sensor }));
    items
}

fn required_readings() -> Vec<Item> {
    let mut items = Vec::new();
    for (sensor, parameters) in PARAMETERS.iter().enumerate() {
        for (parameter, fixed) in parameters.iter().enumerate() {
            // No finite pressure and no coefficients within limits take the level, which has no conversion, out of the finite floats.
            let always_finite = sensor == LEVEL && parameter == LEVEL_PARAMETER;
            let qualities = [0, 3, 6, 7].into_iter().filter(|&quality| quality != NOT_FINITE || !always_finite);
            items.extend(qualities.map(|quality| Item::Quality {
                sensor,
                parameter,
                quality,
            }));
            items.extend(fixed.units.iter().map(|&units| Item::Units { sensor, parameter, units }));
        }
    }
    for calibrating in [false, true] {
        items.extend(LEVEL_IDS.map(|id| Item::LevelId { id, calibrating }));
        items.push(Item::ResistivityAtZero { calibrating });
    }
    items
}

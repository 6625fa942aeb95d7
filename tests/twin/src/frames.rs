//! The bodies of frames: how a request is judged, what a write does, and the replies. A reply is written as a body at the beginning of the
//! reply buffer, and its function gives the body's length.

use crate::calibration::{candidate, listed_method, within_limits, Coefficients, DIRECT};
use crate::floats::{all_finite, join, split};
use crate::map::{locate, Access, Field, Owner, Place, ENTER, LEAVE, LEVEL_IDS, PARAMETERS, UPDATE};
use crate::port::Port;
use crate::readings::reading;
use crate::state::{SensorSettings, Settings, Sonde};
use crate::volume::Entry;

pub const BROADCAST: u8 = 0;

pub const READ: u8 = 3;
pub const WRITE_ONE: u8 = 6;
pub const WRITE_MANY: u8 = 16;
pub const MASK: u8 = 22;

/// Exception codes, in the order in which they are tried.
pub const ILLEGAL_FUNCTION: u8 = 1;
pub const ILLEGAL_SHAPE: u8 = 3;
pub const ABSENT: u8 = 2;
pub const NOT_ONE_FIELD: u8 = 0x80;
pub const READ_ONLY: u8 = 0xC2;
pub const NOT_CALIBRATING: u8 = 0x92;
pub const UNLISTED: u8 = 0x84;
pub const OUT_OF_LIMITS: u8 = 0x97;
pub const JOURNAL_FULL: u8 = 0xC0;

/// What becomes of a request.
#[derive(Clone, Copy, Debug)]
pub enum Verdict {
    /// Another's address.
    Foreign,
    /// A read at address 0: counted, nothing else.
    Ignored,
    Refused(u8),
    /// An update that is refused for its limits alone (wish 2): its candidate becomes the trial.
    OutOfLimits {
        sensor: usize,
        candidate: Coefficients,
    },
    Read {
        start: u16,
        count: u16,
    },
    Write(Change),
}

impl Verdict {
    /// The code that refuses the request.
    pub fn code(&self) -> Option<u8> {
        match *self {
            Verdict::Refused(code) => Some(code),
            Verdict::OutOfLimits { .. } => Some(OUT_OF_LIMITS),
            _ => None,
        }
    }
}

/// What an accepted write does, by the owner of its field.
#[derive(Clone, Copy, Debug)]
pub enum Change {
    /// The device has no other field that can be written.
    Technician(u16),
    Sensor {
        sensor: usize,
        change: SensorChange,
    },
}

/// What an accepted write does to its sensor's settings.
#[derive(Clone, Copy, Debug)]
pub enum SensorChange {
    Set(Field, u32),
    Enter,
    Leave,
    Update(Coefficients),
}

/// Judges a request that came by this port, by the settings as they are; `full` is whether the journal has no room.
pub fn judge(address: u8, settings: &Settings, full: bool, port: Port, body: &[u8]) -> Verdict {
    let (to, function) = (body[0], body[1]);
    if to != BROADCAST && to != address {
        return Verdict::Foreign;
    }
    if to == BROADCAST && function == READ {
        return Verdict::Ignored;
    }
    let judged = match function {
        READ => judge_read(body, port.limits().read_most),
        WRITE_ONE | WRITE_MANY | MASK => judge_write(settings, full, body),
        _ => Err(ILLEGAL_FUNCTION),
    };
    judged.unwrap_or_else(Verdict::Refused)
}

/// A big-endian word of the body.
fn word(body: &[u8], at: usize) -> u16 {
    u16::from_be_bytes([body[at], body[at + 1]])
}

fn judge_read(body: &[u8], most: u16) -> Result<Verdict, u8> {
    if body.len() != 6 {
        return Err(ILLEGAL_SHAPE);
    }
    let (start, count) = (word(body, 2), word(body, 4));
    if !(1..=most).contains(&count) {
        return Err(ILLEGAL_SHAPE);
    }
    all_present(start, count)?;
    Ok(Verdict::Read { start, count })
}

fn judge_write(settings: &Settings, full: bool, body: &[u8]) -> Result<Verdict, u8> {
    let count = write_count(body)?;
    let place = writable(word(body, 2), count)?;
    let value = match body[1] {
        WRITE_ONE => u32::from(word(body, 4)),
        MASK => u32::from(masked(settings.word(place), word(body, 4), word(body, 6))),
        _ if count == 1 => u32::from(word(body, 7)),
        _ => join(word(body, 7), word(body, 9)),
    };
    settings.admit(place, value, full)
}

/// How many registers a write names, if its shape is right.
fn write_count(body: &[u8]) -> Result<u16, u8> {
    let shaped = match body[1] {
        WRITE_ONE if body.len() == 6 => Some(1),
        MASK if body.len() == 8 => Some(1),
        WRITE_MANY if body.len() >= 7 => Some(word(body, 4)).filter(|&count| {
            let bytes = 2 * usize::from(count);
            (1..=123).contains(&count) && usize::from(body[6]) == bytes && body.len() == 7 + bytes
        }),
        _ => None,
    };
    shaped.ok_or(ILLEGAL_SHAPE)
}

fn all_present(start: u16, count: u16) -> Result<(), u8> {
    let present = (0..count).all(|i| start.checked_add(i).is_some_and(|register| locate(register).is_some()));
    present.then_some(()).ok_or(ABSENT)
}

/// The one whole field that is written, if it may be written at all.
fn writable(start: u16, count: u16) -> Result<Place, u8> {
    all_present(start, count)?;
    let place = locate(start).ok_or(ABSENT)?;
    if place.start != start || place.field.words() != count {
        return Err(NOT_ONE_FIELD);
    }
    if place.access() == Access::ReadOnly {
        return Err(READ_ONLY);
    }
    Ok(place)
}

fn masked(old: u16, and: u16, or: u16) -> u16 {
    old & and | or & !and
}

impl Settings {
    /// What a read shows of a writable field of one word.
    fn word(&self, place: Place) -> u16 {
        match place.owner {
            Owner::Device => self.technician,
            Owner::Sensor(sensor) => self.sensors[sensor].word(place.field),
        }
    }

    /// What becomes of a value written to a writable field. A technician may have any number.
    fn admit(&self, place: Place, value: u32, full: bool) -> Result<Verdict, u8> {
        match place.owner {
            Owner::Device => Ok(Verdict::Write(Change::Technician(value as u16))),
            Owner::Sensor(sensor) => self.sensors[sensor].admit(sensor, place, value, full),
        }
    }

    /// Carries out an accepted write; gives the entry of an update.
    fn apply(&mut self, change: Change, clock: u32) -> Option<Entry> {
        match change {
            Change::Technician(technician) => {
                self.technician = technician;
                None
            }
            Change::Sensor { sensor, change } => {
                self.sensors[sensor].apply(change, clock);
                matches!(change, SensorChange::Update(_)).then(|| Entry::of(sensor, self))
            }
        }
    }
}

impl SensorSettings {
    /// What a read shows of a writable field.
    pub fn show(&self, field: Field) -> u32 {
        match field {
            Field::Next => self.next,
            Field::Coefficient(i) if self.calibrating => self.trial[i].to_bits(),
            Field::Coefficient(i) => self.active.coefficients[i].to_bits(),
            Field::Point(i) => self.points[i].to_bits(),
            Field::Sentinel(i) => self.sentinels[i].to_bits(),
            _ => u32::from(self.word(field)),
        }
    }

    /// What a read shows of a writable field of one word.
    fn word(&self, field: Field) -> u16 {
        match field {
            Field::Command => u16::from(self.calibrating),
            Field::Method => self.method,
            Field::Units(i) => self.units[i],
            _ => self.level_id,
        }
    }

    /// What becomes of a value written to a writable field of this sensor.
    fn admit(&self, sensor: usize, place: Place, value: u32, full: bool) -> Result<Verdict, u8> {
        if place.field == Field::Command {
            return self.admit_command(sensor, value as u16, full);
        }
        if place.access() == Access::Calibrating && !self.calibrating {
            return Err(NOT_CALIBRATING);
        }
        let word = value as u16;
        let listed = match place.field {
            Field::Next => true,
            Field::Method => listed_method(sensor, word),
            Field::Units(i) => PARAMETERS[sensor][i].units.contains(&word),
            Field::Id(_) => LEVEL_IDS.contains(&word),
            _ => f32::from_bits(value).is_finite(),
        };
        let change = SensorChange::Set(place.field, value);
        let written = Verdict::Write(Change::Sensor { sensor, change });
        listed.then_some(written).ok_or(UNLISTED)
    }

    fn admit_command(&self, sensor: usize, command: u16, full: bool) -> Result<Verdict, u8> {
        let change = match command {
            ENTER => SensorChange::Enter,
            LEAVE => SensorChange::Leave,
            UPDATE if !self.calibrating => return Err(NOT_CALIBRATING),
            UPDATE => {
                let candidate = candidate(self.method, &self.trial, &self.points);
                match (within_limits(sensor, &candidate), full) {
                    (false, _) if all_finite(&candidate) => return Ok(Verdict::OutOfLimits { sensor, candidate }),
                    (false, _) => return Err(OUT_OF_LIMITS),
                    (true, true) => return Err(JOURNAL_FULL),
                    (true, false) => SensorChange::Update(candidate),
                }
            }
            _ => return Err(UNLISTED),
        };
        Ok(Verdict::Write(Change::Sensor { sensor, change }))
    }

    /// Carries out an accepted write to this sensor.
    fn apply(&mut self, change: SensorChange, clock: u32) {
        match change {
            SensorChange::Set(field, value) => self.set(field, value),
            SensorChange::Enter if !self.calibrating => self.switch(true),
            SensorChange::Leave if self.calibrating => self.switch(false),
            SensorChange::Enter | SensorChange::Leave => {}
            SensorChange::Update(candidate) => {
                self.active.coefficients = candidate;
                self.active.time = clock;
                self.trial = candidate;
                self.next = 0;
            }
        }
    }

    fn switch(&mut self, calibrating: bool) {
        self.calibrating = calibrating;
        self.trial = self.active.coefficients;
        self.method = DIRECT;
        self.points = [0.0; 4];
    }

    fn set(&mut self, field: Field, value: u32) {
        match field {
            Field::Next => self.next = value,
            Field::Method => self.method = value as u16,
            Field::Coefficient(i) => self.trial[i] = f32::from_bits(value),
            Field::Point(i) => self.points[i] = f32::from_bits(value),
            Field::Units(i) => self.units[i] = value as u16,
            Field::Sentinel(i) => self.sentinels[i] = f32::from_bits(value),
            _ => self.level_id = value as u16,
        }
    }
}

/// What a request leaves of the settings; gives the entry of an accepted update.
pub fn carry_out(verdict: &Verdict, settings: &mut Settings, clock: u32) -> Option<Entry> {
    match *verdict {
        Verdict::Write(change) => settings.apply(change, clock),
        Verdict::OutOfLimits { sensor, candidate } => {
            settings.sensors[sensor].trial = candidate;
            None
        }
        Verdict::Foreign | Verdict::Ignored | Verdict::Refused(_) | Verdict::Read { .. } => None,
    }
}

/// What a read looks at.
pub struct View<'a> {
    pub sonde: &'a Sonde,
    pub clock: u32,
    pub capacity: usize,
    pub in_use: usize,
}

impl View<'_> {
    fn show(&self, place: Place) -> u32 {
        match place.owner {
            Owner::Device => self.show_device(place.field),
            Owner::Sensor(sensor) => self.show_sensor(sensor, place),
        }
    }

    fn show_device(&self, field: Field) -> u32 {
        let Sonde { settings, counters, .. } = self.sonde;
        match field {
            Field::Version => 3,
            Field::Device => 1,
            Field::Clock => self.clock,
            Field::Good => u32::from(counters.good),
            Field::Bad => u32::from(counters.bad),
            Field::Exceptions => u32::from(counters.exceptions),
            Field::Capacity => self.capacity as u32,
            Field::InUse => self.in_use as u32,
            _ => u32::from(settings.technician),
        }
    }

    fn show_sensor(&self, sensor: usize, place: Place) -> u32 {
        let settings = &self.sonde.settings.sensors[sensor];
        let read = |parameter| reading(sensor, parameter, settings, &self.sonde.samples[sensor]);
        match place.field {
            Field::Sensor => sensor as u32 + 1,
            Field::Last => settings.active.time,
            Field::Parameters => PARAMETERS[sensor].len() as u32,
            Field::Value(i) => read(i).value.to_bits(),
            Field::Quality(i) => u32::from(read(i).quality),
            Field::Available(i) => u32::from(PARAMETERS[sensor][i].available),
            Field::Id(i) if place.access() == Access::ReadOnly => u32::from(PARAMETERS[sensor][i].id),
            field => settings.show(field),
        }
    }

    /// The reply to a read of registers that are all present. Goes field by field, so that a reading is worked out once.
    pub fn reply_read(&self, start: u16, count: u16, reply: &mut [u8]) -> usize {
        reply[0] = self.sonde.address;
        reply[1] = READ;
        reply[2] = 2 * count as u8;
        let end = start + count;
        let mut register = start;
        while let Some(place) = locate(register).filter(|_| register < end) {
            let words = split(self.show(place));
            let field_end = place.start + place.field.words();
            while register < end.min(field_end) {
                let word = words[2 - usize::from(field_end - register)];
                let at = 3 + 2 * usize::from(register - start);
                reply[at..at + 2].copy_from_slice(&word.to_be_bytes());
                register += 1;
            }
        }
        3 + 2 * usize::from(count)
    }
}

/// The reply to an accepted write: 16 answers with start and count, 6 and 22 echo the request.
pub fn reply_write(body: &[u8], reply: &mut [u8]) -> usize {
    let length = if body[1] == WRITE_MANY { 6 } else { body.len() };
    reply[..length].copy_from_slice(&body[..length]);
    length
}

pub fn reply_exception(address: u8, function: u8, code: u8, reply: &mut [u8]) -> usize {
    reply[..3].copy_from_slice(&[address, function | 0x80, code]);
    3
}

//! The C interface, as `include/sonde.h` declares and explains it. `tests/layout.rs` holds both to the library's own structs.

#[repr(C)]
#[derive(Clone, Copy, Debug, Default, PartialEq)]
pub struct Coefficients {
    pub coefficient1: f32,
    pub coefficient2: f32,
    pub coefficient3: f32,
}

#[repr(C)]
#[derive(Clone, Copy, Debug, Default, PartialEq)]
pub struct Calibration {
    pub coefficient1: f32,
    pub coefficient2: f32,
    pub coefficient3: f32,
    pub time: u32,
}

#[repr(C)]
#[derive(Clone, Copy, Debug, Default, PartialEq)]
pub struct Points {
    pub x1: f32,
    pub y1: f32,
    pub x2: f32,
    pub y2: f32,
}

#[repr(C)]
#[derive(Clone, Copy, Debug, Default, PartialEq)]
pub struct Parameter {
    pub units: u16,
    pub sentinel: f32,
}

/// A calibration in progress.
#[repr(C)]
#[derive(Clone, Copy, Debug, Default, PartialEq)]
pub struct Procedure {
    pub calibrating: bool,
    pub trial: Coefficients,
    pub method: u16,
    pub points: Points,
}

/// The calibration in force.
#[repr(C)]
#[derive(Clone, Copy, Debug, Default, PartialEq)]
pub struct Active {
    pub calibration: Calibration,
    pub next: u32,
}

#[repr(C)]
#[derive(Clone, Copy, Debug, Default, PartialEq)]
pub struct Parameters {
    pub level: u16,
    pub parameter1: Parameter,
    pub parameter2: Parameter,
    pub parameter3: Parameter,
}

#[repr(C)]
#[derive(Clone, Copy, Debug, Default, PartialEq)]
pub struct Setup {
    pub procedure: Procedure,
    pub active: Active,
    pub parameters: Parameters,
}

#[repr(C)]
#[derive(Clone, Copy, Debug, Default, PartialEq)]
pub struct Sample {
    pub present: bool,
    pub raw1: f32,
    pub raw2: f32,
}

#[repr(C)]
#[derive(Clone, Copy, Debug, Default, PartialEq)]
pub struct Sensor {
    pub setup: Setup,
    pub sample: Sample,
}

#[repr(C)]
#[derive(Clone, Copy, Debug, Default, PartialEq)]
pub struct Counters {
    pub good: u16,
    pub bad: u16,
    pub exceptions: u16,
}

#[repr(C)]
#[derive(Clone, Copy, Debug, Default, PartialEq)]
pub struct Sonde {
    pub address: u8,
    pub technician: u16,
    pub sensors: [Sensor; 4],
    pub counters: Counters,
}

/// An entry of the journal: an accepted calibration. Points that its method doesn't use are +0.0.
#[repr(C)]
#[derive(Clone, Copy, Debug, Default, PartialEq)]
pub struct Entry {
    pub sensor: u16,
    pub method: u16,
    pub technician: u16,
    pub calibration: Calibration,
    pub points: Points,
}

/// What fresh, power-up and measure hand back.
#[repr(C)]
#[derive(Clone, Copy, Debug)]
pub struct Made {
    pub number: u8,
    pub sonde: Sonde,
}

/// What a frame hands back.
#[repr(C)]
#[derive(Clone, Copy, Debug)]
pub struct Frame {
    pub number: u8,
    pub length: u16,
    pub sonde: Sonde,
}

/// What an audit hands back.
#[repr(C)]
#[derive(Clone, Copy, Debug)]
pub struct Audit {
    pub number: u8,
    pub entries: u16,
}

/// What a print hands back.
#[repr(C)]
#[derive(Clone, Copy, Debug)]
pub struct Print {
    pub number: u8,
    pub length: u32,
}

/// What a salvage hands back.
#[repr(C)]
#[derive(Clone, Copy, Debug)]
pub struct Salvage {
    pub number: u8,
    pub changed: u16,
}

extern "C" {
    pub fn sonde_fresh(address: u8) -> Made;
    pub fn sonde_begin(sonde: Sonde, volume: *mut u16, words: usize) -> Made;
    pub fn sonde_power_up(address: u8, volume: *const u16, words: usize) -> Made;
    pub fn sonde_measure(sonde: Sonde, sensor: u8, present: bool, raw1: f32, raw2: f32) -> Made;
    pub fn sonde_frame(
        sonde: Sonde,
        frame: *const u8,
        frame_len: usize,
        reply: *mut u8,
        reply_len: usize,
        volume: *mut u16,
        words: usize,
        clock: u32,
        ascii: bool,
        port: u8,
    ) -> Frame;
    pub fn sonde_audit(sonde: Sonde, volume: *const u16, words: usize) -> Audit;
    pub fn sonde_print(volume: *const u16, words: usize, page: *mut u8, page_len: usize) -> Print;
    pub fn sonde_append(volume: *mut u16, words: usize, entry: Entry, stores: usize);
    pub fn sonde_salvage(volume: *mut u16, words: usize) -> Salvage;
    pub fn sonde_crc_round(sum: u16, word: u16) -> u16;
}

//! A host without std and without a heap: C's `main`, a panic handler of its own, and the sonde's crate with `default-features = false`. A crate that
//! linked std would bring a second panic handler, and the compiler would refuse it.
#![no_std]
#![no_main]

use core::error::Error as _;
use core::ffi::c_int;
use core::panic::PanicInfo;
use sonde::{append, crc_round, page_bytes, print, salvage, Arrival, Calibration, Entry, Error, Points, Sonde};
use sonde::{APPEND_STORES, ASCII_REPLY_BYTES};

#[link(name = "c")]
extern "C" {
    fn abort() -> !;
    fn write(fd: c_int, bytes: *const u8, n: usize) -> isize;
}

#[panic_handler]
fn stop(_: &PanicInfo) -> ! {
    // SAFETY: C's abort takes nothing.
    unsafe { abort() }
}

/// Named by the `core` of a target that unwinds; with `panic = "abort"` nothing calls it.
#[no_mangle]
extern "C" fn rust_eh_personality() {}

/// Whether a sonde that was powered up from its journal answers a frame so.
fn answers(frame: &[u8], arrival: Arrival, due: &[u8]) -> Result<bool, Error> {
    let mut volume = [0; 88];
    Sonde::fresh(1)?.begin(&mut volume)?;
    let mut sonde = Sonde::power_up(1, &volume)?;
    sonde.measure(1, Some((1000.0, 21.5)))?;
    Ok(sonde.frame(frame, &mut [0; ASCII_REPLY_BYTES], &mut volume, arrival)? == due)
}

/// The map's version is read in either framing and over the radio, which doesn't take a read of 30 registers.
fn is_answered() -> Result<bool, Error> {
    let (read, version) = ([1, 3, 0, 0, 0, 1, 0x84, 0x0A], [1, 3, 2, 0, 3, 0xF8, 0x45]);
    let longer = [1, 3, 0, 130, 0, 30, 0x65, 0xEA];
    Ok(answers(&read, Arrival::rtu(0), &version)?
        && answers(b":010300000001FB\r\n", Arrival::ascii(0), b":0103020003F7\r\n")?
        && answers(&read, Arrival::radio(0), &version)?
        && answers(&longer, Arrival::radio(0), &[1, 0x83, 3, 0x01, 0x31])?)
}

/// The opening of sensor 3, on the page of a journal without entries.
const LEVEL_LINE: &[u8] = b"   0 3 -     0          0 00000000 00000000 00000000\n";

fn is_printed() -> Result<bool, Error> {
    let mut volume = [0; 88];
    Sonde::fresh(1)?.begin(&mut volume)?;
    let mut page = [0xAA; page_bytes(0) + 1];
    let lines = print(&volume, &mut page)?;
    let whole = lines.len() == page_bytes(0) && lines.chunks(LEVEL_LINE.len()).nth(2) == Some(LEVEL_LINE);
    Ok(whole && page[page_bytes(0)] == 0xAA && print(&volume, &mut []) == Err(Error::ShortPage))
}

/// An append that lacks its last store is taken back; with all stores it is there.
fn is_salvaged() -> Result<bool, Error> {
    let mut volume = [0; 88];
    Sonde::fresh(1)?.begin(&mut volume)?;
    let calibration = Calibration {
        coefficient2: 1.25,
        time: 1000,
        ..Calibration::default()
    };
    let entry = Entry {
        sensor: 1,
        method: 0,
        technician: 7,
        calibration,
        points: Points::default(),
    };
    append(&mut volume, entry, APPEND_STORES - 1);
    let before = salvage(&mut volume)? == 2 && Sonde::power_up(1, &volume)?.audit(&volume)? == 0;
    append(&mut volume, entry, APPEND_STORES);
    let after = salvage(&mut volume)? == 0 && Sonde::power_up(1, &volume)?.audit(&volume)? == 1;
    Ok(before && after && salvage(&mut volume[..87]) == Err(Error::BeyondSalvage))
}

/// A request with its checksum behind it leaves the sum 0.
fn is_summed() -> bool {
    [0x0301, 0x0000, 0x0100, 0x0A84].into_iter().fold(0xFFFF, crc_round) == 0
}

#[no_mangle]
pub extern "C" fn main() -> c_int {
    let refused = Sonde::fresh(0).map(|_| ()).unwrap_err();
    let right = is_answered() == Ok(true) && is_printed() == Ok(true) && is_salvaged() == Ok(true) && is_summed();
    if refused != Error::BadAddress || refused.source().is_some() || !right {
        return 1;
    }
    let told = b"a host without std was answered, has printed, salvaged and summed\n";
    // SAFETY: the bytes are valid for their length.
    (unsafe { write(1, told.as_ptr(), told.len()) } != told.len() as isize).into()
}

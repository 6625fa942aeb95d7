//! The proved library's calls, behind slices. Its interface asks for pointers that are valid for their lengths, aligned, not null and
//! don't overlap: those of slices are.

use sonde::ffi::{self, Audit, Entry, Frame, Made, Print, Salvage, Sonde};
use twin::{Arrival, Framing};

pub fn fresh(address: u8) -> Made {
    unsafe { ffi::sonde_fresh(address) }
}

pub fn begin(sonde: Sonde, volume: &mut [u16]) -> Made {
    unsafe { ffi::sonde_begin(sonde, volume.as_mut_ptr(), volume.len()) }
}

pub fn power_up(address: u8, volume: &[u16]) -> Made {
    unsafe { ffi::sonde_power_up(address, volume.as_ptr(), volume.len()) }
}

pub fn measure(sonde: Sonde, sensor: u8, present: bool, first: f32, second: f32) -> Made {
    unsafe { ffi::sonde_measure(sonde, sensor, present, first, second) }
}

pub fn frame(sonde: Sonde, bytes: &[u8], reply: &mut [u8], volume: &mut [u16], arrival: Arrival) -> Frame {
    let (reply_len, words) = (reply.len(), volume.len());
    unsafe {
        ffi::sonde_frame(
            sonde,
            bytes.as_ptr(),
            bytes.len(),
            reply.as_mut_ptr(),
            reply_len,
            volume.as_mut_ptr(),
            words,
            arrival.clock,
            arrival.framing == Framing::Ascii,
            arrival.port,
        )
    }
}

pub fn audit(sonde: Sonde, volume: &[u16]) -> Audit {
    unsafe { ffi::sonde_audit(sonde, volume.as_ptr(), volume.len()) }
}

pub fn print(volume: &[u16], page: &mut [u8]) -> Print {
    unsafe { ffi::sonde_print(volume.as_ptr(), volume.len(), page.as_mut_ptr(), page.len()) }
}

pub fn append(volume: &mut [u16], entry: Entry, stores: usize) {
    unsafe { ffi::sonde_append(volume.as_mut_ptr(), volume.len(), entry, stores) }
}

pub fn salvage(volume: &mut [u16]) -> Salvage {
    unsafe { ffi::sonde_salvage(volume.as_mut_ptr(), volume.len()) }
}

pub fn crc_round(sum: u16, word: u16) -> u16 {
    unsafe { ffi::sonde_crc_round(sum, word) }
}

//! A sonde on a serial line: the host behind `./serve`. What the sonde answers is the proved library's; this host cuts frames, keeps the
//! volume in a file and simulates the sensors.

pub mod date;
pub mod echo;
pub mod fault;
pub mod files;
pub mod framing;
pub mod inbox;
pub mod line;
pub mod lines;
pub mod link;
pub mod sensors;
pub mod server;
pub mod sys;
pub mod volume;

use std::io::{stderr, Write};
use std::sync::atomic::{AtomicU64, Ordering};

/// Messages that nobody has read.
static DROPPED: AtomicU64 = AtomicU64::new(0);

/// A message for the one who runs the server. A standard error that nobody reads is no reason to stop or to wait.
pub fn say(message: &str) {
    let mut output = stderr();
    if !sys::is_writable(&output) {
        DROPPED.fetch_add(1, Ordering::Relaxed);
        return;
    }
    let dropped = match DROPPED.swap(0, Ordering::Relaxed) {
        0 => String::new(),
        count => format!("serve: {count} messages before this one were dropped, since nobody read them\n"),
    };
    let _ = output.write_all(format!("{dropped}serve: {message}\n").as_bytes());
}

//! The calls of the C library that std doesn't have, with glibc's types on x86-64 (libsonde.a is for no other machine). All the unsafe code
//! of this host is in the three modules below.

mod events;
mod files;
mod terminal;

pub use events::{is_writable, stop_signals, wait, Wish};
pub use files::{exchange, rename_new};
pub use terminal::{drain, drop_input, has_echo, is_pty, open_pty, set_raw, set_rs485, unsent, LINE_FLAGS};

use std::ffi::c_int;
use std::io;

/// What a call that answers -1 has said.
fn done(result: c_int) -> io::Result<c_int> {
    if result < 0 {
        return Err(io::Error::last_os_error());
    }
    Ok(result)
}

//! Pseudo-terminals and the settings of a line.

use super::done;
use serve_options::{Character, DataBits, Parity, Rts};
use std::ffi::{c_char, c_int, c_uint, c_ulong, CStr, OsStr};
use std::fs::File;
use std::io;
use std::os::fd::{AsRawFd, FromRawFd};
use std::os::unix::ffi::OsStrExt;
use std::os::unix::fs::MetadataExt;
use std::path::PathBuf;

/// Flags of open: no controlling terminal, no waiting.
pub const LINE_FLAGS: c_int = 0o400 | 0o4000;
const O_RDWR: c_int = 0o2;
const O_CLOEXEC: c_int = 0o2000000;
const IGNPAR: c_uint = 0o4;
const INPCK: c_uint = 0o20;
const IXANY: c_uint = 0o4000;
const IXOFF: c_uint = 0o10000;
const CSIZE: c_uint = 0o60;
const CS7: c_uint = 0o40;
const CS8: c_uint = 0o60;
const CSTOPB: c_uint = 0o100;
const CREAD: c_uint = 0o200;
const PARENB: c_uint = 0o400;
const PARODD: c_uint = 0o1000;
const CLOCAL: c_uint = 0o4000;
const CMSPAR: c_uint = 0o10000000000;
const CRTSCTS: c_uint = 0o20000000000;
const ECHO: c_uint = 0o10;
const TCSANOW: c_int = 0;
const TCIFLUSH: c_int = 0;
const TIOCOUTQ: c_ulong = 0x5411;
const TIOCSRS485: c_ulong = 0x542F;
const SER_RS485_ENABLED: u32 = 1;
const SER_RS485_RTS_ON_SEND: u32 = 2;
const SER_RS485_RTS_AFTER_SEND: u32 = 4;

#[repr(C)]
#[derive(Default)]
struct Termios {
    iflag: c_uint,
    oflag: c_uint,
    cflag: c_uint,
    lflag: c_uint,
    line: u8,
    cc: [u8; 32],
    ispeed: c_uint,
    ospeed: c_uint,
}

/// As linux/serial.h declares it.
#[repr(C)]
#[derive(Default)]
struct SerialRs485 {
    flags: u32,
    delay_before_send: u32,
    delay_after_send: u32,
    padding: [u32; 5],
}

extern "C" {
    fn posix_openpt(flags: c_int) -> c_int;
    fn grantpt(fd: c_int) -> c_int;
    fn unlockpt(fd: c_int) -> c_int;
    fn ptsname_r(fd: c_int, name: *mut c_char, length: usize) -> c_int;
    fn tcgetattr(fd: c_int, termios: *mut Termios) -> c_int;
    fn tcsetattr(fd: c_int, when: c_int, termios: *const Termios) -> c_int;
    fn tcflush(fd: c_int, queue: c_int) -> c_int;
    fn tcdrain(fd: c_int) -> c_int;
    fn ioctl(fd: c_int, request: c_ulong, ...) -> c_int;
    fn cfmakeraw(termios: *mut Termios);
    fn cfsetspeed(termios: *mut Termios, speed: c_uint) -> c_int;
}

/// The master's end of a new pseudo-terminal, and the path of the other.
pub fn open_pty() -> io::Result<(File, PathBuf)> {
    let mut name = [0; 128];
    // SAFETY: posix_openpt hands back a descriptor that nobody else owns; the name is lent with its length, and ends with a zero on success.
    unsafe {
        let master = File::from_raw_fd(done(posix_openpt(O_RDWR | O_CLOEXEC | LINE_FLAGS))?);
        let fd = master.as_raw_fd();
        done(grantpt(fd))?;
        done(unlockpt(fd))?;
        match ptsname_r(fd, name.as_mut_ptr(), name.len()) {
            0 => Ok((master, PathBuf::from(OsStr::from_bytes(CStr::from_ptr(name.as_ptr()).to_bytes())))),
            error => Err(io::Error::from_raw_os_error(error)),
        }
    }
}

fn termios_of(line: &File) -> io::Result<Termios> {
    let mut termios = Termios::default();
    // SAFETY: the descriptor is open, and the struct is as glibc declares it.
    done(unsafe { tcgetattr(line.as_raw_fd(), &mut termios) }).map(|_| termios)
}

/// Characters as they are, all their data bits, at this speed. One with a wrong parity is read as zero: the checksum, or the
/// form of ASCII, refuses it, and an ASCII frame whose colon is lost isn't seen.
pub fn set_raw(line: &File, speed: u32, character: Character) -> io::Result<()> {
    let mut termios = termios_of(line)?;
    // SAFETY: the struct is as glibc declares it; cfmakeraw and cfsetspeed look at nothing else.
    unsafe {
        cfmakeraw(&mut termios);
        done(cfsetspeed(&mut termios, speed))?;
    }
    termios.cflag &= !(CSIZE | CSTOPB | PARENB | PARODD | CMSPAR | CRTSCTS);
    termios.cflag |= CREAD | CLOCAL;
    termios.cflag |= match character.data_bits {
        DataBits::Seven => CS7,
        DataBits::Eight => CS8,
    };
    termios.cflag |= match character.parity {
        Parity::None => CSTOPB,
        Parity::Even => PARENB,
        Parity::Odd => PARENB | PARODD,
    };
    termios.iflag &= !(INPCK | IGNPAR | IXANY | IXOFF);
    if character.parity != Parity::None {
        termios.iflag |= INPCK;
    }
    // SAFETY: the descriptor is open, and the struct is as glibc declares it.
    done(unsafe { tcsetattr(line.as_raw_fd(), TCSANOW, &termios) }).map(|_| ())
}

/// Drops what has come in at a line and was not read.
pub fn drop_input(line: &File) -> io::Result<()> {
    // SAFETY: the descriptor is open.
    done(unsafe { tcflush(line.as_raw_fd(), TCIFLUSH) }).map(|_| ())
}

/// Whether a terminal is a pseudo-terminal: Linux numbers their drivers so.
pub fn is_pty(line: &File) -> io::Result<bool> {
    let device = line.metadata()?.rdev();
    Ok((136..=143).contains(&(device >> 8 & 0xFFF)))
}

/// Whether a terminal hands back what it is given.
pub fn has_echo(line: &File) -> io::Result<bool> {
    termios_of(line).map(|termios| termios.lflag & ECHO != 0)
}

/// The bytes that were written to a line and haven't left it.
pub fn unsent(line: &File) -> io::Result<c_int> {
    let mut count = 0;
    // SAFETY: the descriptor is open, and TIOCOUTQ writes one int.
    done(unsafe { ioctl(line.as_raw_fd(), TIOCOUTQ, &mut count as *mut c_int) }).map(|_| count)
}

/// Waits until the last bit has left a line.
pub fn drain(line: &File) -> io::Result<()> {
    // SAFETY: the descriptor is open.
    done(unsafe { tcdrain(line.as_raw_fd()) }).map(|_| ())
}

/// Lets the kernel switch an RS-485 driver by RTS: to send while bytes are sent, else to receive.
pub fn set_rs485(line: &File, rts: Rts) -> io::Result<()> {
    let level = match rts {
        Rts::High => SER_RS485_RTS_ON_SEND,
        Rts::Low => SER_RS485_RTS_AFTER_SEND,
    };
    let settings = SerialRs485 {
        flags: SER_RS485_ENABLED | level,
        ..SerialRs485::default()
    };
    // SAFETY: the descriptor is open, and the struct is as the kernel declares it.
    done(unsafe { ioctl(line.as_raw_fd(), TIOCSRS485, &settings as *const SerialRs485) }).map(|_| ())
}

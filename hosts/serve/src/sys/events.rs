//! Signals and waiting.

use super::done;
use std::ffi::{c_int, c_short, c_ulong};
use std::fs::File;
use std::io::{self, ErrorKind};
use std::os::fd::{AsRawFd, FromRawFd};
use std::ptr::{null, null_mut};
use std::time::Duration;

const SIG_BLOCK: c_int = 0;
const SIG_DFL: usize = 0;
const SIG_IGN: usize = 1;
const SIGHUP: c_int = 1;
const SIGINT: c_int = 2;
const SIGTERM: c_int = 15;
const SFD_CLOEXEC: c_int = 0o2000000;
/// A descriptor that ppoll passes over.
const NO_FILE: c_int = -1;

#[repr(C)]
struct PollFd {
    fd: c_int,
    events: c_short,
    revents: c_short,
}

#[repr(C)]
struct Timespec {
    seconds: i64,
    nanoseconds: i64,
}

#[repr(C)]
#[derive(Default)]
struct SignalSet([c_ulong; 16]);

extern "C" {
    fn ppoll(fds: *mut PollFd, count: c_ulong, timeout: *const Timespec, mask: *const SignalSet) -> c_int;
    fn sigemptyset(set: *mut SignalSet) -> c_int;
    fn sigaddset(set: *mut SignalSet, signal: c_int) -> c_int;
    fn sigprocmask(how: c_int, set: *const SignalSet, old: *mut SignalSet) -> c_int;
    fn signalfd(fd: c_int, set: *const SignalSet, flags: c_int) -> c_int;
    fn signal(signal: c_int, handler: usize) -> usize;
}

/// A file that can be read once SIGINT, SIGTERM or SIGHUP has come. They do nothing else from now on, so none is lost and none cuts a write
/// short. A SIGHUP that is ignored (nohup) stays so.
pub fn stop_signals() -> io::Result<File> {
    let mut set = SignalSet::default();
    // SAFETY: the set is as glibc declares it, signal sets no handler of this program, and signalfd hands back a descriptor that nobody else owns.
    unsafe {
        done(sigemptyset(&mut set))?;
        done(sigaddset(&mut set, SIGINT))?;
        done(sigaddset(&mut set, SIGTERM))?;
        match signal(SIGHUP, SIG_DFL) {
            SIG_IGN => drop(signal(SIGHUP, SIG_IGN)),
            _ => drop(done(sigaddset(&mut set, SIGHUP))?),
        }
        done(sigprocmask(SIG_BLOCK, &set, null_mut()))?;
        Ok(File::from_raw_fd(done(signalfd(-1, &set, SFD_CLOEXEC))?))
    }
}

#[derive(Clone, Copy)]
#[repr(i16)]
pub enum Wish {
    Read = 1,
    Write = 4,
}

/// Whether a write wouldn't be waited for; of a pipe, one of up to 4096 bytes.
pub fn is_writable(output: &impl AsRawFd) -> bool {
    let mut fds = [PollFd {
        fd: output.as_raw_fd(),
        events: Wish::Write as c_short,
        revents: 0,
    }];
    let now = Timespec {
        seconds: 0,
        nanoseconds: 0,
    };
    // SAFETY: the array is lent with its length; the time is alive; no mask.
    let ready = unsafe { ppoll(fds.as_mut_ptr(), 1, &now, null()) };
    ready != 0
}

/// Waits until what is wished of a file is ready, or `stop` can be read, or the time is over (None: never). Hands back of each whether it is
/// ready; None once `stop` can be read.
pub fn wait(wishes: &[Option<(&File, Wish)>], stop: &File, timeout: Option<Duration>) -> io::Result<Option<Vec<bool>>> {
    let wished = |wish: &Option<(&File, Wish)>| PollFd {
        fd: wish.map_or(NO_FILE, |(file, _)| file.as_raw_fd()),
        events: wish.map_or(0, |(_, wish)| wish as c_short),
        revents: 0,
    };
    let mut fds: Vec<PollFd> = [Some((stop, Wish::Read))].iter().chain(wishes).map(wished).collect();
    let time = timeout.map(|t| Timespec {
        seconds: t.as_secs() as i64,
        nanoseconds: t.subsec_nanos().into(),
    });
    let time = time.as_ref().map_or(null(), |t| t as *const Timespec);
    // SAFETY: the array is lent with its length; the time is null or alive; no mask.
    match done(unsafe { ppoll(fds.as_mut_ptr(), fds.len() as c_ulong, time, null()) }) {
        Err(e) if e.kind() == ErrorKind::Interrupted => wait(wishes, stop, timeout),
        Err(e) => Err(e),
        Ok(_) => {
            let mut ready = fds.iter().map(|fd| fd.revents != 0);
            let stopped = ready.next() == Some(true);
            Ok((!stopped).then(|| ready.collect()))
        }
    }
}

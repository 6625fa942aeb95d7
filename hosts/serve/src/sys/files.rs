//! Renaming that says what it replaces.

use super::done;
use std::ffi::{c_char, c_int, c_uint, CString};
use std::io::{self, ErrorKind};
use std::os::unix::ffi::OsStrExt;
use std::path::Path;

const AT_FDCWD: c_int = -100;
const ENOSYS: i32 = 38;
const RENAME_NOREPLACE: c_uint = 1;
const RENAME_EXCHANGE: c_uint = 2;

extern "C" {
    fn renameat2(old_folder: c_int, old: *const c_char, new_folder: c_int, new: *const c_char, flags: c_uint) -> c_int;
}

/// Renames a file where nothing stands yet. None: the file system can't.
pub fn rename_new(from: &Path, to: &Path) -> io::Result<Option<()>> {
    rename(from, to, RENAME_NOREPLACE)
}

/// Gives each of two files the other's name, at one stroke. None: the file system can't.
pub fn exchange(one: &Path, other: &Path) -> io::Result<Option<()>> {
    rename(one, other, RENAME_EXCHANGE)
}

fn rename(from: &Path, to: &Path, flags: c_uint) -> io::Result<Option<()>> {
    let (from, to) = (CString::new(from.as_os_str().as_bytes())?, CString::new(to.as_os_str().as_bytes())?);
    // SAFETY: both names end with a zero and live during the call.
    match done(unsafe { renameat2(AT_FDCWD, from.as_ptr(), AT_FDCWD, to.as_ptr(), flags) }) {
        Ok(_) => Ok(Some(())),
        Err(e) if e.kind() == ErrorKind::InvalidInput || e.raw_os_error() == Some(ENOSYS) => Ok(None),
        Err(e) => Err(e),
    }
}

//! Files that others may have touched: opened without waiting, locked, and replaced only where they are still what they were.

use crate::sys::{self, LINE_FLAGS};
use std::ffi::OsString;
use std::fs::{self, File, Metadata, TryLockError};
use std::io::{self, ErrorKind, Read, Write};
use std::os::unix::ffi::OsStrExt;
use std::os::unix::fs::{fchown, MetadataExt, OpenOptionsExt};
use std::path::{Path, PathBuf};

/// A flag of open: no link is followed.
const O_NOFOLLOW: i32 = 0o400000;

/// A path with more behind its last name.
pub fn beside(path: &Path, ending: &str) -> PathBuf {
    let mut name = OsString::from(path);
    name.push(ending);
    PathBuf::from(name)
}

/// The path without links, so that a file has one name whatever it is called by, and a link to it stays one. A file need not be there, but a
/// link has to lead to one.
pub fn resolved(path: &Path) -> Result<PathBuf, String> {
    let told = |e: io::Error| e.to_string();
    match fs::symlink_metadata(path) {
        Ok(found) if found.is_symlink() && !path.exists() => Err("it is a link that leads to no file".to_string()),
        Ok(_) => fs::canonicalize(path).map_err(told),
        Err(e) if e.kind() == ErrorKind::NotFound && !path.as_os_str().as_bytes().ends_with(b"/") => resolved_folder(path).map_err(told),
        Err(e) => Err(told(e)),
    }
}

/// The path with no links before its last name.
pub fn resolved_folder(path: &Path) -> io::Result<PathBuf> {
    let name = path.file_name().ok_or(ErrorKind::InvalidInput)?;
    let folder = path.parent().filter(|p| !p.as_os_str().is_empty()).unwrap_or(Path::new("."));
    Ok(fs::canonicalize(folder)?.join(name))
}

/// Opens a regular file to be read. Nothing else is waited for: a FIFO without a writer would hold the server up for ever.
pub fn open_regular(path: &Path) -> Result<File, String> {
    open_checked(File::options().read(true).custom_flags(LINE_FLAGS), path)
}

/// The same where no link has to be followed.
pub fn open_itself(path: &Path) -> Result<File, String> {
    open_checked(File::options().read(true).custom_flags(LINE_FLAGS | O_NOFOLLOW), path)
}

/// Whether a regular file can be written, without writing to it.
pub fn writable(path: &Path) -> Result<bool, String> {
    open_regular(path)?;
    let opened = open_checked(File::options().write(true).custom_flags(LINE_FLAGS), path);
    let mode = fs::metadata(path).map_err(|e| e.to_string())?.permissions();
    Ok(opened.is_ok() && !mode.readonly())
}

/// The names that a file has.
pub fn names(path: &Path) -> Result<u64, String> {
    fs::metadata(path).map(|found| found.nlink()).map_err(|e| e.to_string())
}

fn open_checked(options: &fs::OpenOptions, path: &Path) -> Result<File, String> {
    let regular = |found: io::Result<Metadata>| match found {
        Ok(found) if found.is_file() => Ok(()),
        Ok(found) if found.is_dir() => Err("it is a folder".to_string()),
        Ok(_) => Err("it is no regular file".to_string()),
        Err(e) => Err(e.to_string()),
    };
    regular(fs::metadata(path))?;
    let file = options.open(path).map_err(|e| e.to_string())?;
    regular(file.metadata())?;
    Ok(file)
}

/// The bytes of a file, at most so many.
pub fn read_most(file: &File, most: usize) -> io::Result<Vec<u8>> {
    let mut bytes = Vec::new();
    file.take(most as u64).read_to_end(&mut bytes)?;
    Ok(bytes)
}

/// Which file it is, whatever its name and content.
#[derive(Clone, Copy, Debug, PartialEq)]
pub struct Identity(u64, u64);

impl Identity {
    pub fn of(file: &File) -> io::Result<Identity> {
        file.metadata().map(|found| Identity::from(&found))
    }

    /// Of what stands at a path, links not followed.
    pub fn at(path: &Path) -> io::Result<Identity> {
        fs::symlink_metadata(path).map(|found| Identity::from(&found))
    }
}

impl From<&Metadata> for Identity {
    fn from(found: &Metadata) -> Identity {
        Identity(found.dev(), found.ino())
    }
}

/// Locks a file or a device for as long as it is open here, by whatever name.
pub fn lock(file: &File) -> Result<(), String> {
    file.try_lock().map_err(|e| match e {
        TryLockError::WouldBlock => "another server has it".to_string(),
        TryLockError::Error(e) => format!("it can't be locked: {e}"),
    })
}

/// A lock file, locked while this lives.
pub struct Lock {
    path: PathBuf,
    file: File,
    made: bool,
}

impl Lock {
    pub fn take(path: &Path) -> Result<Lock, String> {
        loop {
            let (file, made) = open_lock(path).map_err(|e| format!("{} can't be opened: {e}", path.display()))?;
            lock(&file)?;
            let path = path.to_path_buf();
            let lock = Lock { path, file, made };
            if lock.is_held() {
                return Ok(lock);
            }
            // Another server removed the file between the two steps.
        }
    }

    /// Whether the path still names the file that is locked.
    pub fn is_held(&self) -> bool {
        matches!((Identity::of(&self.file), Identity::at(&self.path)), (Ok(own), Ok(there)) if own == there)
    }

    /// Leaves nothing behind where nothing was before.
    pub fn undo(self) {
        if self.made && self.is_held() {
            let _ = fs::remove_file(&self.path);
        }
    }
}

/// The file, and whether it wasn't there before.
fn open_lock(path: &Path) -> io::Result<(File, bool)> {
    match File::options().write(true).create_new(true).mode(0o600).open(path) {
        Ok(file) => Ok((file, true)),
        Err(e) if e.kind() == ErrorKind::AlreadyExists => {
            let file = File::options().read(true).custom_flags(LINE_FLAGS | O_NOFOLLOW).open(path)?;
            match file.metadata()?.is_file() {
                true => Ok((file, false)),
                false => Err(io::Error::other("it is no regular file")),
            }
        }
        Err(e) => Err(e),
    }
}

/// A file that has just been written.
pub struct Written {
    pub identity: Identity,
    /// Whether its name is on the disk, too.
    pub synced: io::Result<()>,
}

/// Writes a file that isn't there yet, at one stroke: after a power cut it isn't there, or it is whole.
pub fn create(path: &Path, bytes: &[u8]) -> Result<Written, String> {
    put(path, bytes, |new| place_new(new, path))
}

/// Writes a copy beside a file that is there, with its owner and permissions, by the first name that nothing has: with the ending, then with
/// `-2`, `-3` and so on behind it. At one stroke, as `create`.
pub fn keep(path: &Path, ending: &str, bytes: &[u8]) -> Result<(PathBuf, Written), String> {
    let mut kept = beside(path, ending);
    let mut count = 1;
    while Identity::at(&kept).is_ok() {
        count += 1;
        kept = beside(path, &format!("{ending}-{count}"));
    }
    let written = put(path, bytes, |new| place_new(new, &kept))?;
    Ok((kept, written))
}

/// Renames a file where nothing stands yet.
fn place_new(new: &Path, path: &Path) -> Result<(), String> {
    let made = sys::rename_new(new, path).map_err(|e| e.to_string())?;
    match made {
        Some(()) => Ok(()),
        None if Identity::at(path).is_ok() => Err("another program has just made it".to_string()),
        None => fs::rename(new, path).map_err(|e| e.to_string()),
    }
}

/// Replaces a file at one stroke: after a power cut it is the old or the new one, whole. `is_own` looks at the file before it goes; where it
/// refuses, nothing has changed.
pub fn replace(path: &Path, bytes: &[u8], is_own: impl Fn(&Path) -> Result<(), String>) -> Result<Written, String> {
    is_own(path)?;
    put(path, bytes, |new| match sys::exchange(new, path) {
        Ok(Some(())) => is_own(new).inspect_err(|_| {
            let _ = sys::exchange(new, path);
        }),
        Ok(None) => is_own(path).and_then(|()| fs::rename(new, path).map_err(|e| e.to_string())),
        Err(e) => Err(e.to_string()),
    })
}

/// Whether a file could be replaced: its folder has to take new ones.
pub fn can_replace(path: &Path) -> Result<(), String> {
    let (new, _) = create_beside(path)
        .and_then(|made| Ok((made.0, folder_of(path)?)))
        .map_err(|e| e.to_string())?;
    fs::remove_file(new).map_err(|e| e.to_string())
}

/// Writes a new file beside another, and lets `place` bring it there.
fn put(path: &Path, bytes: &[u8], place: impl FnOnce(&Path) -> Result<(), String>) -> Result<Written, String> {
    let told = |e: io::Error| e.to_string();
    let folder = folder_of(path).map_err(told)?;
    let (new, file) = create_beside(path).map_err(told)?;
    let identity = Identity::of(&file).map_err(told)?;
    let placed = fill(&file, path, bytes).map_err(told).and_then(|()| place(&new));
    let synced = folder.sync_all();
    // In its place by now is the old file, or nothing. A file that found no place goes, and another's stays.
    if placed.is_ok() || Identity::at(&new).is_ok_and(|there| there == identity) {
        let _ = fs::remove_file(&new);
    }
    placed.map(|()| Written { identity, synced })
}

fn folder_of(path: &Path) -> io::Result<File> {
    File::open(path.parent().unwrap_or(Path::new("/")))
}

fn fill(mut file: &File, old: &Path, bytes: &[u8]) -> io::Result<()> {
    file.write_all(bytes)?;
    if let Ok(old) = fs::metadata(old) {
        let _ = fchown(file, Some(old.uid()), Some(old.gid())); // only root can give a file away
        file.set_permissions(old.permissions())?;
    }
    file.sync_all()
}

/// A new file beside another, by a name that nothing else has.
fn create_beside(path: &Path) -> io::Result<(PathBuf, File)> {
    let mut count = 0;
    loop {
        let new = beside(path, &format!(".{}-{count}.new", std::process::id()));
        match File::options().write(true).create_new(true).open(&new) {
            Err(e) if e.kind() == ErrorKind::AlreadyExists && count < 100_000 => count += 1,
            other => return other.map(|file| (new, file)),
        }
    }
}

/// How many files stand beside another that were never brought to its place, since the server was killed.
pub fn left_over(path: &Path) -> usize {
    let (Some(folder), Some(name)) = (path.parent(), path.file_name()) else {
        return 0;
    };
    let name = name.to_string_lossy();
    let is_number = |text: &str| !text.is_empty() && text.bytes().all(|b| b.is_ascii_digit());
    let is_left = |other: &str| {
        let middle = other
            .strip_prefix(&*name)
            .and_then(|rest| rest.strip_prefix('.')?.strip_suffix(".new"));
        middle
            .and_then(|m| m.split_once('-'))
            .is_some_and(|(id, count)| is_number(id) && is_number(count))
    };
    let entries = fs::read_dir(folder).into_iter().flatten().flatten();
    entries.filter(|e| is_left(&e.file_name().to_string_lossy())).count()
}

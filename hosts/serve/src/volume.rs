//! The volume in its file: the words in order, each with its high byte first, and nothing else.

mod salvage;

use crate::fault::{self, ENTRY_WORDS, HEADER_WORDS};
use crate::files::{self, beside, left_over, open_itself, open_regular, read_most, resolved, Identity, Lock, Written};
use crate::say;
use salvage::Mended;
use sonde::{Error, Sonde, LEAST_WORDS};
use std::fs::File;
use std::path::{Path, PathBuf};

/// Entries that a volume can have at most: they fill 48128 bytes.
const MOST_ENTRIES: usize = 1000;
/// A longer file isn't read. A volume may have words that its journal never uses, but a file of this size is a mistake.
const MOST_BYTES: usize = 1 << 20;

/// What a file has.
struct Content {
    words: Vec<u16>,
    /// The file that has them.
    identity: Identity,
}

pub struct VolumeFile {
    pub path: PathBuf,
    /// The words, lent to the library.
    pub words: Vec<u16>,
    /// As last read or written.
    saved: Content,
    /// Of a file of its own, since the volume's is replaced at each write.
    lock: Lock,
    /// Of the volume before this one, where this one was begun from it.
    _before: Option<Lock>,
}

impl VolumeFile {
    /// Powers a sonde up from the file, salvaged where it isn't valid. Where there is none, begins a volume for a fresh sonde and writes the
    /// file.
    pub fn open(path: &Path, address: u8, entries: Option<usize>) -> Result<(VolumeFile, Sonde), String> {
        let place = resolved(path).map_err(named(path))?;
        if Identity::at(&place).is_err() {
            let fresh = Sonde::fresh(address).map_err(|e| e.to_string())?;
            return VolumeFile::begun(&place, fresh, entries, None).map_err(named(path));
        }
        let (volume, sonde) = VolumeFile::present(&place, address).map_err(named(path))?;
        if entries.is_some() {
            let room = volume.capacity();
            say(&format!(
                "--entries has no effect: {} is there, with room for {room}",
                path.display()
            ));
        }
        Ok((volume, sonde))
    }

    /// Powers a sonde up from one volume, which stays as it is, and begins another with its calibrations.
    pub fn succeed(path: &Path, new: &Path, address: u8, entries: Option<usize>) -> Result<(VolumeFile, Sonde), String> {
        if Identity::at(new).is_ok() {
            let (serves, new) = (new.is_file(), new.display());
            let hint = if serves {
                format!(". --volume {new} serves it")
            } else {
                String::new()
            };
            return Err(format!("--new-volume {new}: it exists, and nothing is overwritten{hint}"));
        }
        let new_place = resolved(new).map_err(named(new))?;
        let place = resolved(path).map_err(named(path))?;
        let ((_, sonde), before) = locked(&place, |_| power_up(&place, address)).map_err(named(path))?;
        VolumeFile::begun(&new_place, sonde, entries, Some(before)).map_err(named(new))
    }

    fn present(place: &Path, address: u8) -> Result<(VolumeFile, Sonde), String> {
        if !files::writable(place)? {
            return Err(
                "the file is write-protected, so no calibration could be kept; --check FILE looks at it without writing".to_string(),
            );
        }
        let names = files::names(place)?;
        if names > 1 {
            return Err(format!(
                "the file has {names} names (hard links), and a calibration would reach only this one"
            ));
        }
        let ((saved, sonde), lock) = locked(place, |lock| {
            let found = power_up_or_salvage(place, address, lock)?;
            files::can_replace(place).map_err(|e| format!("its folder takes no new file, so no calibration could be kept: {e}"))?;
            Ok(found)
        })?;
        Ok((VolumeFile::new(place, saved, lock, None), sonde))
    }

    fn begun(place: &Path, sonde: Sonde, entries: Option<usize>, before: Option<Lock>) -> Result<(VolumeFile, Sonde), String> {
        match locked(place, |_| begin(place, &sonde, entries.unwrap_or(MOST_ENTRIES))) {
            Ok((saved, lock)) => Ok((VolumeFile::new(place, saved, lock, before), sonde)),
            Err(e) => {
                if let Some(lock) = before {
                    lock.undo();
                }
                Err(e)
            }
        }
    }

    fn new(place: &Path, saved: Content, lock: Lock, before: Option<Lock>) -> VolumeFile {
        match left_over(place) {
            0 => {}
            count => say(&format!(
                "{}.*.new: {count} left from writes that were cut short; they aren't used",
                place.display()
            )),
        }
        VolumeFile {
            path: place.to_path_buf(),
            words: saved.words.clone(),
            saved,
            lock,
            _before: before,
        }
    }

    /// Entries that there is room for.
    pub fn capacity(&self) -> u16 {
        self.words[1]
    }

    pub fn is_full(&self) -> bool {
        self.words[2] == self.words[1]
    }

    /// The technician whom the newest entry names: 0 where no number was given, or there is no entry.
    pub fn newest_technician(&self) -> u16 {
        let entries = self.words[HEADER_WORDS..].chunks_exact(ENTRY_WORDS);
        entries.take(self.words[2].into()).last().map_or(0, |entry| entry[3])
    }

    /// Writes the file if the words have changed, and hands back whether they had. They are on the disk when this returns. A file that isn't
    /// the one that was last read or written is left as it is.
    pub fn save(&mut self) -> Result<bool, String> {
        if self.words == self.saved.words {
            return Ok(false);
        }
        let unkept = |e| format!("{} can't be written: {e}; the calibration is not in it", self.path.display());
        let written = self.saved.replace(&self.path, &self.words, &self.lock).map_err(unkept)?;
        self.saved.identity = written.identity;
        self.saved.words.clone_from(&self.words);
        let unsure = |e| format!("{} is written, but may not outlast a power cut: {e}", self.path.display());
        written.synced.map(|()| true).map_err(unsure)
    }
}

impl Content {
    /// Puts a file with other words in the place of this one.
    fn replace(&self, path: &Path, words: &[u16], lock: &Lock) -> Result<Written, String> {
        if !lock.is_held() {
            return Err("its lock file was removed or replaced, so another server may have it".to_string());
        }
        files::replace(path, &to_bytes(words), |path| self.is_at(path))
    }

    /// Whether nobody else has been at the file.
    fn is_at(&self, path: &Path) -> Result<(), String> {
        let there = open_itself(path).and_then(Content::of);
        let there = there.map_err(|e| format!("what was last written isn't there ({e})"))?;
        if there.identity != self.identity || there.words != self.words {
            return Err("another program has changed it, and nothing is overwritten".to_string());
        }
        Ok(())
    }

    /// The words of a file that may be a volume. Whether it is one, power-up decides.
    fn of(file: File) -> Result<Content, String> {
        let bytes = read_most(&file, MOST_BYTES + 1).map_err(|e| e.to_string())?;
        match bytes.len() {
            length if length > MOST_BYTES => Err(format!("the file has more than {MOST_BYTES} bytes, the most that is read here")),
            length if length % 2 != 0 => Err(format!("the file has {length} bytes, which are no whole words")),
            length if length < 2 * LEAST_WORDS => Err(format!("the file has {length} bytes; the least volume has {}", 2 * LEAST_WORDS)),
            _ => Ok(Content {
                words: from_bytes(&bytes),
                identity: Identity::of(&file).map_err(|e| e.to_string())?,
            }),
        }
    }
}

/// Whether a file is a valid volume: what there is to say of it. Reads it, and writes nothing.
pub fn check(path: &Path) -> Result<String, String> {
    let (content, _) = power_up(path, 1).map_err(named(path))?;
    let (used, room) = (content.words[2], content.words[1]);
    Ok(format!("{}: a valid volume; {used} of {room} entries are in use\n", path.display()))
}

/// Does something with a volume while it is locked. Where that is refused, no new lock file is left.
fn locked<T>(place: &Path, work: impl FnOnce(&Lock) -> Result<T, String>) -> Result<(T, Lock), String> {
    let lock = Lock::take(&beside(place, ".lock"))?;
    match work(&lock) {
        Ok(done) => Ok((done, lock)),
        Err(e) => {
            lock.undo();
            Err(e)
        }
    }
}

fn read(path: &Path) -> Result<Content, String> {
    open_regular(path).and_then(Content::of)
}

/// Writes nothing.
fn power_up(path: &Path, address: u8) -> Result<(Content, Sonde), String> {
    let content = read(path)?;
    match Sonde::power_up(address, &content.words) {
        Ok(sonde) => Ok((content, sonde)),
        Err(e) => Err(refusal(e, path, &content.words)),
    }
}

/// The same, but a volume that salvage mends is mended in its file.
fn power_up_or_salvage(place: &Path, address: u8, lock: &Lock) -> Result<(Content, Sonde), String> {
    let found = read(place)?;
    let refused = match Sonde::power_up(address, &found.words) {
        Ok(sonde) => return Ok((found, sonde)),
        Err(e) => e,
    };
    let Ok(mended) = Mended::of(&found.words) else {
        return Err(refusal(refused, place, &found.words));
    };
    let sonde = Sonde::power_up(address, &mended.words).map_err(|e| refusal(e, place, &mended.words))?;
    Ok((found.salvaged(place, mended, lock)?, sonde))
}

/// The verdict is the library's; the fault is named by this host.
fn refusal(error: Error, path: &Path, words: &[u16]) -> String {
    let number = error as u8;
    let fault = fault::first(words).map_or(String::new(), |fault| format!(": {fault}"));
    let salvage = salvage::prospect(path, words);
    format!("power-up is refused with number {number}, since it is no valid volume{fault}; {salvage}; the file stays as it is")
}

fn begin(place: &Path, sonde: &Sonde, entries: usize) -> Result<Content, String> {
    let mut words = vec![0; HEADER_WORDS + ENTRY_WORDS * entries];
    sonde.begin(&mut words).map_err(|e| e.to_string())?;
    let written = files::create(place, &to_bytes(&words)).map_err(|e| format!("it can't be begun: {e}"))?;
    let unsure = |e| format!("it is begun, but may not outlast a power cut: {e}");
    let identity = written.synced.map(|()| written.identity).map_err(unsure)?;
    Ok(Content { words, identity })
}

fn named(path: &Path) -> impl Fn(String) -> String + '_ {
    move |message| format!("the volume {}: {message}", path.display())
}

fn to_bytes(words: &[u16]) -> Vec<u8> {
    words.iter().flat_map(|word| word.to_be_bytes()).collect()
}

fn from_bytes(bytes: &[u8]) -> Vec<u16> {
    bytes.chunks_exact(2).map(|pair| u16::from_be_bytes([pair[0], pair[1]])).collect()
}

#[cfg(test)]
mod tests {
    use super::*;

    #[test]
    fn words_stand_high_byte_first() {
        let words = [0x0001, 0x3F80, 0xFF00];
        assert_eq!(to_bytes(&words), [0x00, 0x01, 0x3F, 0x80, 0xFF, 0x00]);
        assert_eq!(from_bytes(&to_bytes(&words)), words);
    }

    #[test]
    fn every_word_comes_back() {
        let words: Vec<u16> = (0..=u16::MAX).collect();
        assert_eq!(from_bytes(&to_bytes(&words)), words);
    }
}

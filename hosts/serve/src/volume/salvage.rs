//! A volume that was cut in the middle of an append, or whose chain words were spoilt otherwise: what the library's salvage makes of it, and
//! the two files that this leaves.

use super::{to_bytes, Content};
use crate::files::{self, Identity, Lock};
use crate::{fault, say};
use sonde::Error;
use std::fs;
use std::path::{Path, PathBuf};

/// Behind the name of a volume: the file from before its salvage.
const ENDING: &str = ".unsalvaged";

/// The words of a volume, salvaged.
pub struct Mended {
    pub words: Vec<u16>,
    /// How many differ.
    changed: u16,
}

impl Mended {
    /// Works on a copy.
    pub fn of(words: &[u16]) -> Result<Mended, Error> {
        let mut words = words.to_vec();
        let changed = sonde::salvage(&mut words)?;
        Ok(Mended { words, changed })
    }

    fn count(&self) -> String {
        match self.changed {
            1 => "1 word".to_string(),
            changed => format!("{changed} words"),
        }
    }
}

/// What salvage would do to a volume that is refused.
pub fn prospect(path: &Path, words: &[u16]) -> String {
    match Mended::of(words) {
        Ok(mended) => {
            let (count, path) = (mended.count(), path.display());
            format!("salvage would mend it, with {count} changed: --volume {path} alone does so at the start")
        }
        Err(e) => format!("salvage can't mend it (number {})", e as u8),
    }
}

impl Content {
    /// Puts the mended words in the place of a file, and keeps a copy of it, which is on the disk before the file goes. Where the one or the
    /// other can't be written, the file stays as it is.
    pub(super) fn salvaged(&self, place: &Path, mended: Mended, lock: &Lock) -> Result<Content, String> {
        let kept = Kept::of(place, self).map_err(|e| format!("salvage would mend it, but {e}; the file stays as it is"))?;
        let written = self.replace(place, &mended.words, lock).map_err(|e| {
            let left = kept.undo(self, place);
            format!("salvage would mend it, but it can't be written: {e}{left}")
        })?;
        let (count, before) = (mended.count(), kept.path.display());
        let unsure = |e| format!("it is salvaged, but may not outlast a power cut: {e}; the file from before is kept as {before}");
        written.synced.map_err(unsure)?;
        let fault = fault::first(&self.words).map_or(String::new(), |fault| format!(": {fault}"));
        say(&format!(
            "{}: it was no valid volume{fault}; salvage has mended it, with {count} changed, and the file from before is kept as {before}",
            place.display()
        ));
        Ok(Content {
            words: mended.words,
            identity: written.identity,
        })
    }
}

/// The copy of a file from before its salvage.
struct Kept {
    path: PathBuf,
    identity: Identity,
}

impl Kept {
    fn of(place: &Path, content: &Content) -> Result<Kept, String> {
        let unkept = |e| format!("a copy of the file can't be kept: {e}");
        let (path, written) = files::keep(place, ENDING, &to_bytes(&content.words)).map_err(unkept)?;
        let identity = written.identity;
        let kept = Kept { path, identity };
        match written.synced {
            Ok(()) => Ok(kept),
            Err(e) => {
                kept.undo(content, place);
                Err(unkept(e.to_string()))
            }
        }
    }

    /// Removes the copy while the file itself is still in its place, so that starts on a full disk leave no row of copies; what there is to
    /// say of it otherwise.
    fn undo(&self, content: &Content, place: &Path) -> String {
        let is_own = Identity::at(&self.path).is_ok_and(|there| there == self.identity);
        match content.is_at(place) {
            Ok(()) if is_own && fs::remove_file(&self.path).is_ok() => "; the file stays as it is".to_string(),
            _ => format!("; what was read is kept as {}", self.path.display()),
        }
    }
}

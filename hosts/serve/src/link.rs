//! A stable name of the pseudo-terminal, whose own is another at each start.

use crate::files::resolved_folder;
use std::ffi::{OsStr, OsString};
use std::fs;
use std::hash::{DefaultHasher, Hash, Hasher};
use std::io::{self, ErrorKind};
use std::os::linux::net::SocketAddrExt;
use std::os::unix::ffi::OsStrExt;
use std::os::unix::fs::symlink;
use std::os::unix::net::{SocketAddr, UnixListener};
use std::path::{Path, PathBuf};

/// A link to a line, which goes with this.
pub struct Link {
    path: PathBuf,
    line: PathBuf,
    /// Says that a server has the link, for as long as it lives and however it ends. The line itself isn't locked for it: clients may lock it.
    _claim: UnixListener,
}

impl Link {
    /// A link that a server has left is made anew; whatever else is there stays.
    pub fn make(path: &Path, line: &Path) -> Result<Link, String> {
        let made = claimed(path).and_then(|claim| {
            put(path, line)?;
            Ok(Link {
                path: path.to_path_buf(),
                line: line.to_path_buf(),
                _claim: claim,
            })
        });
        made.map_err(|e| format!("the link {} can't be made: {e}", path.display()))
    }
}

impl Drop for Link {
    fn drop(&mut self) {
        if fs::read_link(&self.path).is_ok_and(|line| line == target(&self.line)) {
            let _ = fs::remove_file(&self.path);
        }
    }
}

/// A socket by the link's name, which one process at a time can have. It has no file.
fn claimed(path: &Path) -> io::Result<UnixListener> {
    let mut name = DefaultHasher::new();
    resolved_folder(path)?.hash(&mut name);
    let address = SocketAddr::from_abstract_name(format!("sonde-serve-link-{:016x}", name.finish()))?;
    UnixListener::bind_addr(&address).map_err(|e| match e.kind() {
        ErrorKind::AddrInUse => io::Error::other("another server has it"),
        _ => e,
    })
}

fn put(path: &Path, line: &Path) -> io::Result<()> {
    match symlink(target(line), path) {
        Err(e) if e.kind() == ErrorKind::AlreadyExists && is_left(path) => {
            fs::remove_file(path)?;
            symlink(target(line), path)
        }
        made => made,
    }
}

/// How a server writes the path of its line, so that it knows the link of another that is gone: `/dev/./pts/N`, which is the same place.
const MARK: &str = "/dev/./pts/";

fn target(line: &Path) -> OsString {
    match line.strip_prefix("/dev/pts") {
        Ok(number) => OsString::from_iter([OsStr::new(MARK), number.as_os_str()]),
        Err(_) => line.into(),
    }
}

/// Whether it is a server's link. None has it: that is known by now.
fn is_left(path: &Path) -> bool {
    fs::read_link(path).is_ok_and(|line| line.as_os_str().as_bytes().starts_with(MARK.as_bytes()))
}

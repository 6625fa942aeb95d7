//! The proved program, run on the bytes of a volume.

use std::ffi::OsStr;
use std::io::{self, Read, Write};
use std::process::{Child, Command, Stdio};
use std::thread;

/// The whole page of a volume that the program refuses.
pub const UNSOUND: &[u8] = b"UNSOUND\n";

/// What the program writes.
pub fn page(program: &OsStr, volume: &[u8]) -> Result<Vec<u8>, String> {
    let name = program.to_string_lossy();
    let mut child = Command::new(program)
        .stdin(Stdio::piped())
        .stdout(Stdio::piped())
        .spawn()
        .map_err(|e| format!("{name} can't be run: {e}"))?;
    let page = exchanged(&mut child, volume).map_err(|e| format!("{name}: {e}"));
    let status = child.wait().map_err(|e| format!("{name}: {e}"))?;
    match (page, status.success()) {
        (Ok(page), true) => Ok(page),
        (Err(message), true) => Err(message),
        (_, false) => Err(format!("{name} failed: {status}")),
    }
}

fn exchanged(child: &mut Child, volume: &[u8]) -> io::Result<Vec<u8>> {
    let mut input = child.stdin.take().ok_or(io::ErrorKind::BrokenPipe)?;
    let mut output = child.stdout.take().ok_or(io::ErrorKind::BrokenPipe)?;
    thread::scope(|scope| {
        // A program that has seen enough may end without the rest.
        let written = scope.spawn(move || match input.write_all(volume) {
            Err(e) if e.kind() != io::ErrorKind::BrokenPipe => Err(e),
            _ => Ok(()),
        });
        let mut page = Vec::new();
        output.read_to_end(&mut page)?;
        written.join().map_err(|_| io::ErrorKind::Other)??;
        Ok(page)
    })
}

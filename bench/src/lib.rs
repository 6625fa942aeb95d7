//! What the two programs share: the count of instructions.

use std::process::Command;

/// The instructions of a run of this program with these arguments, counted by `valgrind --tool=callgrind`; `None` where that isn't installed.
pub fn collected(arguments: &[String]) -> Option<f64> {
    let program = std::env::current_exe().ok()?;
    let output = Command::new("valgrind")
        .args(["--tool=callgrind", "--callgrind-out-file=/dev/null"])
        .arg(program)
        .args(arguments)
        .output()
        .ok()?;
    let text = String::from_utf8_lossy(&output.stderr);
    let line = text.lines().find(|line| line.contains("Collected :"))?;
    line.split_whitespace().last()?.parse().ok()
}

//! Compiles the memory line for libmodbus, where its development files are installed.

use std::path::{Path, PathBuf};
use std::process::Command;

fn run(command: &mut Command) {
    let status = command.status().unwrap_or_else(|error| panic!("{command:?}: {error}"));
    assert!(status.success(), "{command:?} failed");
}

fn main() {
    println!("cargo:rerun-if-changed=src/line.c");
    println!("cargo:rustc-check-cfg=cfg(libmodbus)");
    if !Path::new("/usr/include/modbus/modbus.h").exists() {
        return;
    }
    let out = PathBuf::from(std::env::var("OUT_DIR").expect("cargo sets OUT_DIR"));
    let object = out.join("line.o");
    run(Command::new("cc")
        .args(["-O2", "-Wall", "-Wextra", "-Werror", "-c", "src/line.c", "-o"])
        .arg(&object));
    println!("cargo:rustc-link-arg-bins={}", object.display());
    println!("cargo:rustc-link-arg-bins=-lmodbus");
    println!("cargo:rustc-cfg=libmodbus");
}

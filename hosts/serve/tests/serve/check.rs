//! `--check FILE`: the library's verdict on a volume, and its first fault by name.

use crate::harness::Folder;
use crate::worked::{bytes, calibrated};
use std::fs;
use std::os::unix::fs::PermissionsExt;
use std::process::Command;

#[test]
fn a_valid_volume_is_told_and_nothing_is_written() {
    let folder = Folder::new();
    folder.write("archive", bytes(&calibrated()));
    fs::set_permissions(folder.path("archive"), fs::Permissions::from_mode(0o400)).unwrap();
    let said = folder.run("--check archive");
    let message = "archive: a valid volume; 1 of 3 entries are in use\n";
    assert_eq!(said, (0, message.to_string(), String::new()));
    assert_eq!(folder.names(), ["archive"]);
    assert_eq!(folder.read("archive"), bytes(&calibrated()));
}

#[test]
fn the_status_tells_where_nothing_can_be_written() {
    let folder = Folder::new();
    folder.write("archive", bytes(&calibrated()));
    for (words, expected) in [
        ("--check archive", 0),
        ("--check none", 1),
        ("--bogus", 2),
        ("--help", 0),
        ("--version", 0),
    ] {
        let full = || fs::File::options().write(true).open("/dev/full").unwrap();
        let mut command = Command::new(env!("CARGO_BIN_EXE_serve"));
        command
            .current_dir(&folder.0)
            .args(words.split_whitespace())
            .stdout(full())
            .stderr(full());
        assert_eq!(command.status().unwrap().code(), Some(expected), "{words}");
    }
}

#[test]
fn a_volume_that_is_served_can_be_checked() {
    let folder = Folder::new();
    let _server = folder.serve("--entries 3");
    assert_eq!(folder.run("--check sonde.volume").0, 0);
}

#[test]
fn a_fault_is_named_by_its_word() {
    let folder = Folder::new();
    let mut damaged = calibrated();
    damaged[64 + 2] = 3;
    folder.write("archive", bytes(&damaged));
    let (status, out, said) = folder.run("--check archive");
    assert_eq!((status, out.as_str()), (1, ""));
    assert!(
        said.starts_with("serve: the volume archive: power-up is refused with number 4, since it is no valid volume: word 66"),
        "{said}"
    );
    let served = folder.refused("--volume archive");
    assert_eq!(served, (1, said));
    assert_eq!(folder.names(), ["archive"]);
}

#[test]
fn a_file_with_its_low_byte_first_is_told_apart() {
    let folder = Folder::new();
    let mut swapped = bytes(&calibrated());
    swapped.chunks_exact_mut(2).for_each(|pair| pair.swap(0, 1));
    folder.write("archive", swapped);
    let (status, _, said) = folder.run("--check archive");
    assert_eq!(status, 1);
    assert!(said.contains("low byte first"), "{said}");
}

#[test]
fn what_cannot_be_a_volume_is_told_at_once() {
    let folder = Folder::new();
    folder.write("odd", [0; 177]);
    fs::create_dir(folder.path("folder")).unwrap();
    assert!(Command::new("mkfifo").arg(folder.path("fifo")).status().unwrap().success());
    for (name, message) in [
        ("odd", "the file has 177 bytes, which are no whole words"),
        ("folder", "it is a folder"),
        ("fifo", "it is no regular file"),
        ("/dev/null", "it is no regular file"),
        ("none", "No such file"),
    ] {
        let (status, out, said) = folder.run(&format!("--check {name}"));
        assert_eq!((status, out.as_str()), (1, ""), "{name}");
        assert!(said.starts_with(&format!("serve: the volume {name}: {message}")), "{said}");
    }
    assert_eq!(folder.names(), ["fifo", "folder", "odd"]);
}

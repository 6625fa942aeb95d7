//! A volume that was cut in the middle of an append, or whose chain words are spoilt: mended at the start, with the file from before kept.

use crate::harness::Folder;
use crate::worked::{begun, bytes, prepare, updated, FULL, START, UPDATE};
use sonde::{append, Calibration, Entry, Points, APPEND_STORES};
use std::fs;
use std::os::unix::fs::{symlink, PermissionsExt};

const KEPT: &str = "sonde.volume.unsalvaged";

/// A volume with so many entries of sensor 1.
fn whole(entries: u16) -> Vec<u16> {
    match entries {
        0 => begun(),
        count => updated(count),
    }
}

/// The same after so many stores of the next entry.
fn cut(entries: u16, stores: usize) -> Vec<u16> {
    let calibration = Calibration {
        coefficient2: 1.25,
        time: 0x6955_0001,
        ..Calibration::default()
    };
    let points = Points {
        x1: 1000.0,
        y1: 1250.0,
        ..Points::default()
    };
    let mut words = whole(entries);
    let entry = Entry {
        sensor: 1,
        method: 1,
        technician: 0,
        calibration,
        points,
    };
    append(&mut words, entry, stores);
    words
}

/// Cuts that leave an invalid volume, and the words that salvage changes.
const CUTS: [(u16, usize, &str); 4] = [(0, 25, "1 word"), (0, 26, "2 words"), (1, 25, "1 word"), (1, 26, "2 words")];

/// What is said of the file sonde.volume when it was salvaged, the fault aside.
fn is_told(folder: &Folder, said: &str, changed: &str, kept: &str) {
    let place = fs::canonicalize(folder.path("sonde.volume")).unwrap();
    let place = place.display();
    assert_eq!(said.lines().count(), 1, "{said}");
    assert!(
        said.starts_with(&format!("serve: {place}: it was no valid volume: word ")),
        "{said}"
    );
    let rest = format!("; salvage has mended it, with {changed} changed, and the file from before is kept as {place}{kept}\n");
    assert!(said.ends_with(&rest), "{said}");
}

#[test]
fn a_cut_append_is_salvaged_at_the_start() {
    for (entries, stores, changed) in CUTS {
        let folder = Folder::new();
        let found = cut(entries, stores);
        folder.write("sonde.volume", bytes(&found));
        let server = folder.serve("--clock 1767178241");
        let mut client = server.client();
        client.ask(&[1, 3, 0, 7, 0, 2], &[1, 3, 4, 0, 3, 0, entries as u8]);
        assert_eq!(folder.read(KEPT), bytes(&found));
        assert_eq!(folder.names(), ["sonde.volume", "sonde.volume.lock", KEPT]);

        // The volume from before, with the entry's words in the free ones.
        let free = 64 + 24 * usize::from(entries);
        let mended = [&whole(entries)[..free], &found[free..]].concat();
        assert_eq!(folder.read("sonde.volume"), bytes(&mended));

        prepare(&mut client);
        client.ask(&UPDATE, &UPDATE);
        assert_eq!(folder.read("sonde.volume"), bytes(&updated(entries + 1)));
        let (status, said) = server.stop("TERM");
        assert_eq!(status, 0);
        is_told(&folder, &said, changed, ".unsalvaged");

        // From then on there is nothing to mend, and nothing to say.
        assert_eq!(folder.serve("").stop("TERM"), (0, String::new()));
        assert_eq!(folder.names(), ["sonde.volume", "sonde.volume.lock", KEPT]);
    }
}

#[test]
fn a_cut_that_leaves_a_valid_volume_is_no_matter() {
    for (entries, in_use) in [(0, 1), (1, 2)] {
        for stores in [0, 1, 2, 12, 23, 24, APPEND_STORES, APPEND_STORES + 1] {
            let folder = Folder::new();
            let found = bytes(&cut(entries, stores));
            folder.write("sonde.volume", &found);
            let in_use = if stores < APPEND_STORES { entries as u8 } else { in_use };
            let message = format!("sonde.volume: a valid volume; {in_use} of 3 entries are in use\n");
            assert_eq!(folder.run("--check sonde.volume"), (0, message, String::new()));
            let server = folder.serve("");
            server.client().ask(&[1, 3, 0, 8, 0, 1], &[1, 3, 2, 0, in_use]);
            assert_eq!(server.stop("TERM"), (0, String::new()), "{stores}");
            assert_eq!(folder.read("sonde.volume"), found, "{stores}");
            assert_eq!(folder.names(), ["sonde.volume", "sonde.volume.lock"], "{stores}");
        }
    }
}

#[test]
fn chain_words_that_were_spoilt_otherwise_are_mended_too() {
    let folder = Folder::new();
    let mut spoilt = updated(3);
    for at in (4..12).chain([64, 64 + 24, 64 + 48]) {
        spoilt[at] = 0xFFFF;
    }
    folder.write("sonde.volume", bytes(&spoilt));
    let server = folder.serve("--clock 1767178241");
    let mut client = server.client();
    assert_eq!(folder.read("sonde.volume"), bytes(&updated(3)));
    assert_eq!(folder.read(KEPT), bytes(&spoilt));
    prepare(&mut client);
    client.ask(&UPDATE, &FULL);
    let (status, said) = server.stop("TERM");
    assert_eq!(status, 0);
    is_told(&folder, &said[..=said.find('\n').unwrap()], "11 words", ".unsalvaged");
}

#[test]
fn a_volume_beyond_salvage_is_refused_and_stays() {
    for (at, word) in [
        (0, 0),
        (1, 2),
        (2, 4),
        (3, 1),
        (15, 1),
        (18, 0x7F80),
        (65, 5),
        (66, 3),
        (72, 0x3FA1),
        (84, 1),
    ] {
        let folder = Folder::new();
        let mut damaged = cut(1, 26); // its chain words alone could be mended
        damaged[at] = word;
        folder.write("sonde.volume", bytes(&damaged));
        let message = "serve: the volume sonde.volume: power-up is refused with number 4, since it is no valid volume: word";
        let (status, said) = folder.refused("");
        assert_eq!(status, 1, "word {at}");
        assert!(said.starts_with(message), "{said}");
        assert!(
            said.ends_with("; salvage can't mend it (number 8); the file stays as it is\n"),
            "{said}"
        );
        assert_eq!(folder.run("--check sonde.volume"), (1, String::new(), said));
        assert_eq!(folder.read("sonde.volume"), bytes(&damaged), "word {at}");
        assert_eq!(folder.names(), ["sonde.volume"], "word {at}");
    }
}

#[test]
fn files_from_before_are_never_overwritten() {
    let folder = Folder::new();
    symlink("nothing", folder.path("sonde.volume.unsalvaged-3")).unwrap();
    let cuts = [cut(0, 25), cut(0, 26), cut(1, 26)];
    for (found, kept) in cuts.iter().zip(["", "-2", "-4"]) {
        folder.write("sonde.volume", bytes(found));
        let (_, said) = folder.serve("").stop("TERM");
        assert!(said.ends_with(&format!("/{KEPT}{kept}\n")), "{said}");
    }
    for (found, kept) in cuts.iter().zip(["", "-2", "-4"]) {
        assert_eq!(folder.read(&format!("{KEPT}{kept}")), bytes(found));
    }
    let kept = ["", "-2", "-3", "-4"].map(|ending| format!("{KEPT}{ending}"));
    assert_eq!(folder.names()[2..], kept);
    assert!(!folder.path("nothing").exists());
}

#[test]
fn check_says_what_salvage_would_do_and_writes_nothing() {
    for (entries, stores, changed) in CUTS {
        let folder = Folder::new();
        let found = bytes(&cut(entries, stores));
        folder.write("archive", &found);
        fs::set_permissions(folder.path("archive"), fs::Permissions::from_mode(0o400)).unwrap();
        let (status, out, said) = folder.run("--check archive");
        assert_eq!((status, out.as_str()), (1, ""));
        let message = "serve: the volume archive: power-up is refused with number 4, since it is no valid volume: word ";
        assert!(said.starts_with(message), "{said}");
        let hint = format!(
            "; salvage would mend it, with {changed} changed: --volume archive alone does so at the start; the file stays as it is\n"
        );
        assert!(said.ends_with(&hint), "{said}");
        assert_eq!(folder.read("archive"), found);
        assert_eq!(folder.names(), ["archive"]);
    }
}

#[test]
fn a_new_volume_goes_on_from_a_salvaged_one_alone() {
    let folder = Folder::new();
    let found = cut(2, 26);
    folder.write("sonde.volume", bytes(&found));
    let (status, said) = folder.refused("--new-volume second");
    assert_eq!(status, 1);
    assert!(said.contains("power-up is refused with number 4"), "{said}");
    assert!(
        said.contains("/sonde.volume alone does so at the start; the file stays as it is"),
        "{said}"
    );
    assert_eq!(folder.read("sonde.volume"), bytes(&found));
    assert_eq!(folder.names(), ["sonde.volume"]);
    folder.serve("");
    let server = folder.serve("--new-volume second --entries 3");
    assert_eq!(folder.read("second")[2 * 40..2 * 42], [0x69, 0x55, 0, 1]);
    assert_eq!(server.stop("TERM"), (0, String::new()));
}

#[test]
fn a_file_that_is_not_served_is_not_salvaged() {
    let folder = Folder::new();
    let found = bytes(&cut(1, 26));
    folder.write("sonde.volume", &found);
    fs::set_permissions(folder.path("sonde.volume"), fs::Permissions::from_mode(0o444)).unwrap();
    let refused = |message: &str| {
        let (status, said) = folder.refused("");
        assert_eq!(status, 1);
        assert!(said.contains(message), "{said}");
        assert_eq!(folder.read("sonde.volume"), found);
    };
    refused("the file is write-protected");
    assert_eq!(folder.names(), ["sonde.volume"]);
    fs::set_permissions(folder.path("sonde.volume"), fs::Permissions::from_mode(0o644)).unwrap();
    fs::hard_link(folder.path("sonde.volume"), folder.path("other")).unwrap();
    refused("the file has 2 names");
    assert_eq!(folder.names(), ["other", "sonde.volume"]);
    fs::remove_file(folder.path("sonde.volume")).unwrap();
    let _server = folder.serve(START);
    folder.write("sonde.volume", &found);
    refused("another server has it");
    assert_eq!(folder.names(), ["other", "sonde.volume", "sonde.volume.lock"]);
}

#[test]
fn both_files_stand_where_a_link_leads_with_the_permissions_of_the_old() {
    let folder = Folder::new();
    fs::create_dir(folder.path("archive")).unwrap();
    folder.write("archive/kept", bytes(&cut(1, 25)));
    fs::set_permissions(folder.path("archive/kept"), fs::Permissions::from_mode(0o640)).unwrap();
    symlink("archive/kept", folder.path("sonde.volume")).unwrap();
    let (_, said) = folder.serve("").stop("TERM");
    is_told(&folder, &said, "1 word", ".unsalvaged");
    assert_eq!(folder.names(), ["archive", "sonde.volume"]);
    assert!(folder.path("sonde.volume").is_symlink());
    for (name, words) in [("archive/kept", cut(1, 24)), ("archive/kept.unsalvaged", cut(1, 25))] {
        assert_eq!(folder.read(name), bytes(&words), "{name}");
        let mode = fs::metadata(folder.path(name)).unwrap().permissions().mode();
        assert_eq!(mode & 0o777, 0o640, "{name}");
    }
}

#[test]
fn without_room_for_a_copy_the_file_stays() {
    let folder = Folder::new();
    let found = bytes(&cut(1, 26));
    folder.write("sonde.volume", &found);
    let (status, said) = folder.refused_on_full_disk("");
    let message = "salvage would mend it, but a copy of the file can't be kept: File too large (os error 27); the file stays as it is";
    assert_eq!((status, said), (1, format!("serve: the volume sonde.volume: {message}\n")));
    assert_eq!(folder.read("sonde.volume"), found);
    assert_eq!(folder.names(), ["sonde.volume"]);

    // A name that leaves room for the lock file's ending alone.
    let name = "v".repeat(247);
    fs::rename(folder.path("sonde.volume"), folder.path(&name)).unwrap();
    let (status, said) = folder.refused(&format!("--volume {name}"));
    assert_eq!(status, 1);
    assert!(said.contains("a copy of the file can't be kept: File name too long"), "{said}");
    assert_eq!(folder.read(&name), found);
    assert_eq!(folder.names(), [name]);
}

/// Stands for a disk that is full once the copy is kept: no file can be written after the first rename.
const FULL_DISK: &str = r#"
#define _GNU_SOURCE
#include <signal.h>
#include <sys/resource.h>
#include <sys/syscall.h>
#include <unistd.h>
int renameat2(int from, const char *old, int to, const char *new, unsigned flags) {
    struct rlimit none = {0, 0};
    signal(SIGXFSZ, SIG_IGN);
    setrlimit(RLIMIT_FSIZE, &none);
    return syscall(SYS_renameat2, from, old, to, new, flags);
}
"#;

#[test]
fn without_room_for_the_mended_file_the_old_one_stays_and_no_copies_pile_up() {
    let folder = Folder::new();
    let full = folder.stand_in(FULL_DISK);
    let found = bytes(&cut(1, 26));
    folder.write("sonde.volume", &found);
    for _ in 0..2 {
        let (status, said) = folder.refused_with("LD_PRELOAD", &full, "");
        let message = "salvage would mend it, but it can't be written: File too large (os error 27); the file stays as it is";
        assert_eq!((status, said), (1, format!("serve: the volume sonde.volume: {message}\n")));
        assert_eq!(folder.read("sonde.volume"), found);
        assert_eq!(folder.names(), ["sonde.volume", "stand_in.c", "stand_in.so"]);
    }
}

/// Stands for another program that puts the file `race` in the place of the volume just before the mended file gets there.
const RACE: &str = r#"
#include <stdio.h>
#include <sys/syscall.h>
#include <unistd.h>
int renameat2(int from, const char *old, int to, const char *new, unsigned flags) {
    if (flags == 2) rename("race", new);
    return syscall(SYS_renameat2, from, old, to, new, flags);
}
"#;

#[test]
fn a_program_that_was_quicker_loses_nothing_and_the_copy_stays() {
    let folder = Folder::new();
    let race = folder.stand_in(RACE);
    let found = bytes(&cut(1, 26));
    folder.write("sonde.volume", &found);
    folder.write("race", "another's");
    let (status, said) = folder.refused_with("LD_PRELOAD", &race, "");
    assert_eq!(status, 1);
    assert!(said.contains("it can't be written: what was last written isn't there"), "{said}");
    assert!(
        said.ends_with(&format!("; what was read is kept as {}\n", folder.path(KEPT).display())),
        "{said}"
    );
    assert_eq!(folder.read("sonde.volume"), b"another's");
    assert_eq!(folder.read(KEPT), found);
    assert_eq!(folder.names(), ["sonde.volume", KEPT, "stand_in.c", "stand_in.so"]);
}

/// Stands for a supply that fails when the copy is kept and the mended file isn't in its place yet.
const POWER_CUT: &str = r#"
#include <sys/syscall.h>
#include <unistd.h>
int renameat2(int from, const char *old, int to, const char *new, unsigned flags) {
    if (flags == 2) _exit(9);
    return syscall(SYS_renameat2, from, old, to, new, flags);
}
"#;

#[test]
fn a_salvage_that_is_cut_itself_is_made_again() {
    let folder = Folder::new();
    let supply = folder.stand_in(POWER_CUT);
    let found = bytes(&cut(1, 26));
    folder.write("sonde.volume", &found);
    assert_eq!(folder.refused_with("LD_PRELOAD", &supply, ""), (9, String::new()));
    assert_eq!(folder.read("sonde.volume"), found);
    assert_eq!(folder.read(KEPT), found);
    let (status, said) = folder.serve("").stop("TERM");
    assert_eq!(status, 0);
    assert!(said.contains(&format!("/{KEPT}-2\n")), "{said}");
    assert!(
        said.ends_with("1 left from writes that were cut short; they aren't used\n"),
        "{said}"
    );
    assert_eq!(folder.read("sonde.volume"), bytes(&cut(1, 24)));
    assert_eq!(folder.read(&format!("{KEPT}-2")), found);
}

/// Writes down, in the file `steps`, what is synced (a file or a folder) and what is renamed, in order.
const STEPS: &str = r#"
#define _GNU_SOURCE
#include <stdio.h>
#include <string.h>
#include <sys/stat.h>
#include <sys/syscall.h>
#include <unistd.h>
static void step(const char *what, const char *name) {
    FILE *file = fopen("steps", "a");
    fprintf(file, "%s%s\n", what, name);
    fclose(file);
}
int fsync(int file) {
    struct stat found;
    fstat(file, &found);
    step("sync of a ", S_ISDIR(found.st_mode) ? "folder" : "file");
    return syscall(SYS_fsync, file);
}
int renameat2(int from, const char *old, int to, const char *new, unsigned flags) {
    step(flags == 2 ? "exchange " : "rename ", strrchr(new, '/') + 1);
    return syscall(SYS_renameat2, from, old, to, new, flags);
}
"#;

#[test]
fn the_copy_is_on_the_disk_before_the_file_goes() {
    let folder = Folder::new();
    let steps = folder.stand_in(STEPS);
    folder.write("sonde.volume", bytes(&cut(1, 26)));
    assert_eq!(folder.serve_with("LD_PRELOAD", &steps, "").stop("TERM").0, 0);
    let expected =
        "sync of a file\nrename sonde.volume.unsalvaged\nsync of a folder\nsync of a file\nexchange sonde.volume\nsync of a folder\n";
    assert_eq!(String::from_utf8(folder.read("steps")).unwrap(), expected);
}

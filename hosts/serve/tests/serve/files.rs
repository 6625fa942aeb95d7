//! Files that are no volumes, and files that others touch while the server runs.

use crate::harness::{framed, Client, Folder, Server};
use crate::worked::{begun, bytes, calibrated, prepare, updated, START, UPDATE};
use std::fs;
use std::os::unix::fs::{symlink, PermissionsExt};
use std::process::Command;

fn make_fifo(folder: &Folder, name: &str) {
    assert!(Command::new("mkfifo").arg(folder.path(name)).status().unwrap().success());
}

#[test]
fn only_regular_files_are_served_and_nothing_is_left_beside_others() {
    let folder = Folder::new();
    make_fifo(&folder, "fifo");
    fs::create_dir(folder.path("folder")).unwrap();
    symlink("nothing", folder.path("dangling")).unwrap();
    symlink("fifo", folder.path("link")).unwrap();
    let names = folder.names();
    for (words, message) in [
        ("--volume fifo", "the volume fifo: it is no regular file"),
        ("--volume link", "the volume link: it is no regular file"),
        ("--volume folder", "the volume folder: it is a folder"),
        ("--volume dangling", "the volume dangling: it is a link that leads to no file"),
        ("--volume nowhere/sonde", "the volume nowhere/sonde: No such file"),
        ("--volume sonde/", "the volume sonde/: No such file"),
        ("--volume fifo --new-volume new", "the volume fifo: it is no regular file"),
        ("--raws fifo", "fifo: it is no regular file"),
    ] {
        let (status, said) = folder.refused(words);
        assert_eq!(status, 1, "{words}");
        assert!(said.starts_with(&format!("serve: {message}")), "{said}");
        assert_eq!(folder.names(), names, "{words}");
    }
}

#[test]
fn a_write_protected_file_is_refused_at_the_start() {
    let folder = Folder::new();
    folder.write("sonde.volume", bytes(&begun()));
    fs::set_permissions(folder.path("sonde.volume"), fs::Permissions::from_mode(0o444)).unwrap();
    let (status, said) = folder.refused("");
    assert_eq!(status, 1);
    assert!(said.contains("write-protected") && said.contains("--check"), "{said}");
    assert_eq!(folder.names(), ["sonde.volume"]);

    // It can still be gone on from.
    let server = folder.serve("--new-volume new --entries 3");
    assert_eq!(folder.read("new"), bytes(&begun()));
    assert_eq!(server.stop("TERM"), (0, String::new()));
}

#[test]
fn a_file_with_two_names_is_refused() {
    let folder = Folder::new();
    folder.write("sonde.volume", bytes(&begun()));
    fs::hard_link(folder.path("sonde.volume"), folder.path("other")).unwrap();
    let (status, said) = folder.refused("");
    assert_eq!(status, 1);
    assert!(said.contains("the file has 2 names"), "{said}");
    assert_eq!(folder.names(), ["other", "sonde.volume"]);
}

/// A name of 247 bytes leaves room for the lock file's ending, and none for a new file's.
#[test]
fn a_file_that_could_not_be_replaced_is_refused_at_the_start() {
    let folder = Folder::new();
    let name = "v".repeat(247);
    folder.write(&name, bytes(&begun()));
    let (status, said) = folder.refused(&format!("--volume {name}"));
    assert_eq!(status, 1);
    assert!(said.contains("its folder takes no new file"), "{said}");
    assert_eq!(folder.names(), [name]);
}

/// Stands for another program that is quicker: puts the file `race` in the place of the volume just before the server does.
const RACE: &str = r#"
#include <stdio.h>
#include <sys/syscall.h>
#include <unistd.h>
int renameat2(int from, const char *old, int to, const char *new, unsigned flags) {
    rename("race", new);
    return syscall(SYS_renameat2, from, old, to, new, flags);
}
"#;

#[test]
fn a_program_that_was_quicker_loses_nothing() {
    let folder = Folder::new();
    let race = folder.stand_in(RACE);

    folder.write("sonde.volume", bytes(&begun()));
    let mut server = folder.serve_with("LD_PRELOAD", &race, "--clock 1767178241");
    let mut client = server.client();
    prepare(&mut client);
    folder.write("race", "another's");
    client.send(&framed(&UPDATE));
    client.hears_nothing();
    let (status, said) = server.ended();
    assert_eq!(status, 1);
    assert!(
        said.contains("sonde.volume can't be written: what was last written isn't there"),
        "{said}"
    );
    assert_eq!(folder.read("sonde.volume"), b"another's");

    fs::remove_file(folder.path("sonde.volume")).unwrap();
    folder.write("race", "another's");
    let (status, said) = folder.refused_with("LD_PRELOAD", &race, "");
    assert_eq!(status, 1);
    assert!(said.contains("it can't be begun: File exists"), "{said}");
    assert_eq!(folder.read("sonde.volume"), b"another's");
    assert_eq!(folder.names(), ["sonde.volume", "sonde.volume.lock", "stand_in.c", "stand_in.so"]);
}

#[test]
fn a_link_in_the_place_of_the_volume_is_not_followed() {
    let folder = Folder::new();
    let (server, mut client) = prepared(&folder);
    fs::rename(folder.path("sonde.volume"), folder.path("moved")).unwrap();
    symlink("moved", folder.path("sonde.volume")).unwrap();
    stops(server, &mut client, "what was last written isn't there");
    assert!(folder.path("sonde.volume").is_symlink());
    assert_eq!(folder.read("moved"), bytes(&begun()));
}

#[test]
fn links_in_the_place_of_new_files_are_not_followed() {
    let folder = Folder::new();
    let server = folder.serve(START);
    let mut client = server.client();
    prepare(&mut client);
    folder.write("victim", "mine");
    for ending in ["new".to_string(), format!("{}-0.new", server.id())] {
        symlink("victim", folder.path(&format!("sonde.volume.{ending}"))).unwrap();
    }
    let names = folder.names();
    client.ask(&UPDATE, &UPDATE);
    assert_eq!(folder.read("victim"), b"mine");
    assert_eq!(folder.read("sonde.volume"), bytes(&calibrated()));
    assert_eq!(folder.names(), names);
}

#[test]
fn a_link_in_the_place_of_the_lock_is_refused() {
    let folder = Folder::new();
    for target in ["nothing", "victim"] {
        folder.write("victim", "mine");
        symlink(target, folder.path("sonde.volume.lock")).unwrap();
        let (status, said) = folder.refused("");
        assert_eq!(status, 1);
        assert!(said.contains("sonde.volume.lock can't be opened"), "{said}");
        assert_eq!(folder.names(), ["sonde.volume.lock", "victim"]);
        fs::remove_file(folder.path("sonde.volume.lock")).unwrap();
    }
}

#[test]
fn what_a_killed_server_left_is_told() {
    let folder = Folder::new();
    folder.write("sonde.volume.123-0.new", "half");
    folder.write("sonde.volume.new", "someone's");
    let (_, said) = folder.serve(START).stop("TERM");
    let message = "/sonde.volume.*.new: 1 left from writes that were cut short; they aren't used\n";
    assert!(said.ends_with(message), "{said}");
    assert_eq!(said.lines().count(), 1);
    assert_eq!(folder.read("sonde.volume.123-0.new"), b"half");
}

/// A server that is ready for an update.
fn prepared(folder: &Folder) -> (Server, Client) {
    let server = folder.serve(START);
    let mut client = server.client();
    prepare(&mut client);
    (server, client)
}

/// An update that can't be kept: no reply, the server stops and says why.
fn stops(mut server: Server, client: &mut Client, message: &str) {
    client.send(&framed(&UPDATE));
    client.hears_nothing();
    let (status, said) = server.ended();
    assert_eq!(status, 1);
    assert!(said.contains(&format!("sonde.volume can't be written: {message}")), "{said}");
}

#[test]
fn after_a_removed_lock_file_no_calibration_is_lost() {
    let folder = Folder::new();
    let (first, mut first_client) = prepared(&folder);
    fs::remove_file(folder.path("sonde.volume.lock")).unwrap();
    let second = folder.serve("--clock 1767178241");
    let mut second_client = second.client();
    prepare(&mut second_client);
    second_client.ask(&UPDATE, &UPDATE);
    stops(first, &mut first_client, "its lock file was removed or replaced");
    assert_eq!(folder.read("sonde.volume"), bytes(&calibrated()));
    second_client.ask(&UPDATE, &UPDATE);
    assert_eq!(folder.read("sonde.volume"), bytes(&updated(2)));
}

#[test]
fn a_file_that_another_program_changed_is_not_overwritten() {
    let changed = "another program has changed it, and nothing is overwritten";
    let other = bytes(&updated(2));
    let folder = Folder::new();
    let (server, mut client) = prepared(&folder);
    folder.write("sonde.volume", &other); // the same file with another content
    stops(server, &mut client, changed);
    assert_eq!(folder.read("sonde.volume"), other);

    let folder = Folder::new();
    let (server, mut client) = prepared(&folder);
    folder.write("copy", bytes(&begun())); // another file with the same content
    fs::rename(folder.path("copy"), folder.path("sonde.volume")).unwrap();
    stops(server, &mut client, changed);
    assert_eq!(folder.read("sonde.volume"), bytes(&begun()));
}

#[test]
fn a_file_that_is_gone_is_not_written_anew() {
    let folder = Folder::new();
    let (server, mut client) = prepared(&folder);
    fs::rename(folder.path("sonde.volume"), folder.path("moved")).unwrap();
    stops(server, &mut client, "what was last written isn't there");
    assert_eq!(folder.names(), ["moved", "sonde.volume.lock"]);

    let folder = Folder::new();
    let (server, mut client) = prepared(&folder);
    fs::remove_file(folder.path("sonde.volume")).unwrap();
    make_fifo(&folder, "sonde.volume");
    stops(server, &mut client, "what was last written isn't there (it is no regular file)");
}

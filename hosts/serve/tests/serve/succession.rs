//! A full journal, and the volume that goes on from it.

use crate::harness::Folder;
use crate::worked::{begun, bytes, prepare, updated, FULL, START, UPDATE};
use std::os::unix::fs::symlink;

/// A volume whose opening is sensor 1's calibration after `updated`: constant 1.25 at 0x69550001.
fn succeeding(entries: usize) -> Vec<u16> {
    let mut words = begun();
    words.resize(64 + 24 * entries, 0);
    words[1] = entries as u16;
    words[18..20].copy_from_slice(&[0x3FA0, 0]);
    words[40..42].copy_from_slice(&[0x6955, 0x0001]);
    words
}

fn is_told(said: &str, times: usize) {
    let told = said
        .lines()
        .filter(|line| line.contains("the journal is full, with 3 entries"))
        .count();
    assert_eq!(told, times, "{said}");
    for word in ["0xC0", "/sonde.volume --new-volume FILE"] {
        assert_eq!(said.matches(word).count(), times, "{said}");
    }
}

#[test]
fn a_full_journal_says_what_to_do() {
    let folder = Folder::new();
    let server = folder.serve(START);
    let mut client = server.client();
    prepare(&mut client);
    for _ in 0..3 {
        client.ask(&UPDATE, &UPDATE); // the third fills the journal: told
    }
    client.ask(&UPDATE, &FULL); // told to the technician who meets it, once
    client.ask(&UPDATE, &FULL);
    is_told(&server.stop("TERM").1, 2);
    is_told(&folder.serve("").stop("TERM").1, 1); // and at a start
}

#[test]
fn a_new_volume_goes_on_from_the_full_one() {
    let folder = Folder::new();
    folder.write("sonde.volume", bytes(&updated(3)));
    let server = folder.serve("--new-volume second --entries 2 --clock 1767178241");
    let mut client = server.client();
    assert_eq!(folder.read("second"), bytes(&succeeding(2)));
    client.ask(&[1, 3, 0, 7, 0, 2], &[1, 3, 4, 0, 2, 0, 0]);
    client.ask(&[1, 3, 0, 112, 0, 2], &[1, 3, 4, 0x3F, 0xA0, 0, 0]);
    client.ask(&[1, 3, 0, 101, 0, 2], &[1, 3, 4, 0x69, 0x55, 0, 1]);
    prepare(&mut client);
    client.ask(&UPDATE, &UPDATE);
    let mut words = succeeding(2);
    words[2..9].copy_from_slice(&[1, 0, 1, 0, 0, 0, 1]);
    words[64..64 + 24].copy_from_slice(&updated(1)[64..64 + 24]);
    assert_eq!(folder.read("second"), bytes(&words));
    assert_eq!(folder.read("sonde.volume"), bytes(&updated(3)));

    // The old one isn't served beside it.
    let (status, said) = folder.refused("");
    assert_eq!(
        (status, said.as_str()),
        (1, "serve: the volume sonde.volume: another server has it\n")
    );
    assert_eq!(server.stop("TERM"), (0, String::new()));

    // From then on it is a volume like any other.
    let server = folder.serve("--volume second");
    server.client().ask(&[1, 3, 0, 7, 0, 2], &[1, 3, 4, 0, 2, 0, 1]);
}

#[test]
fn what_exists_is_not_begun_anew() {
    let folder = Folder::new();
    folder.write("sonde.volume", bytes(&updated(3)));
    folder.write("second", bytes(&updated(1)));
    symlink("nothing", folder.path("link")).unwrap();
    for (name, is_file) in [("second", true), ("link", false), ("sonde.volume", true), (".", false)] {
        let (status, said) = folder.refused(&format!("--new-volume {name}"));
        assert_eq!(status, 1, "{name}");
        let message = format!("serve: --new-volume {name}: it exists, and nothing is overwritten");
        let hint = if is_file {
            format!(". --volume {name} serves it")
        } else {
            String::new()
        };
        assert_eq!(said, format!("{message}{hint}\n"));
    }
    assert_eq!(folder.read("second"), bytes(&updated(1)));
    assert_eq!(folder.read("sonde.volume"), bytes(&updated(3)));
    assert_eq!(folder.names(), ["link", "second", "sonde.volume"]);
}

#[test]
fn without_a_volume_to_go_on_from_nothing_is_begun() {
    let folder = Folder::new();
    let (status, said) = folder.refused("--new-volume second");
    assert_eq!(status, 1);
    assert!(said.starts_with("serve: the volume sonde.volume: No such file"), "{said}");
    let mut damaged = updated(3);
    damaged[0] = 2;
    folder.write("sonde.volume", bytes(&damaged));
    let (status, said) = folder.refused("--new-volume second");
    assert_eq!(status, 1);
    assert!(
        said.starts_with("serve: the volume sonde.volume: power-up is refused with number 4"),
        "{said}"
    );
    folder.write("sonde.volume", bytes(&updated(3)));
    assert_eq!(folder.refused("--new-volume nowhere/second").0, 1);
    assert_eq!(folder.names(), ["sonde.volume"]);
}

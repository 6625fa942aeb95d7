use crate::harness::{framed, Folder};
use crate::worked::{begun, bytes, calibrated, prepare, START, UPDATE};
use std::fs;
use std::os::unix::fs::{symlink, MetadataExt, PermissionsExt};

#[test]
fn an_absent_volume_is_begun() {
    let folder = Folder::new();
    let server = folder.serve(START);
    assert_eq!(folder.read("sonde.volume"), bytes(&begun()));
    assert_eq!(server.stop("TERM").0, 0);
    assert_eq!(folder.read("sonde.volume"), bytes(&begun()));
}

#[test]
fn a_calibration_is_in_the_file_when_its_reply_comes() {
    let folder = Folder::new();
    let server = folder.serve(START);
    let mut client = server.client();
    prepare(&mut client);
    assert_eq!(folder.read("sonde.volume"), bytes(&begun()));
    client.ask(&UPDATE, &UPDATE);
    assert_eq!(folder.read("sonde.volume"), bytes(&calibrated()));
    assert_eq!(folder.names(), ["sonde.volume", "sonde.volume.lock"]);
}

#[test]
fn a_calibration_for_all_addresses_is_in_the_file_too() {
    let folder = Folder::new();
    let server = folder.serve(START);
    let mut client = server.client();
    prepare(&mut client);
    client.send(&framed(&[0, 6, 0, 105, 0xE0, 0x01]));
    client.hears_nothing();
    assert_eq!(folder.read("sonde.volume"), bytes(&calibrated()));
}

#[test]
fn a_restart_keeps_the_calibration() {
    let folder = Folder::new();
    folder.write("archive", bytes(&calibrated()));
    let server = folder.serve("--volume archive --entries 7 --address 9");
    let mut client = server.client();
    client.ask(&[9, 3, 0, 7, 0, 2], &[9, 3, 4, 0, 3, 0, 1]); // capacity and entries in use are the file's
    client.ask(&[9, 3, 0, 101, 0, 2], &[9, 3, 4, 0x69, 0x55, 0, 1]);
    client.ask(&[9, 3, 0, 110, 0, 4], &[9, 3, 8, 0, 0, 0, 0, 0x3F, 0xA0, 0, 0]);
    assert_eq!(server.stop("INT").0, 0);
    assert_eq!(folder.read("archive"), bytes(&calibrated()));
}

#[test]
fn a_file_that_is_no_volume_is_refused_and_stays() {
    let folder = Folder::new();
    let whole = bytes(&calibrated());
    let mut damaged = whole.clone();
    damaged[2 * (64 + 8)] ^= 1; // a coefficient that its points don't give
    let mut swapped = whole.clone();
    swapped.chunks_exact_mut(2).for_each(|pair| pair.swap(0, 1));
    for (content, message) in [
        (damaged, "power-up is refused with number 4"),
        (swapped, "power-up is refused with number 4"),
        (whole[..whole.len() - 2].to_vec(), "power-up is refused with number 4"),
        (
            whole[..whole.len() - 1].to_vec(),
            "the file has 271 bytes, which are no whole words",
        ),
        (whole[..174].to_vec(), "the file has 174 bytes; the least volume has 176"),
        (Vec::new(), "the file has 0 bytes"),
        (
            vec![0; (1 << 20) + 2],
            "the file has more than 1048576 bytes, the most that is read here",
        ),
    ] {
        folder.write("sonde.volume", &content);
        let (status, said) = folder.refused("");
        assert_eq!(status, 1, "{message}");
        assert!(said.contains(message), "{said}");
        assert_eq!(folder.read("sonde.volume"), content, "{message}");
        assert_eq!(folder.names(), ["sonde.volume"], "{message}");
    }
}

#[test]
fn a_volume_may_be_longer_than_its_journal() {
    let folder = Folder::new();
    let mut words = begun();
    words[1] = 1000;
    words.resize(24064 + 100, 0x5A5A);
    folder.write("sonde.volume", bytes(&words));
    let server = folder.serve("--clock 1767178241");
    let mut client = server.client();
    prepare(&mut client);
    client.ask(&UPDATE, &UPDATE);
    let mut expected = calibrated()[..64 + 24].to_vec();
    expected[1] = 1000;
    expected.extend(&words[64 + 24..]);
    assert_eq!(folder.read("sonde.volume"), bytes(&expected));
    assert_eq!(server.stop("TERM"), (0, String::new()));
}

#[test]
fn entries_of_a_file_that_is_there_have_no_effect() {
    let folder = Folder::new();
    let said = |server: crate::harness::Server| server.stop("TERM").1;
    assert_eq!(said(folder.serve(START)), "");
    assert_eq!(said(folder.serve("")), "");
    let message = "serve: --entries has no effect: sonde.volume is there, with room for 3\n";
    assert_eq!(said(folder.serve("--entries 9")), message);
    assert_eq!(folder.read("sonde.volume"), bytes(&begun()));
}

#[test]
fn a_volume_has_one_server_by_whatever_name() {
    let folder = Folder::new();
    let server = folder.serve(START);
    symlink("sonde.volume", folder.path("link")).unwrap();
    for volume in ["sonde.volume", "link", "./sonde.volume"] {
        let (status, said) = folder.refused(&format!("--volume {volume}"));
        assert_eq!((status, said), (1, format!("serve: the volume {volume}: another server has it\n")));
    }
    drop(server);
    folder.serve(START);
}

#[test]
fn a_volume_keeps_its_link_and_its_permissions() {
    let folder = Folder::new();
    folder.write("kept", bytes(&begun()));
    fs::set_permissions(folder.path("kept"), fs::Permissions::from_mode(0o640)).unwrap();
    symlink("kept", folder.path("sonde.volume")).unwrap();
    let server = folder.serve(START);
    let mut client = server.client();
    prepare(&mut client);
    client.ask(&UPDATE, &UPDATE);
    assert!(folder.path("sonde.volume").is_symlink());
    assert_eq!(folder.read("kept"), bytes(&calibrated()));
    assert_eq!(fs::metadata(folder.path("kept")).unwrap().permissions().mode() & 0o777, 0o640);
}

#[test]
fn a_volume_keeps_its_owner() {
    let folder = Folder::new();
    folder.write("sonde.volume", bytes(&begun()));
    let given = std::os::unix::fs::chown(folder.path("sonde.volume"), Some(12345), Some(12346)).is_ok(); // by root
    let owner = || {
        fs::metadata(folder.path("sonde.volume"))
            .map(|found| (found.uid(), found.gid()))
            .unwrap()
    };
    let before = owner();
    assert_eq!(given, before == (12345, 12346));
    let server = folder.serve("");
    let mut client = server.client();
    prepare(&mut client);
    client.ask(&UPDATE, &UPDATE);
    assert_eq!(owner(), before);
}

#[test]
fn without_an_archive_there_is_no_reply() {
    let folder = Folder::new();
    folder.write("sonde.volume", bytes(&begun()));
    let mut server = folder.serve_on_full_disk("");
    let mut client = server.client();
    prepare(&mut client);
    client.send(&framed(&UPDATE));
    client.hears_nothing();
    let (status, said) = server.ended();
    assert_eq!(status, 1);
    assert!(said.contains("sonde.volume can't be written: File too large"), "{said}");
    assert!(said.contains("the calibration is not in it"), "{said}");
    assert_eq!(folder.read("sonde.volume"), bytes(&begun()));
    assert_eq!(folder.names(), ["sonde.volume", "sonde.volume.lock"]);
}

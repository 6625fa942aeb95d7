//! The technician's number: register 9, the entries that name it, and what the server says of it.

use crate::harness::{framed, Client, Folder};
use crate::worked::{bytes, prepare, updated, START, UPDATE};

/// The worked volume, with the technicians whom its entries name.
fn named(technicians: &[u16]) -> Vec<u16> {
    let mut words = updated(technicians.len() as u16);
    for (i, technician) in technicians.iter().enumerate() {
        words[64 + 24 * i + 3] = *technician;
    }
    words
}

fn gives(client: &mut Client, number: u16) {
    let [high, low] = number.to_be_bytes();
    let body = [1, 6, 0, 9, high, low];
    client.ask(&body, &body);
}

fn shows(client: &mut Client, number: u16) {
    let [high, low] = number.to_be_bytes();
    client.ask(&[1, 3, 0, 9, 0, 1], &[1, 3, 2, high, low]);
}

#[test]
fn entries_name_their_technicians() {
    let folder = Folder::new();
    let server = folder.serve(START);
    let mut client = server.client();
    shows(&mut client, 0);
    gives(&mut client, 7);
    prepare(&mut client);
    shows(&mut client, 7);
    client.ask(&UPDATE, &UPDATE);
    assert_eq!(folder.read("sonde.volume"), bytes(&named(&[7])));
    gives(&mut client, 65535);
    client.ask(&UPDATE, &UPDATE);
    assert_eq!(folder.read("sonde.volume"), bytes(&named(&[7, 65535])));
}

#[test]
fn a_number_alone_is_not_kept_in_the_file() {
    let folder = Folder::new();
    folder.write("sonde.volume", bytes(&named(&[7, 65535])));
    let server = folder.serve("--clock 1767178241");
    let mut client = server.client();
    shows(&mut client, 0);
    gives(&mut client, 8);
    assert_eq!(server.stop("TERM").0, 0);
    assert_eq!(folder.read("sonde.volume"), bytes(&named(&[7, 65535])));

    // The restart has made it 0.
    let server = folder.serve("--clock 1767178241");
    let mut client = server.client();
    prepare(&mut client);
    client.ask(&UPDATE, &UPDATE);
    assert_eq!(folder.read("sonde.volume"), bytes(&named(&[7, 65535, 0])));
}

#[test]
fn verbose_names_the_technician_of_a_calibration() {
    let folder = Folder::new();
    let server = folder.serve(&format!("{START} --verbose"));
    let mut client = server.client();
    prepare(&mut client);
    client.ask(&UPDATE, &UPDATE);
    gives(&mut client, 7);
    client.ask(&UPDATE, &UPDATE);
    gives(&mut client, 65535);
    client.send(&framed(&[0, 6, 0, 105, 0xE0, 0x01]));
    client.hears_nothing();
    let (_, said) = server.stop("TERM");
    let lines: Vec<&str> = said.lines().filter(|line| line.contains("technician")).collect();
    let expected = [
        "(calibration journalled, technician not given, entries in use: 1)",
        "(calibration journalled, technician 7, entries in use: 2)",
        "no reply (calibration journalled, technician 65535, entries in use: 3)",
    ];
    assert_eq!(lines.len(), expected.len(), "{said}");
    for (line, end) in lines.iter().zip(expected) {
        assert!(line.ends_with(end), "{said}");
    }
}

/// tests/archive says how it came about.
const BEFORE: &[u8] = include_bytes!("../../../../tests/archive/before-technician.volume");

#[test]
fn a_volume_from_before_technicians_is_served() {
    let folder = Folder::new();
    folder.write("sonde.volume", BEFORE);
    let message = "sonde.volume: a valid volume; 11 of 12 entries are in use\n";
    assert_eq!(folder.run("--check sonde.volume"), (0, message.to_string(), String::new()));
    let server = folder.serve("--clock 1767178241 --verbose");
    let mut client = server.client();
    shows(&mut client, 0);
    gives(&mut client, 7);
    prepare(&mut client);
    client.ask(&UPDATE, &UPDATE);
    let (_, said) = server.stop("TERM");
    assert!(
        said.contains("(calibration journalled, technician 7, entries in use: 12)"),
        "{said}"
    );
    let technicians: Vec<u8> = folder.read("sonde.volume")[2 * 64..].chunks(2 * 24).map(|entry| entry[7]).collect();
    assert_eq!(technicians, [0, 0, 0, 0, 0, 0, 0, 0, 0, 0, 0, 7]);
}

#[test]
fn a_volume_may_name_any_technicians() {
    let folder = Folder::new();
    folder.write("archive", bytes(&named(&[1, 0x8000, 0xFFFF])));
    let message = "archive: a valid volume; 3 of 3 entries are in use\n";
    assert_eq!(folder.run("--check archive"), (0, message.to_string(), String::new()));
}

//! A radio line beside the serial line: one sonde and one journal on both.

use crate::echo::{HANDS_BACK, VERSION};
use crate::harness::{framed, in_ascii, Client, Folder, Server, PAUSE};
use crate::worked::{bytes, calibrated, prepare, updated, START, UPDATE};
use serve::framing::shown;
use serve::line::PATIENCE;
use serve::sys::open_pty;
use sonde::Framing;
use std::os::unix::fs::symlink;
use std::thread::sleep;
use std::time::{Duration, Instant};

/// Registers 4 to 6: good, bad, exceptions.
const COUNTERS: [u8; 6] = [1, 3, 0, 4, 0, 3];
/// The device's id.
const DEVICE: ([u8; 6], [u8; 5]) = ([1, 3, 0, 1, 0, 1], [1, 3, 2, 0, 1]);
/// Capacity and entries in use of a volume for 3, with none.
const JOURNAL: ([u8; 6], [u8; 7]) = ([1, 3, 0, 7, 0, 2], [1, 3, 4, 0, 3, 0, 0]);

/// A server of both lines, and a client on each.
fn both(words: &str) -> (Folder, Server, Client, Client) {
    let folder = Folder::new();
    let mut server = folder.serve(&format!("--radio {words}"));
    let serial = server.client();
    let radio = Client::open(&server.radio());
    (folder, server, serial, radio)
}

/// The same on two devices, of which the clients have the other ends.
fn both_on_devices(words: &str) -> (Folder, Server, Client, Client) {
    let folder = Folder::new();
    let [(serial, device), (radio, radio_device)] = [(); 2].map(|()| open_pty().unwrap());
    let (device, radio_device) = (device.display(), radio_device.display());
    let server = folder.serve(&format!("--device {device} --radio --radio-device {radio_device} {words}"));
    (folder, server, Client(serial), Client(radio))
}

/// A whole frame of so many bytes, of a function that isn't served: code 1.
fn of_length(length: usize) -> Vec<u8> {
    let mut body = vec![0; length - 2];
    body[..2].copy_from_slice(&[1, 0x44]);
    framed(&body)
}

#[test]
fn each_line_gets_the_replies_to_its_own_requests() {
    let (_folder, server, mut serial, mut radio) = both("--entries 3");
    serial.send(&framed(&VERSION.0));
    radio.send(&framed(&JOURNAL.0));
    serial.hears(&framed(&VERSION.1));
    radio.hears(&framed(&JOURNAL.1));
    serial.send(&framed(&JOURNAL.0));
    serial.hears(&framed(&JOURNAL.1));
    radio.hears_nothing();
    radio.ask(&VERSION.0, &VERSION.1);
    serial.hears_nothing();
    assert_eq!(server.stop("TERM"), (0, String::new()));
}

#[test]
fn without_it_there_is_one_line() {
    let folder = Folder::new();
    let mut server = folder.serve("");
    server.signal("TERM");
    assert_eq!(server.radio().as_os_str(), "");
}

#[test]
fn a_calibration_goes_on_from_line_to_line() {
    let (folder, server, mut serial, mut radio) = both(START);
    prepare(&mut serial);
    radio.ask(&[1, 3, 0, 105, 0, 2], &[1, 3, 4, 0, 1, 0, 1]); // mode on, method 1
    radio.ask(&UPDATE, &UPDATE);
    assert_eq!(folder.read("sonde.volume"), bytes(&calibrated()));
    serial.ask(&[1, 3, 0, 110, 0, 4], &[1, 3, 8, 0, 0, 0, 0, 0x3F, 0xA0, 0, 0]);
    serial.ask(&UPDATE, &UPDATE);
    assert_eq!(folder.read("sonde.volume"), bytes(&updated(2)));
    radio.send(&framed(&[0, 6, 0, 105, 0xE0, 0x01])); // to all, and so without a reply
    radio.hears_nothing();
    serial.ask(&[1, 3, 0, 7, 0, 2], &[1, 3, 4, 0, 3, 0, 3]);
    assert_eq!(folder.read("sonde.volume"), bytes(&updated(3)));
    assert_eq!(server.stop("TERM").0, 0);
    let valid = "sonde.volume: a valid volume; 3 of 3 entries are in use\n";
    assert_eq!(folder.run("--check sonde.volume"), (0, valid.to_string(), String::new()));
}

#[test]
fn of_the_radio_frames_over_64_bytes_are_bad() {
    let (_folder, _server, mut serial, mut radio) = both("");
    radio.exchange(&of_length(64), &framed(&[1, 0xC4, 1]));
    for length in [65, 256, 600] {
        radio.send(&of_length(length));
        radio.hears_nothing();
    }
    radio.ask(&COUNTERS, &[1, 3, 6, 0, 1, 0, 3, 0, 1]);
    serial.exchange(&of_length(65), &framed(&[1, 0xC4, 1]));
    serial.exchange(&of_length(256), &framed(&[1, 0xC4, 1]));
}

#[test]
fn of_the_radio_a_read_of_30_registers_is_code_3() {
    let (_folder, _server, mut serial, mut radio) = both("");
    for (count, code) in [(29, 2), (30, 3), (125, 3), (126, 3)] {
        radio.ask(&[1, 3, 0, 0, 0, count], &[1, 0x83, code]); // from register 10 on some are absent
    }
    for (count, code) in [(29, 2), (30, 2), (125, 2), (126, 3)] {
        serial.ask(&[1, 3, 0, 0, 0, count], &[1, 0x83, code]);
    }
    // the longest reply that there is
    for client in [&mut serial, &mut radio] {
        client.send(&framed(&[1, 3, 0, 130, 0, 24]));
        let reply = client.receive(53, Duration::from_secs(10));
        assert_eq!((reply.len(), &reply[..3]), (53, &[1, 3, 48][..]));
        assert_eq!(framed(&reply[..51]), reply);
    }
}

#[test]
fn the_radio_is_rtu_beside_an_ascii_line() {
    let (folder, server, mut serial, mut radio) = both(&format!("--ascii {START}"));
    serial.ask_in_ascii(&VERSION.0, &VERSION.1);
    prepare(&mut radio);
    serial.ask_in_ascii(&UPDATE, &UPDATE);
    assert_eq!(folder.read("sonde.volume"), bytes(&calibrated()));
    radio.send(&in_ascii(&VERSION.0)); // bad
    radio.hears_nothing();
    serial.send(&framed(&VERSION.0)); // no frame
    serial.hears_nothing();
    radio.ask(&COUNTERS, &[1, 3, 6, 0, 6, 0, 1, 0, 0]); // the good frames of both lines
    assert_eq!(server.stop("TERM"), (0, String::new()));
}

#[test]
fn many_requests_on_both_lines_at_once() {
    let (_folder, server, mut serial, mut radio) = both("--ascii --entries 3");
    std::thread::scope(|scope| {
        scope.spawn(|| (0..300).for_each(|_| radio.ask(&JOURNAL.0, &JOURNAL.1)));
        for _ in 0..30 {
            serial.send(&in_ascii(&VERSION.0).repeat(30)); // all at once
            serial.hears(&in_ascii(&VERSION.1).repeat(30));
        }
    });
    assert_eq!(server.stop("TERM"), (0, String::new()));
}

#[test]
fn verbose_says_by_which_line_a_frame_came() {
    let (_folder, server, mut serial, mut radio) = both("--verbose --clock 7");
    radio.ask(&VERSION.0, &VERSION.1);
    serial.ask(&[1, 3, 0x25, 0, 0, 1], &[1, 0x83, 2]);
    for (client, command) in [(&mut serial, 0), (&mut radio, 1)] {
        let body = [1, 6, 0, 105, 0xE0, command];
        client.ask(&body, &body);
    }
    let (_, said) = server.stop("TERM");
    let lines: Vec<&str> = said
        .lines()
        .map(|line| line.strip_prefix("serve: 1970-01-01T00:00:07Z 7 ").unwrap())
        .collect();
    assert_eq!(lines[0], "radio > 01 03 00 00 00 01 84 0A < 01 03 02 00 03 F8 45");
    assert_eq!(lines[1], "serial > 01 03 25 00 00 01 8F 06 < 01 83 02 C0 F1 (exception 0x02)");
    assert!(lines[2].starts_with("serial > 01 06 00 69 E0 00 "), "{said}");
    assert!(lines[3].starts_with("radio > 01 06 00 69 E0 01 "), "{said}");
    assert!(
        lines[3].ends_with(" (calibration journalled, technician not given, entries in use: 1)"),
        "{said}"
    );
    assert_eq!(lines.len(), 4);
}

/// The silence of each line is its own, and is measured from its own last byte.
#[test]
fn traffic_on_one_line_joins_and_cuts_no_frames_of_the_other() {
    let (_folder, _server, mut serial, mut radio) = both("--radio-silence 3000");
    let frame = framed(&VERSION.0);
    let chatter = |client: &mut Client| {
        let start = Instant::now();
        while start.elapsed() < PAUSE {
            client.ask(&VERSION.0, &VERSION.1);
        }
    };
    radio.send(&frame[..4]);
    chatter(&mut serial);
    radio.send(&frame[4..]);
    radio.hears(&framed(&VERSION.1));

    let (_folder, _server, mut serial, mut radio) = both("--silence 3000");
    radio.send(&frame[..4]);
    serial.send(&frame[..4]);
    sleep(PAUSE);
    radio.send(&frame[4..]); // two bad frames
    radio.hears_nothing();
    chatter(&mut radio);
    serial.send(&frame[4..]);
    serial.hears(&framed(&VERSION.1));
}

#[test]
fn a_reply_that_a_client_left_is_forgotten_whatever_the_other_line_does() {
    let (_folder, server, mut serial, mut radio) = both("");
    radio.send(&framed(&VERSION.0));
    let start = Instant::now();
    while start.elapsed() < PATIENCE + PAUSE {
        serial.ask(&VERSION.0, &VERSION.1);
        sleep(Duration::from_millis(20));
    }
    radio.ask(&JOURNAL.0, &[1, 3, 4, 3, 0xE8, 0, 0]);
    radio.hears_nothing();
    assert_eq!(server.stop("TERM"), (0, String::new()));
}

/// Two requests with a silence between them, which come on `other` while `one` waits for an echo that never comes.
fn answered_apart(one: &mut Client, other: &mut Client) {
    one.ask(&VERSION.0, &VERSION.1);
    sleep(PAUSE);
    other.send(&framed(&VERSION.0));
    sleep(PAUSE);
    other.send(&framed(&JOURNAL.0));
    other.hears(&[framed(&VERSION.1), framed(&[1, 3, 4, 3, 0xE8, 0, 0])].concat());
    other.hears_nothing();
}

#[test]
fn requests_are_heard_while_the_echo_of_the_other_line_is_waited_for() {
    let (_folder, server, mut serial, mut radio) = both("--echo");
    let start = Instant::now();
    answered_apart(&mut serial, &mut radio);
    assert!(start.elapsed() > PATIENCE); // the echo was waited for meanwhile
    let message = "serve: the line hands nothing back; it doesn't want --echo\n";
    assert_eq!(server.stop("TERM"), (0, message.to_string()));

    let (_folder, server, mut serial, mut radio) = both("--radio-echo");
    answered_apart(&mut radio, &mut serial);
    let message = "serve: radio line: the line hands nothing back; it doesn't want --radio-echo\n";
    assert_eq!(server.stop("TERM"), (0, message.to_string()));
}

/// At 300 baud a reply of 7 bytes takes 257 ms.
#[test]
fn requests_are_heard_while_a_reply_leaves_the_other_line() {
    let (_folder, server, mut serial, mut radio) = both_on_devices("--speed 300 --silence 600");
    serial.send(&framed(&VERSION.0));
    serial.hears(&framed(&VERSION.1)); // and 257 ms and the silence are waited for an echo
    for _ in 0..2 {
        radio.send(&framed(&VERSION.0));
        sleep(PAUSE);
    }
    radio.hears(&framed(&VERSION.1).repeat(2));
    assert_eq!(server.stop("TERM"), (0, String::new()));
}

/// Each reply on the serial line is followed by a wait for its echo, which never comes: frames of both lines wait together.
#[test]
fn frames_are_answered_in_the_order_in_which_they_ended() {
    let (_folder, server, mut serial, mut radio) = both("--ascii --echo --entries 3 --verbose --clock 7");
    serial.ask_in_ascii(&VERSION.0, &VERSION.1);
    radio.send(&framed(&DEVICE.0));
    sleep(PAUSE);
    serial.send(&[in_ascii(&JOURNAL.0), in_ascii(&VERSION.0)].concat());
    radio.hears(&framed(&DEVICE.1));
    serial.hears(&in_ascii(&JOURNAL.1));
    radio.ask(&JOURNAL.0, &JOURNAL.1);
    serial.hears(&in_ascii(&VERSION.1));
    let (_, said) = server.stop("TERM");
    let frames = said.lines().filter_map(|line| line.strip_prefix("serve: 1970-01-01T00:00:07Z 7 "));
    let answered: Vec<&str> = frames.map(|line| line.split(" < ").next().unwrap()).collect();
    let serial = |body| format!("serial > {}", shown(Framing::Ascii, &in_ascii(body)));
    let radio = |body| format!("radio > {}", shown(Framing::Rtu, &framed(body)));
    let expected = [
        serial(&VERSION.0),
        radio(&DEVICE.0),
        serial(&JOURNAL.0),
        serial(&VERSION.0),
        radio(&JOURNAL.0),
    ];
    assert_eq!(answered, expected);
}

#[test]
fn the_echo_of_the_radio_is_dropped_on_the_radio() {
    let (folder, server, mut serial, mut radio) = both(&format!("--radio-echo {START}"));
    prepare(&mut serial);
    radio.ask_with_echo(&UPDATE, &UPDATE);
    serial.ask(&[1, 3, 0, 7, 0, 2], &[1, 3, 4, 0, 3, 0, 1]);
    serial.ask(&UPDATE, &UPDATE); // the same bytes on the serial line are a request
    assert_eq!(folder.read("sonde.volume"), bytes(&updated(2)));
    radio.hears_nothing();
    assert_eq!(server.stop("TERM"), (0, String::new()));
}

#[test]
fn both_lines_may_be_devices() {
    let folder = Folder::new();
    let [(wire, device), (radio_wire, radio_device)] = [(); 2].map(|()| open_pty().unwrap());
    let words = format!("--device {} --radio --radio-device {}", device.display(), radio_device.display());
    let mut server = folder.serve(&words);
    assert_eq!((server.radio(), &server.path), (radio_device.clone(), &device));
    let (mut serial, mut radio) = (Client(wire), Client(radio_wire));
    serial.ask(&VERSION.0, &VERSION.1);
    radio.ask(&JOURNAL.0, &[1, 3, 4, 3, 0xE8, 0, 0]);
    drop(radio);
    let (status, said) = server.ended();
    assert_eq!(status, 1);
    assert!(
        said.starts_with(&format!("serve: the line {} failed: ", radio_device.display())),
        "{said}"
    );
}

/// 5 replies of 7 bytes at 300 baud, with 3.5 characters of silence before and after each.
#[test]
fn each_device_has_its_own_speed() {
    let (_folder, _server, mut serial, mut radio) = both_on_devices("--radio-speed 300");
    let time = |client: &mut Client| {
        let start = Instant::now();
        (0..5).for_each(|_| client.ask(&VERSION.0, &VERSION.1));
        start.elapsed()
    };
    assert!(time(&mut radio) > Duration::from_millis(2000));
    let shorter = (0..3).any(|_| time(&mut serial) < Duration::from_millis(500));
    assert!(shorter); // a busy machine may need more now and then
}

#[test]
fn a_device_of_the_radio_that_hands_back_is_told_with_its_option() {
    let (_folder, server, _serial, mut radio) = both_on_devices("--radio-speed 300 --radio-silence 600");
    radio.ask_with_echo(&VERSION.0, &VERSION.1);
    radio.ask_with_echo(&VERSION.0, &VERSION.1);
    let said = HANDS_BACK
        .replace("serve: ", "serve: radio line: ")
        .replace("--echo", "--radio-echo");
    assert_eq!(server.stop("TERM"), (0, said));
}

#[test]
fn both_lines_may_have_links() {
    let folder = Folder::new();
    let server = folder.serve("--link serial --radio --radio-link radio");
    for name in ["serial", "radio"] {
        Client::open(&folder.path(name)).ask(&VERSION.0, &VERSION.1);
    }
    assert_ne!(
        folder.path("serial").read_link().unwrap(),
        folder.path("radio").read_link().unwrap()
    );
    assert_eq!(server.stop("TERM"), (0, String::new()));
    assert_eq!(folder.names(), ["sonde.volume", "sonde.volume.lock"]);
}

#[test]
fn options_of_the_radio_that_do_not_fit_are_told_and_nothing_is_begun() {
    let folder = Folder::new();
    for (words, message) in [
        ("--radio-speed 9600", "--radio-speed is for the radio line, and there is no --radio"),
        (
            "--radio --radio-link a --radio-device b",
            "--radio-link names a pseudo-terminal, and --radio-device is none",
        ),
        ("--radio --device a --radio-rs485 low", "--radio-rs485 is for a --radio-device"),
        ("--radio --device a --radio-device a", "--device and --radio-device are the same"),
        ("--radio --link a --radio-link a", "--link and --radio-link are the same"),
        (
            "--radio --radio-silence 0",
            "--radio-silence 0: that is no whole number from 1 to 10000",
        ),
        ("--radio --radio-data-bits 8", "there is no option --radio-data-bits"),
    ] {
        let (status, said) = folder.refused(words);
        assert_eq!(status, 2, "{words}");
        assert_eq!(said, format!("serve: {message}; --help lists the options\n"));
    }
    assert!(folder.names().is_empty());
}

#[test]
fn a_device_or_a_link_has_one_line_by_whatever_name() {
    let folder = Folder::new();
    let (_wire, device) = open_pty().unwrap();
    symlink(&device, folder.path("device")).unwrap();
    let (status, said) = folder.refused(&format!("--device {} --radio --radio-device device", device.display()));
    assert_eq!(
        (status, said.as_str()),
        (1, "serve: the device device can't be used: another server has it\n")
    );
    let (status, said) = folder.refused("--link line --radio --radio-link ./line");
    assert_eq!(
        (status, said.as_str()),
        (1, "serve: the link ./line can't be made: another server has it\n")
    );
    assert_eq!(folder.names(), ["device"]);
}

//! Modbus ASCII: frames go from a colon to LF, whatever the pauses.

use crate::harness::{framed, in_ascii, Client, Folder, Server, PAUSE};
use crate::worked::{begun, bytes, calibrated, preparation, updated, FULL, START, UPDATE};
use serve::line::PATIENCE;
use serve::sys::open_pty;
use std::thread::sleep;
use std::time::{Duration, Instant};

/// Registers 4 to 6: good, bad, exceptions.
const COUNTERS: [u8; 6] = [1, 3, 0, 4, 0, 3];
/// The version of the map, and its reply.
const ASKED: &[u8] = b":010300000001FB\r\n";
const VERSION: &[u8] = b":0103020003F7\r\n";
/// Register 0x2500, which is in no map, and its reply.
const ABSENT: &[u8] = b":010325000001D6\r\n";
const REFUSED: &[u8] = b":0183027A\r\n";

fn started(words: &str) -> (Folder, Server, Client) {
    let folder = Folder::new();
    let server = folder.serve(&format!("--ascii {words}"));
    let client = server.client();
    (folder, server, client)
}

fn counted(client: &mut Client, good: u8, bad: u8, exceptions: u8) {
    client.ask_in_ascii(&COUNTERS, &[1, 3, 6, 0, good, 0, bad, 0, exceptions]);
}

fn prepare(client: &mut Client) {
    for (body, expected) in preparation() {
        client.ask_in_ascii(&body, &expected);
    }
}

#[test]
fn requests_are_answered_in_ascii() {
    let (_folder, server, mut client) = started("");
    client.exchange(ASKED, VERSION);
    client.exchange(ABSENT, REFUSED);
    counted(&mut client, 2, 0, 1);
    client.send(&in_ascii(&[2, 3, 0, 0, 0, 1])); // another's
    client.hears_nothing();
    counted(&mut client, 3, 0, 1);
    assert_eq!(server.stop("TERM"), (0, String::new()));
}

#[test]
fn the_pieces_of_a_frame_may_come_with_pauses() {
    let (_folder, _server, mut client) = started("");
    for (piece, pause) in [(&ASKED[..1], PAUSE), (&ASKED[1..4], PATIENCE + PAUSE), (&ASKED[4..16], PAUSE)] {
        client.send(piece);
        assert_eq!(client.receive(1, pause), []);
    }
    client.exchange(&ASKED[16..], VERSION);
    for character in ASKED {
        client.send(&[*character]);
        sleep(Duration::from_millis(5)); // longer than RTU's silence
    }
    client.hears(VERSION);
    counted(&mut client, 2, 0, 0);
}

#[test]
fn a_colon_starts_anew() {
    let (_folder, _server, mut client) = started("");
    client.exchange(&[b":0103:", ASKED].concat(), VERSION);
    client.send(b":01030000");
    sleep(PAUSE);
    client.exchange(ASKED, VERSION);
    counted(&mut client, 2, 0, 0);
}

#[test]
fn what_stands_before_a_colon_is_dropped() {
    let (_folder, _server, mut client) = started("");
    client.exchange(&[b"\x00noise\r\n\n\xBA\xFF", ASKED, b"0103\r\n"].concat(), VERSION);
    client.send(&ASKED[1..]);
    client.hears_nothing();
    counted(&mut client, 1, 0, 0);
}

#[test]
fn frames_that_come_together_are_answered_in_order() {
    let (_folder, _server, mut client) = started("");
    client.send(&[ASKED, ABSENT, b":0104\r\n", ASKED, &ABSENT[..5]].concat());
    client.hears(&[VERSION, REFUSED, VERSION].concat());
    client.hears_nothing();
    client.exchange(&ABSENT[5..], REFUSED);
    counted(&mut client, 4, 1, 2);
}

/// Held up, an RTU line gives one bad frame; these are told apart by themselves.
#[test]
fn frames_that_came_while_the_server_was_held_up_are_answered() {
    let (_folder, server, mut client) = started("");
    server.signal("STOP");
    for _ in 0..50 {
        client.send(ASKED);
    }
    server.signal("CONT");
    client.hears(&VERSION.repeat(50));
    counted(&mut client, 50, 0, 0);
}

#[test]
fn a_frame_that_breaks_the_form_is_bad_and_gets_no_reply() {
    let (_folder, _server, mut client) = started("");
    let broken = [
        &b":010300000001fb\r\n"[..],
        b":010300000001FC\r\n",
        b":010300000001FB\n",
        b":010300000001FB\r\r\n",
        b":0103000000010FB\r\n",
        b":01030000000GFB\r\n",
        b":01030000000\xB1FB\r\n", // a digit with its top bit set
        b": 010300000001FB\r\n",
        b":010300000001FB\r \n",
        b":\r\n",
        b":\n",
    ];
    for (frame, bad) in broken.into_iter().zip(0u8..) {
        counted(&mut client, bad, bad, 0);
        client.send(frame);
        client.hears_nothing();
    }
    let count = broken.len() as u8;
    counted(&mut client, count, count, 0);
}

/// The longest good frame has 513 characters: 254 bytes and the LRC.
#[test]
fn an_over_long_frame_is_one_bad_frame_and_lf_ends_it() {
    let (_folder, _server, mut client) = started("");
    let of = |length| {
        let mut body = vec![0; length];
        body[..2].copy_from_slice(&[1, 0x44]); // another function: code 1
        in_ascii(&body)
    };
    assert_eq!(of(254).len(), 513);
    client.exchange(&of(254), &in_ascii(&[1, 0xC4, 1]));
    for length in [255, 256, 1500] {
        client.send(&of(length));
        client.hears_nothing();
    }
    counted(&mut client, 1, 3, 1);
    client.send(&of(1500)[..3000]); // not ended, and dropped by the next colon
    client.exchange(ASKED, VERSION);
    counted(&mut client, 3, 3, 1);
}

/// The most registers that stand together, 24: a reply of 107 characters, whose bytes and LRC add up to zero.
#[test]
fn a_long_reply_is_sent_whole() {
    let (_folder, _server, mut client) = started("");
    client.send(&in_ascii(&[1, 3, 0, 130, 0, 24]));
    let reply = client.receive(108, PAUSE);
    let carried = serve::framing::carried(sonde::Framing::Ascii, &reply);
    assert_eq!((reply.len(), carried.len(), &carried[..3]), (107, 52, &[1, 3, 48][..]));
    assert_eq!(carried.iter().fold(0, |sum: u8, byte| sum.wrapping_add(*byte)), 0);
}

#[test]
fn each_line_has_one_framing() {
    let (_folder, _server, mut client) = started("");
    client.send(&framed(&COUNTERS));
    client.hears_nothing();
    counted(&mut client, 0, 0, 0);

    let folder = Folder::new();
    let server = folder.serve("");
    let mut client = server.client();
    client.send(ASKED);
    client.hears_nothing();
    client.ask(&COUNTERS, &[1, 3, 6, 0, 0, 0, 1, 0, 0]);
}

#[test]
fn a_calibration_is_in_the_file_when_its_reply_comes() {
    let (folder, server, mut client) = started(START);
    prepare(&mut client);
    assert_eq!(folder.read("sonde.volume"), bytes(&begun()));
    client.ask_in_ascii(&UPDATE, &UPDATE);
    assert_eq!(folder.read("sonde.volume"), bytes(&calibrated()));
    client.send(&in_ascii(&[0, 6, 0, 105, 0xE0, 0x01])); // to all
    client.hears_nothing();
    assert_eq!(folder.read("sonde.volume"), bytes(&updated(2)));
    assert_eq!(server.stop("TERM"), (0, String::new()));
    // The same volume over RTU.
    folder.serve("").client().ask(&[1, 3, 0, 7, 0, 2], &[1, 3, 4, 0, 3, 0, 2]);
}

#[test]
fn a_calibration_that_cannot_be_kept_gets_no_reply() {
    let folder = Folder::new();
    folder.write("sonde.volume", bytes(&begun()));
    folder.write("sonde.volume.lock", "");
    let mut server = folder.serve_on_full_disk("--ascii --clock 1767178241");
    let mut client = server.client();
    prepare(&mut client);
    client.send(&in_ascii(&UPDATE));
    assert_eq!(server.ended().0, 1);
    assert_eq!(client.receive(1, PAUSE), []);
    assert_eq!(folder.read("sonde.volume"), bytes(&begun()));
}

#[test]
fn a_full_journal_is_told() {
    let (_folder, server, mut client) = started(START);
    prepare(&mut client);
    for _ in 0..3 {
        client.ask_in_ascii(&UPDATE, &UPDATE);
    }
    for _ in 0..2 {
        client.ask_in_ascii(&UPDATE, &FULL);
    }
    let (_, said) = server.stop("TERM");
    assert_eq!(said.matches("the journal is full, with 3 entries").count(), 2, "{said}");
    // when it becomes full, and when that is met
}

#[test]
fn verbose_shows_frames_as_text() {
    let (_folder, server, mut client) = started("--verbose --clock 1767225600");
    client.exchange(ASKED, VERSION);
    client.exchange(ABSENT, REFUSED);
    client.send(b"noise:01\x80\n");
    client.hears_nothing();
    for command in [0, 1] {
        let body = [1, 6, 0, 105, 0xE0, command];
        client.ask_in_ascii(&body, &body);
    }
    let (_, said) = server.stop("TERM");
    let lines: Vec<&str> = said
        .lines()
        .map(|line| line.strip_prefix("serve: 2026-01-01T00:00:00Z 1767225600 ").unwrap())
        .collect();
    assert_eq!(
        lines,
        [
            r"> :010300000001FB\r\n < :0103020003F7\r\n",
            r"> :010325000001D6\r\n < :0183027A\r\n (exception 0x02)",
            r"> :01\x80\n no reply",
            r"> :01060069E000B0\r\n < :01060069E000B0\r\n",
            r"> :01060069E001AF\r\n < :01060069E001AF\r\n (calibration journalled, technician not given, entries in use: 1)",
        ]
    );
}

#[test]
fn a_reply_that_a_client_left_is_not_given_to_the_next() {
    let (_folder, server, mut first) = started("");
    first.send(&[ABSENT, b":01"].concat()); // in the middle of the next frame
    drop(first);
    sleep(PATIENCE + PAUSE);
    let mut second = server.client();
    second.exchange(ASKED, VERSION);
    second.hears_nothing();
}

#[test]
fn a_signal_ends_it_with_frames_that_wait() {
    let folder = Folder::new();
    let (wire, device) = open_pty().unwrap();
    let server = folder.serve(&format!("--ascii --speed 300 --device {}", device.display()));
    let mut client = Client(wire);
    client.send(&ASKED.repeat(28)); // half a second for each reply, and they are read together
    client.hears(VERSION);
    server.signal("TERM");
    let rest = client.receive(27 * VERSION.len(), PATIENCE);
    assert!(rest.len() < 20 * VERSION.len(), "{}", rest.len());
    assert_eq!(server.stop("TERM"), (0, String::new()));
}

/// Stands in for a serial device: a pseudo-terminal that passes for one, and notes how it is set.
const DEVICE: &str = r#"
#define _GNU_SOURCE
#include <stdio.h>
#include <sys/stat.h>
#include <sys/syscall.h>
#include <termios.h>
#include <unistd.h>
int statx(int folder, const char *path, int flags, unsigned mask, struct statx *found) {
    int result = syscall(SYS_statx, folder, path, flags, mask, found);
    if (found->stx_rdev_major >= 136 && found->stx_rdev_major <= 143) found->stx_rdev_major = 4;
    return result;
}
int tcsetattr(int fd, int when, const struct termios *asked) {
    unsigned size = asked->c_cflag & CSIZE, parity = asked->c_cflag & (PARENB | PARODD);
    FILE *note = fopen("asked", "w");
    fprintf(note, "%s%s%d, checked %d, stripped %d", size == CS7 ? "7" : size == CS8 ? "8" : "?",
            parity == 0 ? "N" : parity == PARENB ? "E" : parity == (PARENB | PARODD) ? "O" : "?",
            asked->c_cflag & CSTOPB ? 2 : 1, !!(asked->c_iflag & INPCK), !!(asked->c_iflag & ISTRIP));
    return fclose(note);
}
"#;

#[test]
fn a_device_has_the_standards_character_or_the_one_that_is_given() {
    let folder = Folder::new();
    let stand_in = folder.stand_in(DEVICE);
    for (words, asked) in [
        ("", "8E1, checked 1"),
        ("--parity odd", "8O1, checked 1"),
        ("--parity none --data-bits 8", "8N2, checked 0"),
        ("--ascii", "7E1, checked 1"),
        ("--ascii --parity odd", "7O1, checked 1"),
        ("--ascii --parity none", "7N2, checked 0"),
        ("--data-bits 8 --ascii", "8E1, checked 1"),
        ("--ascii --data-bits 8 --parity none", "8N2, checked 0"),
    ] {
        let (_wire, device) = open_pty().unwrap();
        let server = folder.serve_with("LD_PRELOAD", &stand_in, &format!("--device {} {words}", device.display()));
        assert_eq!(server.stop("TERM"), (0, String::new()));
        let expected = format!("{asked}, stripped 0");
        assert_eq!(String::from_utf8(folder.read("asked")).unwrap(), expected, "{words}");
    }
}

/// A pseudo-terminal in the place of a device has bytes of 8 bits, and they go to the library as they are.
#[test]
fn a_device_is_served() {
    let folder = Folder::new();
    let (wire, device) = open_pty().unwrap();
    let server = folder.serve(&format!("--ascii --device {}", device.display()));
    let mut client = Client(wire);
    client.exchange(ASKED, VERSION);
    client.send(b":01030000000\xB1FB\r\n");
    client.hears_nothing();
    counted(&mut client, 1, 1, 0);
    client.send(&[ABSENT, ASKED].concat());
    client.hears(&[REFUSED, VERSION].concat());
    assert_eq!(server.stop("TERM"), (0, String::new()));
}

/// How long two requests take at 300 baud, of which the first has a reply of 107 characters. The second is answered 3.5 characters of 11 bits after it.
fn two_requests(words: &str) -> Duration {
    let folder = Folder::new();
    let (wire, device) = open_pty().unwrap();
    let _server = folder.serve(&format!("--ascii --speed 300 --device {} {words}", device.display()));
    let mut client = Client(wire);
    let start = Instant::now();
    client.send(&in_ascii(&[1, 3, 0, 130, 0, 24]));
    assert_eq!(client.receive(107, Duration::from_secs(10)).len(), 107);
    client.exchange(ABSENT, REFUSED);
    start.elapsed()
}

#[test]
fn the_time_of_a_reply_goes_by_its_characters() {
    let silence = Duration::from_millis(128);
    let [of_10_bits, of_11_bits] = [10, 11].map(|bits| Duration::from_secs(107 * bits) / 300 + silence);
    assert!(two_requests("--data-bits 8") >= of_11_bits);
    // A third of a second shorter, which a busy machine may need now and then.
    let shorter = |_| {
        let time = two_requests("");
        assert!(time >= of_10_bits);
        time < of_11_bits
    };
    assert!((0..3).any(shorter));
}

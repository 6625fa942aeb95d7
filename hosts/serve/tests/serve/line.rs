use crate::harness::{framed, Client, Folder, PAUSE};
use serve::line::PATIENCE;
use serve::sys::open_pty;
use std::thread::sleep;
use std::time::{Duration, Instant};

/// Registers 4 to 6: good, bad, exceptions.
const COUNTERS: [u8; 6] = [1, 3, 0, 4, 0, 3];
/// The version of the map.
const VERSION: ([u8; 6], [u8; 5]) = ([1, 3, 0, 0, 0, 1], [1, 3, 2, 0, 3]);

#[test]
fn halves_with_a_pause_between_are_two_bad_frames() {
    let folder = Folder::new();
    let server = folder.serve("");
    let mut client = server.client();
    let frame = framed(&VERSION.0);
    client.send(&frame[..4]);
    sleep(PAUSE);
    client.send(&frame[4..]);
    client.hears_nothing();
    client.ask(&COUNTERS, &[1, 3, 6, 0, 0, 0, 2, 0, 0]);
}

#[test]
fn halves_with_less_than_the_silence_between_are_one_good_frame() {
    let folder = Folder::new();
    let server = folder.serve("--silence 1000");
    let mut client = server.client();
    let frame = framed(&VERSION.0);
    client.send(&frame[..4]);
    sleep(Duration::from_millis(20));
    client.send(&frame[4..]);
    assert_eq!(client.receive(7, Duration::from_secs(10)), framed(&VERSION.1));
    client.ask(&COUNTERS, &[1, 3, 6, 0, 1, 0, 0, 0, 0]);
}

/// A line gives no time stamps: the limit that --help names.
#[test]
fn frames_that_came_while_the_server_was_held_up_are_one_bad_frame() {
    let folder = Folder::new();
    let server = folder.serve("");
    let mut client = server.client();
    server.signal("STOP");
    for _ in 0..2 {
        client.send(&framed(&VERSION.0));
        sleep(PAUSE);
    }
    server.signal("CONT");
    client.hears_nothing();
    client.ask(&COUNTERS, &[1, 3, 6, 0, 0, 0, 1, 0, 0]);
}

#[test]
fn the_silence_is_3_5_characters_of_the_speed() {
    let folder = Folder::new();
    let server = folder.serve("--speed 300");
    let mut client = server.client();
    let start = Instant::now();
    client.ask(&VERSION.0, &VERSION.1);
    assert!(start.elapsed() >= Duration::from_micros(128_333));
}

#[test]
fn a_long_burst_is_one_bad_frame() {
    let folder = Folder::new();
    let server = folder.serve("");
    let mut client = server.client();
    for length in [255, 3000] {
        client.send(&framed(&vec![1; length]));
        client.hears_nothing();
    }
    client.ask(&COUNTERS, &[1, 3, 6, 0, 0, 0, 2, 0, 0]);
}

#[test]
fn a_frame_of_256_bytes_is_answered() {
    let folder = Folder::new();
    let server = folder.serve("");
    let mut client = server.client();
    let mut body = [0; 254];
    body[..2].copy_from_slice(&[1, 0x44]); // another function: code 1
    client.ask(&body, &[1, 0xC4, 1]);
}

#[test]
fn frames_for_others_and_for_all_get_no_reply() {
    let folder = Folder::new();
    let server = folder.serve("--address 17");
    let mut client = server.client();
    client.send(&framed(&[18, 3, 0, 0, 0, 1]));
    client.hears_nothing();
    client.send(&framed(&[0, 16, 0, 103, 0, 2, 4, 1, 2, 3, 4])); // sensor 1's next calibration
    client.hears_nothing();
    client.ask(&[17, 3, 0, 103, 0, 2], &[17, 3, 4, 1, 2, 3, 4]);
}

#[test]
fn a_reply_that_a_client_left_is_not_given_to_the_next() {
    let folder = Folder::new();
    let server = folder.serve("");
    let mut first = server.client();
    first.send(&framed(&COUNTERS));
    drop(first);
    sleep(PATIENCE + PAUSE);
    let mut second = server.client();
    second.ask(&VERSION.0, &VERSION.1);
    second.hears_nothing();
}

#[test]
fn a_device_is_served_and_its_end_is_told() {
    let folder = Folder::new();
    let (wire, device) = open_pty().unwrap();
    let mut server = folder.serve(&format!("--device {} --speed 9600 --parity none", device.display()));
    assert_eq!(server.path, device);
    let mut client = Client(wire);
    client.ask(&VERSION.0, &VERSION.1);
    client.ask(&COUNTERS, &[1, 3, 6, 0, 1, 0, 0, 0, 0]);
    drop(client);
    let (status, said) = server.ended();
    assert_eq!(status, 1);
    assert!(said.contains(&format!("the line {} failed", device.display())), "{said}");
}

/// A pseudo-terminal has no parity, whatever is given, at the second start too.
#[test]
fn a_device_is_set_as_the_line_wants_it() {
    let folder = Folder::new();
    let (_wire, device) = open_pty().unwrap();
    let stty = |words: &[&str]| {
        let output = std::process::Command::new("stty")
            .arg("-F")
            .arg(&device)
            .args(words)
            .output()
            .unwrap();
        String::from_utf8(output.stdout).unwrap()
    };
    stty(&["cmspar", "ignpar", "ixoff", "ixany", "crtscts", "echo"]);
    for _ in 0..2 {
        let server = folder.serve(&format!("--device {}", device.display()));
        let set = stty(&["-a"]);
        for off in ["cmspar", "ignpar", "ixoff", "ixany", "crtscts", "echo", "icanon", "opost"] {
            assert!(
                set.split_whitespace().any(|word| word.trim_end_matches(';') == format!("-{off}")),
                "{off}: {set}"
            );
        }
        assert_eq!(server.stop("TERM"), (0, String::new()));
    }
}

/// Messages that nobody reads are dropped, and neither frames nor signals wait for them.
#[test]
fn a_standard_error_that_nobody_reads_holds_nothing_up() {
    let folder = Folder::new();
    let server = folder.serve("--verbose");
    let mut client = server.client();
    for _ in 0..1500 {
        client.ask(&VERSION.0, &VERSION.1); // about 90 bytes each, and a pipe takes 65536 at most
    }
    let (status, said) = server.stop("TERM");
    assert_eq!(status, 0);
    assert!((20..1000).contains(&said.lines().count()), "{}", said.lines().count());
}

#[test]
fn a_device_has_one_server_by_whatever_name() {
    let folder = Folder::new();
    let (wire, device) = open_pty().unwrap();
    let server = folder.serve(&format!("--device {} --parity none", device.display()));
    std::os::unix::fs::symlink(&device, folder.path("device")).unwrap();
    for name in [device.to_str().unwrap(), "device"] {
        let (status, said) = folder.refused(&format!("--device {name} --parity none --volume other"));
        assert_eq!(status, 1);
        assert_eq!(said, format!("serve: the device {name} can't be used: another server has it\n"));
    }
    assert_eq!(folder.names(), ["device", "sonde.volume", "sonde.volume.lock"]);
    let mut client = Client(wire);
    client.ask(&VERSION.0, &VERSION.1);
    assert_eq!(server.stop("TERM"), (0, String::new()));
}

/// Stands in for the kernel's driver, which a pseudo-terminal doesn't have: notes what it is asked for.
const DRIVER: &str = r#"
#include <stdarg.h>
#include <stdio.h>
#include <linux/serial.h>
#include <sys/ioctl.h>
#include <sys/syscall.h>
#include <unistd.h>
int ioctl(int fd, unsigned long request, ...) {
    va_list list;
    va_start(list, request);
    void *argument = va_arg(list, void *);
    va_end(list);
    if (request != TIOCSRS485) return syscall(SYS_ioctl, fd, request, argument);
    struct serial_rs485 *asked = argument;
    FILE *note = fopen("asked", "w");
    fprintf(note, "enabled %d, on send %d, after send %d, while sending %d, delays %u %u", !!(asked->flags & SER_RS485_ENABLED),
            !!(asked->flags & SER_RS485_RTS_ON_SEND), !!(asked->flags & SER_RS485_RTS_AFTER_SEND), !!(asked->flags & SER_RS485_RX_DURING_TX),
            asked->delay_rts_before_send, asked->delay_rts_after_send);
    return fclose(note);
}
"#;

#[test]
fn the_kernel_is_asked_to_switch_an_rs485_driver() {
    let folder = Folder::new();
    let driver = folder.stand_in(DRIVER);
    for (level, asked) in [("high", "on send 1, after send 0"), ("low", "on send 0, after send 1")] {
        let (_wire, device) = open_pty().unwrap();
        let words = format!("--device {} --parity none --rs485 {level}", device.display());
        let server = folder.serve_with("LD_PRELOAD", &driver, &words);
        assert_eq!(server.stop("TERM"), (0, String::new()));
        let expected = format!("enabled 1, {asked}, while sending 0, delays 0 0");
        assert_eq!(String::from_utf8(folder.read("asked")).unwrap(), expected);
    }
}

#[test]
fn a_device_without_an_rs485_driver_is_told() {
    let folder = Folder::new();
    let (_wire, device) = open_pty().unwrap();
    let (status, said) = folder.refused(&format!("--device {} --parity none --rs485 high", device.display()));
    assert_eq!(status, 1);
    assert!(
        said.contains("can't be used: the kernel can't switch its RS-485 driver (--rs485)"),
        "{said}"
    );
    assert!(folder.names().is_empty());
}

#[test]
fn signals_end_it_well() {
    for signal in ["INT", "TERM"] {
        let folder = Folder::new();
        let server = folder.serve("");
        let mut client = server.client();
        client.ask(&VERSION.0, &VERSION.1);
        client.send(&[1, 3]); // in the middle of a frame
        assert_eq!(server.stop(signal), (0, String::new()));
        assert_eq!(folder.names(), ["sonde.volume", "sonde.volume.lock"]);
    }
}

#[test]
fn verbose_says_what_was_done() {
    let folder = Folder::new();
    let server = folder.serve("--verbose --clock 1767225600");
    let mut client = server.client();
    client.ask(&VERSION.0, &VERSION.1);
    client.send(&[1, 3, 0, 0]);
    client.hears_nothing();
    client.ask(&[1, 6, 0, 105, 0xE0, 0x01], &[1, 0x86, 0x92]);
    client.ask(&[1, 6, 0, 105, 0xE0, 0x00], &[1, 6, 0, 105, 0xE0, 0x00]);
    client.ask(&[1, 6, 0, 105, 0xE0, 0x01], &[1, 6, 0, 105, 0xE0, 0x01]);
    let (_, said) = server.stop("TERM");
    let lines: Vec<&str> = said.lines().collect();
    assert_eq!(
        lines[0],
        "serve: 2026-01-01T00:00:00Z 1767225600 > 01 03 00 00 00 01 84 0A < 01 03 02 00 03 F8 45"
    );
    assert_eq!(lines[1], "serve: 2026-01-01T00:00:00Z 1767225600 > 01 03 00 00 no reply");
    assert!(lines[2].ends_with("(exception 0x92)"), "{said}");
    assert!(
        lines[4].ends_with("(calibration journalled, technician not given, entries in use: 1)"),
        "{said}"
    );
    assert_eq!(lines.len(), 5);
}

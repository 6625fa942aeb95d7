//! ASCII lines that hand back what they are given. The reply to an update is the update itself here too.

use crate::echo::{self, HANDS_BACK, SLOW_PAUSE, VERSION};
use crate::harness::{in_ascii, Client, Folder, Server, PAUSE};
use crate::worked::{bytes, calibrated, preparation, updated, START, UPDATE};
use std::thread::sleep;
use std::time::Duration;

/// Capacity and entries in use.
const JOURNAL: ([u8; 6], [u8; 7]) = ([1, 3, 0, 7, 0, 2], [1, 3, 4, 3, 0xE8, 0, 0]);
/// At 300 baud a reply of 17 characters takes 623 ms with 8 data bits: time enough for an echo on a busy machine.
const SLOW: &str = "--speed 300 --data-bits 8";

fn on_pty(words: &str) -> (Folder, Server, Client) {
    echo::on_pty(&format!("--ascii {words}"))
}

fn on_device(words: &str) -> (Folder, Server, Client) {
    echo::on_device(&format!("--ascii {words}"))
}

/// The reply goes back after so much time.
fn ask_with_echo(client: &mut Client, body: &[u8], expected: &[u8], late: Duration) {
    client.ask_in_ascii(body, expected);
    sleep(late);
    client.send(&in_ascii(expected));
}

fn prepare(client: &mut Client, late: Duration) {
    for (body, expected) in preparation() {
        ask_with_echo(client, &body, &expected, late);
    }
}

const AT_ONCE: Duration = Duration::ZERO;
/// Longer than 3.5 characters at 19200 baud, as from an adapter that holds bytes back.
const LATE: Duration = Duration::from_millis(30);

#[test]
fn the_echo_of_a_device_is_dropped_and_told_once() {
    let (folder, server, mut client) = on_device(&format!("{SLOW} {START}"));
    prepare(&mut client, AT_ONCE);
    for count in 1..=2 {
        ask_with_echo(&mut client, &UPDATE, &UPDATE, AT_ONCE); // the second time it is a client's, and served
        assert_eq!(client.receive(1, SLOW_PAUSE), []);
        assert_eq!(folder.read("sonde.volume"), bytes(&updated(count)));
    }
    assert_eq!(server.stop("TERM"), (0, HANDS_BACK.to_string()));
}

#[test]
fn without_an_echo_a_request_may_be_repeated_after_the_silence() {
    let (folder, server, mut client) = on_device(&format!("{SLOW} {START}"));
    for (body, expected) in preparation() {
        client.ask_in_ascii(&body, &expected);
    }
    for count in 1..=2 {
        client.ask_in_ascii(&UPDATE, &UPDATE);
        sleep(SLOW_PAUSE);
        assert_eq!(folder.read("sonde.volume"), bytes(&updated(count)));
    }
    assert_eq!(server.stop("TERM"), (0, String::new()));
}

#[test]
fn echo_waits_for_the_bytes_that_were_sent_and_drops_no_others() {
    let (folder, server, mut client) = on_pty(&format!("--echo {START}"));
    prepare(&mut client, AT_ONCE);
    client.ask_in_ascii(&UPDATE, &UPDATE);
    sleep(PAUSE); // an adapter may hold it back
    client.send(&in_ascii(&UPDATE)[..5]);
    sleep(LATE);
    client.send(&in_ascii(&UPDATE)[5..]);
    client.hears_nothing();
    assert_eq!(folder.read("sonde.volume"), bytes(&calibrated()));

    // Echo and next request together, and the other way round: only the echo goes.
    client.ask_in_ascii(&VERSION.0, &VERSION.1);
    client.send(&[in_ascii(&VERSION.1), in_ascii(&UPDATE)].concat());
    client.hears(&in_ascii(&UPDATE));
    client.send(&[in_ascii(&VERSION.0), in_ascii(&UPDATE)].concat());
    client.hears(&in_ascii(&VERSION.1));
    client.send(&in_ascii(&VERSION.1));
    client.hears_nothing();
    assert_eq!(folder.read("sonde.volume"), bytes(&updated(2)));
    assert_eq!(server.stop("TERM"), (0, String::new()));
}

#[test]
fn an_echo_that_was_cut_short_spoils_no_request() {
    let (_folder, server, mut client) = on_pty("--echo");
    let echo = in_ascii(&VERSION.1);
    for length in [1, 6, 14] {
        client.ask_in_ascii(&VERSION.0, &VERSION.1);
        client.send(&echo[..length]);
        sleep(LATE);
        ask_with_echo(&mut client, &JOURNAL.0, &JOURNAL.1, AT_ONCE);
    }
    client.ask_in_ascii(&[1, 3, 0, 4, 0, 3], &[1, 3, 6, 0, 6, 0, 0, 0, 0]); // six good frames, none bad
    assert_eq!(server.stop("TERM"), (0, String::new()));
}

#[test]
fn an_echo_that_was_spoilt_is_one_bad_frame() {
    let (_folder, server, mut client) = on_pty("--echo");
    let mut spoilt = in_ascii(&VERSION.1);
    spoilt[7] ^= 1;
    client.ask_in_ascii(&VERSION.0, &VERSION.1);
    client.send(&spoilt);
    sleep(LATE);
    ask_with_echo(&mut client, &JOURNAL.0, &JOURNAL.1, AT_ONCE);
    client.ask_in_ascii(&[1, 3, 0, 4, 0, 3], &[1, 3, 6, 0, 2, 0, 1, 0, 0]);
    let message = "serve: no echo of a reply has come; what came instead is taken for a request\n";
    assert_eq!(server.stop("TERM"), (0, message.to_string()));
}

#[test]
fn a_late_echo_of_a_read_is_known_by_its_shape() {
    let (folder, server, mut client) = on_device(START);
    ask_with_echo(&mut client, &VERSION.0, &VERSION.1, LATE);
    client.hears_nothing();
    prepare(&mut client, LATE); // from then on an echo is waited for
    ask_with_echo(&mut client, &UPDATE, &UPDATE, LATE);
    client.hears_nothing();
    assert_eq!(folder.read("sonde.volume"), bytes(&calibrated()));
    assert_eq!(server.stop("TERM"), (0, HANDS_BACK.to_string()));
}

#[test]
fn a_loop_of_late_echoes_is_cut() {
    let (_folder, server, mut client) = on_device("");
    let on = in_ascii(&[1, 6, 0, 105, 0xE0, 0x00]);
    client.send(&on);
    let mut loops = 0;
    while client.receive(on.len(), Duration::from_secs(1)) == on {
        loops += 1;
        assert!(loops < 100);
        sleep(LATE);
        client.send(&on);
    }
    assert!((10..40).contains(&loops), "{loops}"); // more where this machine was held up
    assert!(server.stop("TERM").1.contains("left out once"));
}

//! Lines that hand back what they are given. The reply to an update is the update itself: served again, it would fill the journal.

use crate::harness::{framed, Client, Folder, Server, PAUSE};
use crate::worked::{bytes, calibrated, preparation, prepare, updated, START, UPDATE};
use serve::sys::open_pty;
use std::process::Command;
use std::thread::sleep;
use std::time::Duration;

pub const VERSION: ([u8; 6], [u8; 5]) = ([1, 3, 0, 0, 0, 1], [1, 3, 2, 0, 3]);
/// Capacity and entries in use.
const JOURNAL: [u8; 6] = [1, 3, 0, 7, 0, 2];
/// At 300 baud a reply of 8 bytes takes 293 ms: with the silence, time enough for an echo on a busy machine.
const SLOW: &str = "--speed 300 --parity none --silence 600";
/// Longer than a reply and the silence, and longer than the silence before a reply.
pub const SLOW_PAUSE: Duration = Duration::from_millis(1500);

pub const HANDS_BACK: &str = "serve: the line hands back what is sent; it is dropped. --echo makes sure of it\n";

pub fn on_pty(words: &str) -> (Folder, Server, Client) {
    let folder = Folder::new();
    let server = folder.serve(words);
    let client = server.client();
    (folder, server, client)
}

/// The client has the other end of the wire.
pub fn on_device(words: &str) -> (Folder, Server, Client) {
    let folder = Folder::new();
    let (wire, device) = open_pty().unwrap();
    let server = folder.serve(&format!("--device {} {words}", device.display()));
    (folder, server, Client(wire))
}

fn prepare_with_echo(client: &mut Client) {
    for (body, expected) in preparation() {
        client.ask_with_echo(&body, &expected);
    }
}

#[test]
fn the_echo_of_a_device_is_dropped_and_told_once() {
    let (folder, server, mut client) = on_device(&format!("{SLOW} {START}"));
    prepare_with_echo(&mut client);
    for count in 1..=2 {
        client.ask_with_echo(&UPDATE, &UPDATE); // the second time it is a client's, and served
        assert_eq!(client.receive(1, SLOW_PAUSE), []);
        assert_eq!(folder.read("sonde.volume"), bytes(&updated(count)));
    }
    assert_eq!(server.stop("TERM"), (0, HANDS_BACK.to_string()));
}

#[test]
fn without_an_echo_a_request_may_be_repeated_after_the_silence() {
    let (folder, server, mut client) = on_device(&format!("{SLOW} {START}"));
    prepare(&mut client); // each differs from the reply before it, so none is taken for its echo
    for count in 1..=2 {
        client.ask(&UPDATE, &UPDATE);
        sleep(SLOW_PAUSE);
        assert_eq!(folder.read("sonde.volume"), bytes(&updated(count)));
    }
    assert_eq!(server.stop("TERM"), (0, String::new()));
}

#[test]
fn on_a_pseudo_terminal_a_request_may_be_repeated_at_once() {
    let (folder, _server, mut client) = on_pty(START);
    prepare(&mut client);
    client.ask(&UPDATE, &UPDATE);
    client.ask(&UPDATE, &UPDATE);
    assert_eq!(folder.read("sonde.volume"), bytes(&updated(2)));
}

#[test]
fn echo_waits_for_the_bytes_that_were_sent_and_drops_no_others() {
    let (folder, server, mut client) = on_pty(&format!("--echo {START}"));
    prepare_with_echo(&mut client);
    client.ask(&UPDATE, &UPDATE);
    sleep(PAUSE); // far longer than the silence: an adapter may hold it back
    client.send(&framed(&UPDATE)[..3]);
    sleep(Duration::from_millis(30));
    client.send(&framed(&UPDATE)[3..]);
    client.hears_nothing();
    assert_eq!(folder.read("sonde.volume"), bytes(&calibrated()));

    // Echo and next request together: only the echo goes.
    client.ask(&JOURNAL, &[1, 3, 4, 0, 3, 0, 1]);
    client.send(&[framed(&[1, 3, 4, 0, 3, 0, 1]), framed(&UPDATE)].concat());
    assert_eq!(client.receive(8, Duration::from_secs(10)), framed(&UPDATE));
    client.send(&framed(&UPDATE));
    sleep(PAUSE);
    assert_eq!(folder.read("sonde.volume"), bytes(&updated(2)));
    assert_eq!(server.stop("TERM"), (0, String::new()));
}

/// A client that asked again before the reply came is heard, and the echo behind its request is still dropped.
#[test]
fn echo_is_found_behind_a_request() {
    let (folder, server, mut client) = on_pty(&format!("--echo {START}"));
    prepare_with_echo(&mut client);
    client.ask(&UPDATE, &UPDATE);
    client.send(&[framed(&VERSION.0), framed(&UPDATE)].concat());
    assert_eq!(client.receive(7, Duration::from_secs(10)), framed(&VERSION.1));
    client.send(&framed(&VERSION.1));
    client.hears_nothing();
    assert_eq!(folder.read("sonde.volume"), bytes(&calibrated()));
    assert_eq!(server.stop("TERM"), (0, String::new()));
}

#[test]
fn an_echo_that_was_cut_short_spoils_no_request() {
    let (_folder, server, mut client) = on_pty("--echo");
    for length in [1, 4, 6] {
        client.ask(&VERSION.0, &VERSION.1);
        client.send(&framed(&VERSION.1)[..length]);
        sleep(Duration::from_millis(30));
        client.ask_with_echo(&JOURNAL, &[1, 3, 4, 3, 0xE8, 0, 0]);
    }
    client.ask_with_echo(&[1, 3, 0, 4, 0, 3], &[1, 3, 6, 0, 6, 0, 0, 0, 0]); // six good frames, none bad
    assert_eq!(server.stop("TERM"), (0, String::new()));
}

#[test]
fn an_echo_that_was_spoilt_is_one_bad_frame() {
    let (_folder, server, mut client) = on_pty("--echo");
    let mut spoilt = framed(&VERSION.1);
    spoilt[3] ^= 1;
    for echo in [&spoilt[..], &spoilt[1..]] {
        client.ask(&VERSION.0, &VERSION.1);
        client.send(echo);
        sleep(Duration::from_millis(30));
        client.ask_with_echo(&JOURNAL, &[1, 3, 4, 3, 0xE8, 0, 0]);
    }
    client.ask_with_echo(&[1, 3, 0, 4, 0, 3], &[1, 3, 6, 0, 4, 0, 2, 0, 0]);
    let message = "serve: no echo of a reply has come; what came instead is taken for a request\n";
    assert_eq!(server.stop("TERM"), (0, message.to_string()));
}

/// Without --echo, from an adapter that holds bytes back for longer than the silence.
const LATE: Duration = Duration::from_millis(30);

fn late(client: &mut Client, body: &[u8], expected: &[u8]) {
    client.ask(body, expected);
    sleep(LATE);
    client.send(&framed(expected));
}

#[test]
fn a_late_echo_of_a_read_is_known_by_its_shape() {
    let (folder, server, mut client) = on_device(START);
    late(&mut client, &VERSION.0, &VERSION.1);
    client.hears_nothing();
    for (body, expected) in preparation() {
        late(&mut client, &body, &expected); // from then on an echo is waited for
    }
    late(&mut client, &UPDATE, &UPDATE);
    client.hears_nothing();
    assert_eq!(folder.read("sonde.volume"), bytes(&calibrated()));
    assert_eq!(server.stop("TERM"), (0, HANDS_BACK.to_string()));
}

#[test]
fn a_loop_of_late_echoes_is_cut() {
    let (folder, server, mut client) = on_device(START);
    let on = [1, 6, 0, 105, 0xE0, 0x00];
    late(&mut client, &on, &on);
    let mut loops = 0;
    while client.receive(8, Duration::from_secs(1)) == framed(&on) {
        loops += 1;
        assert!(loops < 100);
        sleep(LATE);
        client.send(&framed(&on));
    }
    assert!((10..40).contains(&loops), "{loops}"); // more where this machine was held up
    for (body, expected) in &preparation()[1..] {
        late(&mut client, body, expected);
    }
    late(&mut client, &UPDATE, &UPDATE);
    client.hears_nothing();
    assert_eq!(folder.read("sonde.volume"), bytes(&calibrated()));
    let (_, said) = server.stop("TERM");
    let lines: Vec<&str> = said.lines().collect();
    assert!(lines[0].contains("left out once") && lines[0].contains("--echo"), "{said}");
    assert_eq!(lines[1], HANDS_BACK.trim_end());
    assert_eq!(lines.len(), 2);
}

#[test]
fn a_client_that_repeats_itself_has_one_frame_left_out() {
    let (_folder, server, mut client) = on_device("--silence 1");
    let on = framed(&[1, 6, 0, 105, 0xE0, 0x00]);
    let mut unanswered = 0;
    for _ in 0..40 {
        client.send(&on);
        while client.receive(8, Duration::from_secs(1)) != on {
            unanswered += 1;
            client.send(&on); // after its time-out
        }
        sleep(Duration::from_millis(80)); // a reply of 4.6 ms and the silence, on a busy machine; still soon after the reply
    }
    assert_eq!(unanswered, 1);
    assert!(server.stop("TERM").1.contains("left out once"));
}

#[test]
fn echo_on_a_line_without_one_is_told_and_served() {
    let (_folder, server, mut client) = on_pty("--echo");
    for _ in 0..2 {
        client.ask(&VERSION.0, &VERSION.1);
        sleep(serve::line::PATIENCE + PAUSE);
    }
    let message = "serve: the line hands nothing back; it doesn't want --echo\n";
    assert_eq!(server.stop("TERM"), (0, message.to_string()));
}

#[test]
fn a_request_that_is_no_echo_is_told_and_served() {
    let (_folder, server, mut client) = on_pty("--echo");
    client.ask(&VERSION.0, &VERSION.1);
    client.ask_with_echo(&JOURNAL, &[1, 3, 4, 3, 0xE8, 0, 0]);
    let (_, said) = server.stop("TERM");
    assert_eq!(
        said,
        "serve: no echo of a reply has come; what came instead is taken for a request\n"
    );
}

#[test]
fn the_echo_of_a_pseudo_terminal_is_switched_off() {
    let (folder, server, mut client) = on_pty(START);
    prepare(&mut client);
    let mut stty = Command::new("stty");
    stty.arg("-F").arg(&server.path).args(["raw", "echo", "-echoctl"]);
    assert!(stty.status().unwrap().success());
    client.ask(&UPDATE, &UPDATE);
    client.hears_nothing();
    assert_eq!(folder.read("sonde.volume"), bytes(&calibrated()));
    let message = "serve: a client has switched on the pseudo-terminal's echo; it is off again\n";
    assert_eq!(server.stop("TERM"), (0, message.to_string()));
}

use super::*;

const SENT: [u8; 4] = [1, 6, 0, 105];

/// Parts that came after a silence have `true`.
fn heard(parts: &[(&[u8], bool)]) -> (Heard, Vec<Vec<u8>>) {
    let mut echo = Echo::of(&SENT, Framing::Rtu);
    parts.iter().for_each(|(part, after)| echo.push(part, *after));
    echo.end()
}

#[test]
fn exactly_what_was_sent_is_dropped() {
    assert_eq!(heard(&[]), (Heard::Nothing, vec![]));
    assert_eq!(heard(&[(&[1, 6], true), (&[0, 105], true)]), (Heard::Echo, vec![]));
    assert_eq!(heard(&[(&[1, 6, 0, 105, 1, 3], true)]), (Heard::Echo, vec![vec![1, 3]]));
    assert_eq!(heard(&[(&[1, 3, 1, 6, 0, 105, 9], true)]), (Heard::Echo, vec![vec![1, 3], vec![9]]));
    assert_eq!(heard(&[(&[1, 6, 0, 105, 1, 6, 0, 105], false)]), (Heard::Echo, vec![SENT.to_vec()]));
}

#[test]
fn of_an_echo_that_was_cut_short_nothing_is_left() {
    assert_eq!(heard(&[(&[1, 6, 0], false)]), (Heard::Echo, vec![]));
    assert_eq!(
        heard(&[(&[1, 6, 0], false), (&[1, 3, 0, 7], true)]),
        (Heard::Echo, vec![vec![1, 3, 0, 7]])
    );
    assert_eq!(
        heard(&[(&[1], false), (&[6], true), (&[6, 7], true)]),
        (Heard::Echo, vec![vec![6, 7]])
    );
}

#[test]
fn what_differs_is_kept_in_its_parts() {
    assert_eq!(heard(&[(&[1, 3], false)]), (Heard::Other, vec![vec![1, 3]]));
    assert_eq!(
        heard(&[(&[1, 6, 0], false), (&[106, 7], false)]),
        (Heard::Other, vec![vec![1, 6, 0, 106, 7]])
    );
    assert_eq!(
        heard(&[(&[6, 0, 105], true), (&[1, 3], true), (&[0], false)]),
        (Heard::Other, vec![vec![6, 0, 105], vec![1, 3, 0]])
    );
}

/// An ASCII reply, and what comes after it in pieces whose pauses mean nothing.
fn heard_in_ascii(pieces: &[&[u8]]) -> (Heard, Vec<Vec<u8>>) {
    let mut echo = Echo::of(b":0183027A\r\n", Framing::Ascii);
    pieces.iter().for_each(|piece| echo.push(piece, true));
    echo.end()
}

#[test]
fn in_ascii_a_colon_and_no_silence_begins_a_frame() {
    let request = b":0103:\r\n".to_vec();
    assert_eq!(heard_in_ascii(&[b":0183", b"027A", b"\r\n"]), (Heard::Echo, vec![]));
    assert_eq!(
        heard_in_ascii(&[b":0183027A\r\n:01", b"03"]),
        (Heard::Echo, vec![b":0103".to_vec()])
    );
    assert_eq!(
        heard_in_ascii(&[b":02\r\n", b":0183027A\r\n"]),
        (Heard::Echo, vec![b":02\r\n".to_vec()])
    );
    // cut short by the next frame, or by nothing
    assert_eq!(heard_in_ascii(&[b":0183", b":02\r\n"]), (Heard::Echo, vec![b":02\r\n".to_vec()]));
    assert_eq!(heard_in_ascii(&[b":0183", b"02"]), (Heard::Echo, vec![]));
    // not the reply, though a pause stands where it differs
    assert_eq!(heard_in_ascii(&[b":01", b"03\r\n"]), (Heard::Other, vec![b":0103\r\n".to_vec()]));
    assert_eq!(heard_in_ascii(&[&request]).1.concat(), request);
}

#[test]
fn when_it_is_over() {
    let mut echo = Echo::of(&SENT, Framing::Rtu);
    assert!(!echo.has_begun());
    echo.push(&SENT[..1], false);
    assert!(echo.has_begun() && !echo.is_long_enough());
    echo.push(&[9, 1, 6, 0], false);
    assert!(!echo.has_begun() && echo.is_long_enough() && !echo.is_over());
    echo.push(&[105], false);
    assert!(echo.is_over());
    let mut babble = Echo::of(&SENT, Framing::Rtu);
    babble.push(&[0; MOST + 1], false);
    assert!(babble.is_over());
}

/// A suspicion after a reply, and the time of its last bit.
fn after(reply: &[u8]) -> (Suspicion, Instant) {
    let (mut suspicion, now) = (Suspicion::default(), Instant::now());
    suspicion.replied(reply.to_vec(), now);
    (suspicion, now)
}

#[test]
fn replies_that_are_no_requests_are_an_echo() {
    for reply in [&[1, 3, 2, 0, 3][..], &[1, 16, 0, 7, 0, 2], &[1, 0x83, 2]] {
        let (mut suspicion, now) = after(reply);
        assert_eq!(suspicion.judge(reply, now + SOON / 2), Verdict::Echo);
        assert_eq!(suspicion.judge(reply, now + SOON), Verdict::Request);
        assert_eq!(suspicion.judge(&[1, 3, 0, 0], now), Verdict::Request);
        for _ in 0..REMEMBERED {
            assert_eq!(suspicion.judge(reply, now), Verdict::Echo);
            suspicion.replied(SENT.to_vec(), now);
        }
        assert_eq!(suspicion.judge(reply, now), Verdict::Request);
    }
    assert_eq!(Suspicion::default().judge(&[1, 3, 2, 0, 3], Instant::now()), Verdict::Request);
}

fn repeats(suspicion: &mut Suspicion, frame: &[u8], now: Instant, times: u32) {
    for _ in 0..times {
        assert_eq!(suspicion.judge(frame, now), Verdict::Request);
    }
}

#[test]
fn of_a_client_that_repeats_its_write_one_is_left_out() {
    for function in [6, 22] {
        let frame = [1, function, 0, 105];
        let (mut suspicion, now) = after(&frame);
        repeats(&mut suspicion, &frame, now, REPEATS);
        assert_eq!(suspicion.judge(&frame, now), Verdict::LeftOut);
        assert_eq!(suspicion.judge(&frame, now), Verdict::LeftOut);
        // It gets no reply and asks again, and is believed from then on.
        repeats(&mut suspicion, &frame, now + SOON, 1);
        repeats(&mut suspicion, &frame, now, 3 * REPEATS);
    }
}

#[test]
fn a_loop_ends_with_the_frame_that_is_left_out() {
    let (mut suspicion, now) = after(&SENT);
    let (other, request) = ([1, 6, 0, 106], [1, 3, 0, 0]);
    suspicion.replied(other.to_vec(), now);
    for _ in 0..REPEATS / 2 {
        repeats(&mut suspicion, &SENT, now, 1); // two loops, one in the other
        repeats(&mut suspicion, &other, now, 1);
    }
    assert_eq!(suspicion.judge(&SENT, now), Verdict::LeftOut);
    assert_eq!(suspicion.judge(&other, now), Verdict::LeftOut);
    assert_eq!(suspicion.judge(&request, now), Verdict::RequestAfterEcho);
    assert_eq!(suspicion.judge(&request, now), Verdict::Request);
}

#[test]
fn a_client_that_takes_its_time_is_believed() {
    let (mut suspicion, now) = after(&SENT);
    repeats(&mut suspicion, &SENT, now + SOON, 3 * REPEATS);
    for _ in 0..3 {
        repeats(&mut suspicion, &SENT, now, REPEATS); // and one that does something else in between
        repeats(&mut suspicion, &[1, 3, 0, 0], now, 1);
    }
}

use super::*;
use sonde::{Framing, Port};

const SILENCE: Duration = Duration::from_millis(2);

/// An inbox, and times of so many milliseconds after its start.
fn inbox(framing: Framing) -> (Inbox, impl Fn(u64) -> Instant) {
    let start = Instant::now();
    let inbox = Inbox::new(Framer::new(framing, Port::Radio), SILENCE);
    (inbox, move |ms| start + Duration::from_millis(ms))
}

fn taken(inbox: &mut Inbox) -> Vec<Vec<u8>> {
    std::iter::from_fn(|| inbox.take()).map(|frame| frame.bytes).collect()
}

#[test]
fn a_silence_ends_an_rtu_frame() {
    let (mut inbox, at) = inbox(Framing::Rtu);
    assert_eq!(inbox.deadline(at(5)), None);
    inbox.push(&[1, 3], at(10));
    assert_eq!(inbox.deadline(at(10)), Some(at(12)));
    inbox.push(&[0], at(11));
    assert_eq!(inbox.deadline(at(11)), Some(at(13)));
    assert_eq!(inbox.deadline(at(12)), Some(at(13))); // whatever is listened to besides
    assert!(!inbox.idle(at(12)));
    assert_eq!(inbox.ended(), None);
    assert!(!inbox.idle(at(13)));
    assert_eq!((inbox.deadline(at(13)), inbox.ended()), (None, Some(at(11))));
    inbox.push(&[7], at(20));
    inbox.deadline(at(20));
    assert!(!inbox.idle(at(22)));
    assert_eq!(inbox.ended(), Some(at(11))); // the first of those that wait
    assert_eq!(taken(&mut inbox), [vec![1, 3, 0], vec![7]]);
    assert_eq!(inbox.ended(), None);
}

/// A server that was held up after it had read hasn't heard a silence.
#[test]
fn a_silence_begins_when_the_line_is_listened_to() {
    let (mut inbox, at) = inbox(Framing::Rtu);
    inbox.push(&[1, 3], at(10));
    assert_eq!(inbox.deadline(at(50)), Some(at(52)));
    inbox.push(&[0], at(51));
    assert!(!inbox.idle(at(90)));
    assert_eq!((inbox.deadline(at(91)), inbox.ended()), (Some(at(92)), None));
    inbox.idle(at(92));
    assert_eq!(taken(&mut inbox), [[1, 3, 0]]);
}

#[test]
fn an_ascii_frame_waits_for_no_silence() {
    let (mut inbox, at) = inbox(Framing::Ascii);
    inbox.push(b":01", at(10));
    assert_eq!(inbox.deadline(at(10)), None);
    assert!(!inbox.idle(at(10_000)));
    inbox.push(b"\r\n", at(10_001));
    assert_eq!(inbox.ended(), Some(at(10_001)));
    assert_eq!(taken(&mut inbox), [b":01\r\n"]);
}

/// A client has so much time to read it, from its last sign of life.
#[test]
fn a_reply_is_forgotten_once() {
    let patience = PATIENCE.as_millis() as u64;
    for framing in [Framing::Rtu, Framing::Ascii] {
        let (mut inbox, at) = inbox(framing);
        assert_eq!(inbox.deadline(at(0)), None);
        assert!(!inbox.idle(at(2 * patience))); // none was sent
        inbox.replied(vec![], at(10));
        assert_eq!(inbox.deadline(at(10)), Some(at(10 + patience)));
        assert!(!inbox.idle(at(9 + patience)));
        inbox.push(b":", at(20));
        inbox.deadline(at(20));
        inbox.idle(at(22)); // the end of an RTU frame
        assert_eq!(inbox.deadline(at(22)), Some(at(20 + patience)));
        assert!(inbox.idle(at(20 + patience)));
        assert!(!inbox.idle(at(20 + 2 * patience)));
        assert_eq!(inbox.deadline(at(20 + 2 * patience)), None);
    }
}

#[test]
fn what_came_while_a_reply_was_sent_is_kept_in_its_parts() {
    let (mut inbox, at) = inbox(Framing::Rtu);
    inbox.push(&[1], at(5));
    inbox.replied(vec![vec![2], vec![3, 4]], at(10));
    assert_eq!(taken(&mut inbox), [vec![1], vec![2]]);
    assert_eq!(inbox.deadline(at(10)), Some(at(12))); // the last part may go on
    inbox.push(&[5], at(11));
    inbox.deadline(at(11));
    inbox.idle(at(13));
    assert_eq!(taken(&mut inbox), [[3, 4, 5]]);
}

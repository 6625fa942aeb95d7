use super::*;
use serve_options::{DataBits, Parity};

#[test]
fn silence_is_3_5_characters_up_to_19200_baud() {
    assert_eq!(silence(300), Duration::from_nanos(128_333_333));
    assert_eq!(silence(9600), Duration::from_nanos(4_010_416));
    assert_eq!(silence(19200), Duration::from_nanos(2_005_208));
    assert_eq!(silence(38400), Duration::from_micros(1750));
    assert_eq!(silence(115200), Duration::from_micros(1750));
}

#[test]
fn a_character_has_10_or_11_bits() {
    let of = |data_bits| Character {
        data_bits,
        parity: Parity::Even,
    };
    assert_eq!(duration(8, of(DataBits::Eight), 300), Duration::from_nanos(293_333_333));
    assert_eq!(duration(256, of(DataBits::Eight), 921_600), Duration::from_nanos(3_055_555));
    assert_eq!(duration(17, of(DataBits::Seven), 300), Duration::from_nanos(566_666_666));
    assert_eq!(duration(511, of(DataBits::Seven), 921_600), Duration::from_nanos(5_544_704));
}

fn taken(framer: &mut Framer) -> Vec<Vec<u8>> {
    std::iter::from_fn(|| framer.take()).map(|frame| frame.bytes).collect()
}

#[test]
fn chunks_without_a_silence_are_one_rtu_frame() {
    let mut framer = Framer::new(Framing::Rtu, Port::Serial);
    let now = Instant::now();
    assert!(!framer.waits_for_silence());
    framer.fall_silent();
    framer.push(&[1, 3], now);
    framer.push(b":\n", now);
    assert!(framer.waits_for_silence() && framer.take().is_none());
    framer.fall_silent();
    assert!(!framer.waits_for_silence());
    framer.push(&[7], now);
    framer.fall_silent();
    assert_eq!(taken(&mut framer), [vec![1, 3, b':', b'\n'], vec![7]]);
}

/// One byte more than a good frame can have: enough to be counted bad.
#[test]
fn of_a_long_rtu_burst_257_bytes_are_kept_and_65_on_the_radio() {
    for (port, kept) in [(Port::Serial, 257), (Port::Radio, 65)] {
        let mut framer = Framer::new(Framing::Rtu, port);
        let now = Instant::now();
        framer.push(&[7; 50], now);
        framer.push(&[8; 5000], now);
        framer.push(&[9; 5000], now);
        framer.fall_silent();
        let [frame] = &taken(&mut framer)[..] else { panic!() };
        assert_eq!(frame.len(), kept);
        assert_eq!(&frame[48..52], [7, 7, 8, 8]);
        assert_eq!(frame[kept - 1], 8);
        framer.push(&[7; 64], now);
        framer.fall_silent();
        assert_eq!(taken(&mut framer), [[7; 64]]);
    }
}

#[test]
fn an_rtu_frame_goes_from_its_first_byte_to_its_last() {
    let mut framer = Framer::new(Framing::Rtu, Port::Serial);
    let now = Instant::now();
    let [first, last, next] = [1, 2, 3].map(|ms| now + Duration::from_millis(ms));
    framer.push(&[1, 3], first);
    framer.push(&[0], last);
    framer.push(&[], next);
    framer.fall_silent();
    framer.push(&[7], next);
    framer.fall_silent();
    let times = [framer.take(), framer.take()].map(|frame| frame.map(|frame| (frame.began, frame.ended)));
    assert_eq!(times, [Some((first, last)), Some((next, next))]);
}

#[test]
fn while_frames_wait_rtu_is_read_and_ascii_is_not() {
    let now = Instant::now();
    let mut framer = Framer::new(Framing::Ascii, Port::Serial);
    framer.push(b":01", now);
    assert!(framer.takes_more());
    framer.push(b"\r\n:", now);
    assert!(!framer.takes_more());
    framer.take();
    assert!(framer.takes_more());
    let mut framer = Framer::new(Framing::Rtu, Port::Serial);
    framer.push(&[1], now);
    framer.fall_silent();
    assert!(framer.takes_more() && framer.first().is_some());
}

/// The ASCII frames of pieces, with a silence between them, which ends none.
fn cut(pieces: &[&[u8]]) -> Vec<Vec<u8>> {
    let mut framer = Framer::new(Framing::Ascii, Port::Serial);
    for piece in pieces {
        framer.push(piece, Instant::now());
        assert!(!framer.waits_for_silence());
        framer.fall_silent();
    }
    taken(&mut framer)
}

#[test]
fn an_ascii_frame_goes_from_its_colon_to_lf() {
    assert_eq!(cut(&[b":0103\r\n"]), [b":0103\r\n"]);
    assert_eq!(cut(&[b":", b"01", b"03\r", b"\n"]), [b":0103\r\n"]);
    assert_eq!(cut(&[b":01\r\n:02\r\n:03", b"\r\n:04"]), [b":01\r\n", b":02\r\n", b":03\r\n"]);
    assert_eq!(cut(&[b":0103\n", b":\n"]), [&b":0103\n"[..], b":\n"]);
    assert_eq!(cut(&[b":01\x8D\x8A\x00\xFF\r\n"]), [b":01\x8D\x8A\x00\xFF\r\n"]);
}

#[test]
fn what_stands_before_a_colon_is_dropped() {
    assert!(cut(&[b"", b"0103\r\n", b"\n\n\xBA01\r\n", b":0103\r"]).is_empty());
    assert_eq!(cut(&[b"\x00\r\nnoise:01\r\nnoise\r\n:02\r\n"]), [b":01\r\n", b":02\r\n"]);
    assert_eq!(cut(&[b":0103:", b":01\r\n"]), [b":01\r\n"]);
}

#[test]
fn of_a_long_ascii_frame_514_characters_are_kept_and_lf_ends_it() {
    let long = |length: usize| [b":", &b"0".repeat(length - 3)[..], b"\r\n"].concat();
    for length in [513, 514] {
        assert_eq!(cut(&[&long(length), b":01\r\n"]), [&long(length)[..], b":01\r\n"]);
    }
    for length in [515, 10_000] {
        let frames = cut(&[&long(length), b":01\r\n"]);
        assert_eq!(frames, [&long(length)[..514], b":01\r\n"]);
    }
    assert_eq!(cut(&[&long(10_000)[..9_000], b":01\r\n"]), [b":01\r\n"]);
}

#[test]
fn no_more_frames_wait_than_there_is_room_for() {
    let frames = cut(&[&b":\n".repeat(WAITING + 1), b":01"]);
    assert_eq!(frames.len(), WAITING);
}

#[test]
fn an_ascii_frame_goes_from_its_colon_to_its_lf() {
    let mut framer = Framer::new(Framing::Ascii, Port::Serial);
    let now = Instant::now();
    let [first, second, third] = [1, 2, 3].map(|ms| now + Duration::from_millis(ms));
    framer.push(b"noise:01", first);
    framer.push(b"\r\n:0:02", second);
    framer.push(b"03\r\nnoise", third);
    let frame = |bytes: &[u8], began, ended| Frame {
        bytes: bytes.to_vec(),
        began,
        ended,
    };
    assert_eq!(framer.take(), Some(frame(b":01\r\n", first, second)));
    assert_eq!(framer.take(), Some(frame(b":0203\r\n", second, third)));
    assert_eq!(framer.take(), None);
}

#[test]
fn what_a_frame_carries() {
    assert_eq!(carried(Framing::Rtu, b":01\r\n"), b":01\r\n");
    assert_eq!(carried(Framing::Ascii, b":0183027A\r\n"), [1, 0x83, 2, 0x7A]);
    assert_eq!(carried(Framing::Ascii, b":09AFF0\r\n"), [0x09, 0xAF, 0xF0]);
    for broken in [
        &b""[..],
        b":",
        b"\r\n",
        b":\r\n",
        b"0183027A\r\n",
        b":0183027A\n",
        b":0183027a\r\n",
        b":0183027\r\n",
        b":018302:A\r\n",
        b":018302/A\r\n",
        b":018302@A\r\n",
        b":018302GA\r\n",
        b":018302\xB7A\r\n",
        b":0183027A\r\r\n",
    ] {
        assert!(carried(Framing::Ascii, broken).is_empty(), "{}", broken.escape_ascii());
    }
}

#[test]
fn the_code_of_an_exception() {
    for (framing, exception_reply, other) in [
        (Framing::Rtu, &[1, 0x83, 2, 0xC0, 0xF1][..], &[1, 3, 0x83, 2, 0][..]),
        (Framing::Ascii, b":0183027A\r\n", b":0103830277\r\n"),
    ] {
        assert_eq!(exception(framing, exception_reply), Some(2));
        assert_eq!(exception(framing, other), None);
        assert_eq!(exception(framing, &[]), None);
    }
}

#[test]
fn frames_as_the_log_shows_them() {
    assert_eq!(shown(Framing::Rtu, &[1, 3, 0xAB]), "01 03 AB");
    assert_eq!(shown(Framing::Ascii, b":01ab\x00\xFF\r\n"), ":01ab\\x00\\xff\\r\\n");
}

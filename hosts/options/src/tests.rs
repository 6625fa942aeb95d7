use super::*;

fn parsed(words: &str) -> Result<Command, String> {
    parse(words.split_whitespace().map(OsString::from))
}

fn options(words: &str) -> Options {
    match parsed(words) {
        Ok(Command::Serve(options)) => options,
        other => panic!("{words}: {other:?}"),
    }
}

#[test]
fn without_options_the_defaults_hold() {
    let o = options("");
    let line = o.serial;
    assert_eq!(
        (line.device, line.speed, line.parity, line.silence),
        (None, 19200, Parity::Even, None)
    );
    assert!(!line.radio && o.radio.is_none());
    assert_eq!((o.address, o.volume, o.entries), (1, PathBuf::from("sonde.volume"), None));
    assert_eq!((o.raws, o.raws_file, o.clock, o.verbose), (Raws::default(), None, None, false));
}

#[test]
fn every_option_is_taken() {
    let o = options("--device /dev/ttyUSB0 --speed 9600 --parity none --silence 20 --address 247 --volume v --entries 3 --verbose");
    let line = o.serial;
    assert_eq!(
        (line.device, line.speed, line.parity),
        (Some(PathBuf::from("/dev/ttyUSB0")), 9600, Parity::None)
    );
    assert_eq!(line.silence, Some(Duration::from_millis(20)));
    assert_eq!(
        (o.address, o.volume, o.entries, o.verbose),
        (247, PathBuf::from("v"), Some(3), true)
    );

    let o = options("--raws r --clock 4294967295 --raw 2=7.5 --raw 4=absent --parity odd");
    assert_eq!(
        (o.raws_file, o.clock, o.serial.parity),
        (Some(PathBuf::from("r")), Some(u32::MAX), Parity::Odd)
    );
    assert_eq!(o.raws.get(2), Some((7.5, 0.0)));
    assert_eq!(o.raws.get(4), None);
}

#[test]
fn options_of_lines_and_volumes() {
    let o = options("");
    assert_eq!(
        (o.serial.link, o.serial.echo, o.serial.rs485, o.new_volume),
        (None, false, None, None)
    );
    let o = options("--link l --echo --new-volume n");
    assert_eq!(
        (o.serial.link, o.serial.echo, o.new_volume),
        (Some(PathBuf::from("l")), true, Some(PathBuf::from("n")))
    );
    assert_eq!(options("--device d --rs485 high").serial.rs485, Some(Rts::High));
    assert_eq!(options("--rs485 low --device d").serial.rs485, Some(Rts::Low));
}

#[test]
fn the_radio_line_has_its_own_settings() {
    let o = options("--radio");
    let radio = o.radio.as_ref().unwrap();
    assert!(radio.radio && !o.serial.radio);
    assert_eq!((&radio.device, &radio.link, radio.rs485), (&None, &None, None));
    assert_eq!(
        (radio.speed, radio.parity, radio.silence, radio.echo),
        (19200, Parity::Even, None, false)
    );
    assert!(o.lines().map(|line| line.radio).eq([false, true]));
    assert!(options("").lines().map(|line| line.radio).eq([false]));

    // before and after --radio, and of the serial line nothing
    let o = options("--radio-speed 9600 --radio-device r --radio --radio-parity none --radio-silence 20 --radio-echo --radio-rs485 low");
    let radio = o.radio.unwrap();
    assert_eq!((radio.device, radio.rs485), (Some(PathBuf::from("r")), Some(Rts::Low)));
    assert_eq!((radio.speed, radio.parity, radio.echo), (9600, Parity::None, true));
    assert_eq!(radio.silence, Some(Duration::from_millis(20)));
    let serial = o.serial;
    assert_eq!((serial.device, serial.speed, serial.parity), (None, 19200, Parity::Even));
    assert_eq!((serial.silence, serial.echo, serial.rs485), (None, false, None));

    let o = options("--radio --radio-link r --link s --speed 300 --silence 7 --echo --radio");
    let radio = o.radio.unwrap();
    assert_eq!((o.serial.link, radio.link), (Some(PathBuf::from("s")), Some(PathBuf::from("r"))));
    assert_eq!(
        (o.serial.speed, o.serial.silence, o.serial.echo),
        (300, Some(Duration::from_millis(7)), true)
    );
    assert_eq!((radio.speed, radio.silence, radio.echo), (19200, None, false));
}

#[test]
fn the_radio_line_is_rtu_beside_any_serial_line() {
    let o = options("--ascii --radio --radio-silence 20 --radio-parity odd");
    let radio = o.radio.unwrap();
    assert!(o.serial.ascii && !radio.ascii);
    assert_eq!(
        (radio.character().data_bits, radio.character().parity),
        (DataBits::Eight, Parity::Odd)
    );
}

#[test]
fn the_character_is_the_standards_but_for_what_is_given() {
    use DataBits::{Eight, Seven};
    for (words, data_bits, parity, bits) in [
        ("", Eight, Parity::Even, 11),
        ("--parity none", Eight, Parity::None, 11),
        ("--data-bits 8", Eight, Parity::Even, 11),
        ("--ascii", Seven, Parity::Even, 10),
        ("--ascii --parity none", Seven, Parity::None, 10),
        ("--ascii --data-bits 7 --parity odd", Seven, Parity::Odd, 10),
        ("--data-bits 7 --ascii", Seven, Parity::Even, 10),
        ("--ascii --data-bits 8", Eight, Parity::Even, 11),
    ] {
        let o = options(words).serial;
        assert_eq!(o.ascii, words.contains("--ascii"));
        assert_eq!(o.character(), Character { data_bits, parity }, "{words}");
        assert_eq!(o.character().bits(), bits, "{words}");
    }
}

#[test]
fn check_stands_alone() {
    assert!(matches!(parsed("--check v"), Ok(Command::Check(path)) if path.as_os_str() == "v"));
    for (words, message) in [
        ("--check", "--check wants a value"),
        ("--check v --verbose", "--check FILE stands alone"),
        ("--verbose --check v", "--check FILE stands alone"),
        ("--verbose --check --bogus", "--check wants a value"),
    ] {
        assert_eq!(parsed(words).unwrap_err(), message, "{words}");
    }
}

#[test]
fn help_goes_before_what_follows_it() {
    assert!(matches!(parsed("--help"), Ok(Command::Help)));
    assert!(matches!(parsed("--verbose -h --bogus"), Ok(Command::Help)));
    assert!(matches!(parsed("--version --bogus"), Ok(Command::Version)));
}

#[test]
fn wrong_words_are_named() {
    for (words, message) in [
        ("--bogus", "there is no option --bogus"),
        ("volume", "there is no option volume"),
        ("--speed", "--speed wants a value"),
        ("--device --speed 9600", "--device wants a value"),
        ("--speed 9601", "--speed 9601: the speeds are 300, 600,"),
        ("--parity mark", "--parity mark: it is none, even or odd"),
        ("--address 0", "--address 0: that is no whole number from 1 to 247"),
        ("--address 248", "from 1 to 247"),
        ("--address 1.5", "from 1 to 247"),
        ("--entries 0", "from 1 to 1000"),
        ("--entries 1001", "from 1 to 1000"),
        ("--silence 0", "from 1 to 10000"),
        ("--clock 4294967296", "from 0 to 4294967295"),
        ("--clock -1", "from 0 to 4294967295"),
        ("--raw 5=1", "--raw 5=1: the sensors are 1 to 4"),
        ("--data-bits", "--data-bits wants a value"),
        ("--ascii --data-bits 6", "--data-bits 6: it is 7 or 8"),
        ("--data-bits 7", "--data-bits 7 is for --ascii, and Modbus RTU has 8"),
        (
            "--ascii --silence 20",
            "--silence is for Modbus RTU, and --ascii ends a frame by LF alone",
        ),
        ("--silence 20 --ascii", "--silence is for Modbus RTU"),
        ("--device d --rs485 1", "--rs485 1: it is high or low"),
        ("--rs485 high", "--rs485 is for a --device"),
        ("--link l --device d", "--link names a pseudo-terminal, and --device is none"),
        ("--radio 1", "there is no option 1"),
        ("--radio-ascii", "there is no option --radio-ascii"),
        ("--radio --radio-data-bits 8", "there is no option --radio-data-bits"),
        ("--radio --radio-speed", "--radio-speed wants a value"),
        ("--radio --radio-speed 12", "--radio-speed 12: the speeds are 300, 600,"),
        ("--radio --radio-parity mark", "--radio-parity mark: it is none, even or odd"),
        (
            "--radio --radio-silence 0",
            "--radio-silence 0: that is no whole number from 1 to 10000",
        ),
        ("--radio --radio-device d --radio-rs485 1", "--radio-rs485 1: it is high or low"),
        ("--radio --device d --radio-rs485 high", "--radio-rs485 is for a --radio-device"),
        (
            "--radio --radio-link l --radio-device d",
            "--radio-link names a pseudo-terminal, and --radio-device is none",
        ),
        ("--radio-device d", "--radio-device is for the radio line, and there is no --radio"),
        ("--radio-echo", "--radio-echo is for the radio line, and there is no --radio"),
        ("--speed 300 --radio-speed 300 --radio-echo", "--radio-speed is for the radio line"),
        ("--radio --radio-device d --device d", "--device and --radio-device are the same"),
        ("--link l --radio --radio-link l", "--link and --radio-link are the same"),
    ] {
        let said = parsed(words).unwrap_err();
        assert!(said.contains(message), "{words}: {said}");
    }
}

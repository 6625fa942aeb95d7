use crate::harness::Folder;
use std::process::Command;

#[test]
fn wrong_options_are_told_and_nothing_is_begun() {
    let folder = Folder::new();
    for (words, message) in [
        ("--bogus", "there is no option --bogus"),
        ("--speed", "--speed wants a value"),
        ("--speed 12", "--speed 12: the speeds are"),
        ("--parity mark", "--parity mark: it is none, even or odd"),
        ("--ascii --data-bits 9", "--data-bits 9: it is 7 or 8"),
        ("--data-bits 7", "--data-bits 7 is for --ascii, and Modbus RTU has 8"),
        (
            "--silence 20 --ascii",
            "--silence is for Modbus RTU, and --ascii ends a frame by LF alone",
        ),
        ("--address 248", "--address 248: that is no whole number from 1 to 247"),
        ("--entries 1001", "--entries 1001: that is no whole number from 1 to 1000"),
        ("--raw 2=nan", "--raw 2=nan: the value is no finite number"),
        ("--raw 9=1", "--raw 9=1: the sensors are 1 to 4"),
    ] {
        let (status, said) = folder.refused(words);
        assert_eq!(status, 2, "{words}");
        assert!(said.contains(message), "{words}: {said}");
    }
    assert!(folder.names().is_empty());
}

#[test]
fn a_device_that_cannot_be_used_is_told_and_nothing_is_begun() {
    let folder = Folder::new();
    for device in ["/dev/there-is-none", "/dev/null"] {
        let (status, said) = folder.refused(&format!("--device {device}"));
        assert_eq!(status, 1);
        assert!(said.contains(&format!("the device {device} can't be used")), "{said}");
    }
    assert!(folder.names().is_empty());
}

#[test]
fn help_names_every_option() {
    let output = Command::new(env!("CARGO_BIN_EXE_serve")).arg("--help").output().unwrap();
    assert!(output.status.success() && output.stderr.is_empty());
    let text = String::from_utf8(output.stdout).unwrap();
    for name in [
        "device",
        "link",
        "ascii",
        "speed",
        "parity",
        "data-bits",
        "silence",
        "echo",
        "rs485",
        "address",
        "radio",
        "radio-device",
        "radio-link",
        "radio-speed",
        "radio-parity",
        "radio-silence",
        "radio-echo",
        "radio-rs485",
        "volume",
        "new-volume",
        "entries",
        "check",
        "raw",
        "raws",
        "clock",
        "verbose",
        "version",
        "help",
    ] {
        assert!(text.contains(&format!("    --{name} ")), "{name}");
    }
    for limit in [
        "the disk is full",
        "no time stamps",
        "No effect on a file that is there",
        "as Modbus RTU or ASCII",
        "there is no time-out",
        "Refused with --ascii",
        "salvaged",
        "FILE.unsalvaged-2",
        "more than 64 bytes",
        "more than 29 registers",
        "in the order in which they ended",
        "RTU frames that came in meanwhile are read as one",
    ] {
        assert!(text.contains(limit), "{limit}");
    }
}

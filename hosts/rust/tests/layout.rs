//! The structs of the C interface have one layout in three places: the library's own source, `include/sonde.h`, and `sonde::ffi`. Sizes and
//! offsets are compared; then each field is set, and the library is asked what its registers show. At last the crate's ports are held to the
//! library's.

use sonde::{ffi, Error, Port};
use std::collections::BTreeMap;
use std::fmt::Write as _;
use std::fs;
use std::mem::{offset_of, size_of};
use std::path::{Path, PathBuf};
use std::process::Command;

/// Of a struct: its size, and each field with its offset.
type Layout = BTreeMap<String, (usize, Vec<(String, usize)>)>;
/// Of a struct: each field with its type.
type Fields = BTreeMap<String, Vec<(String, String)>>;

fn top() -> PathBuf {
    Path::new(env!("CARGO_MANIFEST_DIR")).join("../..")
}

/// The structs marked `#[repr(C)]` in the library's source.
fn declared() -> Fields {
    let mut structs = Fields::new();
    for folder in fs::read_dir(top().join("crates")).unwrap() {
        for file in fs::read_dir(folder.unwrap().path().join("src")).unwrap() {
            let text = fs::read_to_string(file.unwrap().path()).unwrap();
            for part in text.split("#[repr(C)]\n").skip(1) {
                let (_, part) = part.split_once("pub struct ").unwrap();
                let (name, rest) = part.split_once(" {\n").unwrap();
                let (body, _) = rest.split_once("\n}").unwrap();
                let fields = body
                    .lines()
                    .filter_map(|line| line.trim().strip_prefix("pub ")?.strip_suffix(',')?.split_once(": "));
                structs.insert(
                    name.to_string(),
                    fields.map(|(field, of)| (field.to_string(), of.to_string())).collect(),
                );
            }
        }
    }
    structs
}

/// Size and alignment of a type, by the rules of C.
fn measure(of: &str, structs: &Fields) -> (usize, usize) {
    match of {
        "u8" | "bool" => (1, 1),
        "u16" => (2, 2),
        "u32" | "f32" => (4, 4),
        _ => match of.strip_prefix('[').and_then(|array| array.strip_suffix("; 4]")) {
            Some(element) => {
                let (size, align) = measure(element, structs);
                (4 * size, align)
            }
            None => {
                let (end, align, _) = place(&structs[of], structs);
                (end.next_multiple_of(align), align)
            }
        },
    }
}

/// The end and the alignment of a struct's fields, and the offset of each.
fn place(fields: &[(String, String)], structs: &Fields) -> (usize, usize, Vec<(String, usize)>) {
    let (mut end, mut most, mut offsets) = (0usize, 1, Vec::new());
    for (name, of) in fields {
        let (size, align) = measure(of, structs);
        let offset = end.next_multiple_of(align);
        offsets.push((name.clone(), offset));
        (end, most) = (offset + size, most.max(align));
    }
    (end, most, offsets)
}

/// The header's name of a struct: those that stand for parts of a sonde have a prefix.
fn header_name(name: &str) -> String {
    match name.starts_with("Sonde") {
        true => name.to_string(),
        false => format!("Sonde{name}"),
    }
}

/// The structs that the interface hands out, as the library's source has them.
fn of_source() -> Layout {
    let structs = declared();
    let shared = [
        "Coefficients",
        "Calibration",
        "Points",
        "Parameter",
        "Procedure",
        "Active",
        "Parameters",
        "Setup",
        "Sample",
        "Sensor",
        "Counters",
        "Sonde",
        "SondeMade",
        "SondeFrame",
        "SondeAudit",
        "SondePrint",
        "Entry",
        "SondeSalvage",
    ];
    let layout = |name: &str| (measure(name, &structs).0, place(&structs[name], &structs).2);
    shared.into_iter().map(|name| (header_name(name), layout(name))).collect()
}

/// The same as the C compiler has them from the header.
fn of_header(expected: &Layout) -> Layout {
    let mut program = String::from("#include \"sonde.h\"\n#include <stdio.h>\nint main(void) {\n");
    for (name, (_, fields)) in expected {
        writeln!(program, "printf(\"{name} %zu\\n\", sizeof({name}));").unwrap();
        for (field, _) in fields {
            writeln!(program, "printf(\"{name} {field} %zu\\n\", offsetof({name}, {field}));").unwrap();
        }
    }
    program.push_str("return 0; }\n");
    let folder = PathBuf::from(env!("CARGO_TARGET_TMPDIR"));
    let (source, binary) = (folder.join("layout.c"), folder.join("layout"));
    fs::write(&source, program).unwrap();
    let compiled = Command::new("cc")
        .arg("-I")
        .arg(top().join("include"))
        .arg(&source)
        .arg("-o")
        .arg(&binary)
        .status();
    assert!(compiled.expect("a C compiler (cc)").success());
    let printed = String::from_utf8(Command::new(&binary).output().unwrap().stdout).unwrap();
    let mut layout = Layout::new();
    for line in printed.lines() {
        match line.split(' ').collect::<Vec<_>>()[..] {
            [name, size] => drop(layout.insert(name.into(), (size.parse().unwrap(), Vec::new()))),
            [name, field, offset] => layout.get_mut(name).unwrap().1.push((field.into(), offset.parse().unwrap())),
            _ => panic!("{line}"),
        }
    }
    layout
}

/// The same as `sonde::ffi` has them.
fn of_bindings() -> Layout {
    let mut layout = Layout::new();
    macro_rules! of {
        ($header:literal, $name:ident: $($field:ident)*) => {
            let fields = vec![$((stringify!($field).to_string(), offset_of!(ffi::$name, $field))),*];
            layout.insert($header.to_string(), (size_of::<ffi::$name>(), fields));
        };
    }
    of!("SondeCoefficients", Coefficients: coefficient1 coefficient2 coefficient3);
    of!("SondeCalibration", Calibration: coefficient1 coefficient2 coefficient3 time);
    of!("SondePoints", Points: x1 y1 x2 y2);
    of!("SondeParameter", Parameter: units sentinel);
    of!("SondeProcedure", Procedure: calibrating trial method points);
    of!("SondeActive", Active: calibration next);
    of!("SondeParameters", Parameters: level parameter1 parameter2 parameter3);
    of!("SondeSetup", Setup: procedure active parameters);
    of!("SondeSample", Sample: present raw1 raw2);
    of!("SondeSensor", Sensor: setup sample);
    of!("SondeCounters", Counters: good bad exceptions);
    of!("Sonde", Sonde: address technician sensors counters);
    of!("SondeMade", Made: number sonde);
    of!("SondeFrame", Frame: number length sonde);
    of!("SondeAudit", Audit: number entries);
    of!("SondePrint", Print: number length);
    of!("SondeEntry", Entry: sensor method technician calibration points);
    of!("SondeSalvage", Salvage: number changed);
    layout
}

#[test]
fn the_header_has_the_librarys_layout() {
    let source = of_source();
    assert_eq!(source["Sonde"].0, 396);
    assert_eq!(source["Sonde"].1[1], ("technician".to_string(), 2));
    assert_eq!(of_header(&source), source);
}

#[test]
fn the_bindings_have_the_librarys_layout() {
    assert_eq!(of_bindings(), of_source());
}

// ---- what the library reads in each field

fn crc(bytes: &[u8]) -> u16 {
    bytes.iter().fold(0xFFFF, |crc, byte| {
        (0..8).fold(
            crc ^ u16::from(*byte),
            |crc, _| if crc & 1 == 1 { crc >> 1 ^ 0xA001 } else { crc >> 1 },
        )
    })
}

/// What comes of an RTU frame, beside a volume that begins with the sonde.
fn answered(sonde: ffi::Sonde, frame: &[u8], reply: &mut [u8], port: u8) -> ffi::Frame {
    let mut volume = [0u16; 112];
    // SAFETY: each pointer is of an array or a slice, with its length.
    unsafe {
        let begun = ffi::sonde_begin(sonde, volume.as_mut_ptr(), volume.len());
        assert_eq!(begun.number, 0);
        assert_eq!(format!("{:?}", begun.sonde), format!("{sonde:?}"));
        ffi::sonde_frame(
            begun.sonde,
            frame.as_ptr(),
            frame.len(),
            reply.as_mut_ptr(),
            reply.len(),
            volume.as_mut_ptr(),
            volume.len(),
            0,
            false,
            port,
        )
    }
}

/// The registers that a sonde shows from `start` on.
fn registers(sonde: ffi::Sonde, start: u16, count: u16) -> Vec<u16> {
    let mut reply = [0u8; 256];
    let body = [&[sonde.address, 3][..], &start.to_be_bytes(), &count.to_be_bytes()].concat();
    let frame = [&body[..], &crc(&body).to_le_bytes()].concat();
    let answer = answered(sonde, &frame, &mut reply, Port::Serial as u8);
    assert_eq!(
        (answer.number, answer.length, reply[0], reply[1]),
        (0, 5 + 2 * count, sonde.address, 3)
    );
    reply[3..3 + 2 * usize::from(count)]
        .chunks(2)
        .map(|pair| u16::from_be_bytes([pair[0], pair[1]]))
        .collect()
}

fn words(value: u32) -> [u16; 2] {
    [(value >> 16) as u16, value as u16]
}

/// A sonde whose fields have values that tell them apart.
fn telling(calibrating: bool) -> ffi::Sonde {
    // SAFETY: a call by value alone.
    let mut sonde = unsafe { ffi::sonde_fresh(7) }.sonde;
    sonde.technician = 14;
    sonde.counters = ffi::Counters {
        good: 11,
        bad: 12,
        exceptions: 13,
    };
    for (i, sensor) in sonde.sensors.iter_mut().enumerate() {
        let n = i as f32 / 64.0;
        sensor.setup.procedure = ffi::Procedure {
            calibrating,
            trial: ffi::Coefficients {
                coefficient1: 20.0 + n,
                coefficient2: 30.0 + n,
                coefficient3: 40.0 + n,
            },
            method: if i == 2 { 0 } else { 1 + i as u16 % 2 },
            points: ffi::Points {
                x1: 50.0 + n,
                y1: 60.0 + n,
                x2: 70.0 + n,
                y2: 80.0 + n,
            },
        };
        sensor.setup.active = ffi::Active {
            calibration: ffi::Calibration {
                coefficient1: n,
                coefficient2: 1.0 + n,
                coefficient3: if i == 2 { 5.0 } else { 0.0 },
                time: 0x1_0002 + i as u32,
            },
            next: 0x3_0004 + i as u32,
        };
        let parameters = &mut sensor.setup.parameters;
        parameters.level = 4;
        parameters.parameter1.sentinel = 90.0 + n;
        parameters.parameter2.sentinel = 91.0 + n;
        parameters.parameter3.sentinel = 92.0 + n;
        sensor.sample = ffi::Sample {
            present: i != 3,
            raw1: 100.0 + n,
            raw2: 110.0 + n,
        };
    }
    sonde.sensors[0].setup.parameters.parameter1.units = 2;
    sonde.sensors[2].setup.parameters.parameter1.units = 19;
    sonde
}

#[test]
fn counters_technician_and_address_are_read_where_they_stand() {
    assert_eq!(registers(telling(false), 4, 3), [11, 12, 13]);
    assert_eq!(registers(telling(false), 9, 1), [14]);
}

#[test]
fn setups_are_read_where_they_stand() {
    for calibrating in [false, true] {
        let sonde = telling(calibrating);
        for (number, sensor) in (1u16..).zip(sonde.sensors) {
            let ffi::Setup { procedure, active, .. } = sensor.setup;
            let (calibration, trial) = (active.calibration, procedure.trial);
            let (time, next) = (words(calibration.time), words(active.next));
            let head = [number, time[0], time[1], next[0], next[1], u16::from(calibrating)];
            assert_eq!(registers(sonde, 100 * number, 6), head);
            let shown = match calibrating {
                true => [trial.coefficient1, trial.coefficient2, trial.coefficient3],
                false => [calibration.coefficient1, calibration.coefficient2, calibration.coefficient3],
            };
            let count = if number == 3 { 3 } else { 2 };
            assert_eq!(
                registers(sonde, 100 * number + 10, 2 * count as u16),
                shown[..count].iter().flat_map(|x| words(x.to_bits())).collect::<Vec<_>>()
            );
            if number != 3 {
                let ffi::Points { x1, y1, x2, y2 } = procedure.points;
                assert_eq!(
                    registers(sonde, 100 * number + 16, 8),
                    [x1, y1, x2, y2].iter().flat_map(|x| words(x.to_bits())).collect::<Vec<_>>()
                );
                assert_eq!(registers(sonde, 100 * number + 6, 1), [procedure.method]);
            }
        }
    }
}

#[test]
fn parameters_and_samples_are_read_where_they_stand() {
    let sonde = telling(true);
    for (number, counts) in [(1u16, 3u16), (2, 1), (3, 2), (4, 1)] {
        let all = sonde.sensors[usize::from(number) - 1].setup.parameters;
        for (k, parameter) in (0..counts).zip([all.parameter1, all.parameter2, all.parameter3]) {
            let at = 100 * number + 30 + 8 * k;
            assert_eq!(registers(sonde, at + 3, 1), [parameter.units]);
            assert_eq!(registers(sonde, at + 5, 2), words(parameter.sentinel.to_bits()));
        }
    }
    let [conductivity, oxygen, level, _] = sonde.sensors.map(|sensor| sensor.sample);
    // in mode: the raws, converted to the units; sensor 4 isn't present and shows its sentinel
    assert_eq!(registers(sonde, 130, 2), words((conductivity.raw2 * 1.8 + 32.0).to_bits()));
    assert_eq!(registers(sonde, 138, 2), words(conductivity.raw1.to_bits()));
    assert_eq!(registers(sonde, 230, 2), words(oxygen.raw1.to_bits()));
    assert_eq!(registers(sonde, 330, 2), words((level.raw1 * 6.894757).to_bits()));
    assert_eq!(registers(sonde, 340, 1), [4]);
    assert_eq!(registers(sonde, 434, 1), [7]);
    assert_eq!(
        registers(sonde, 430, 2),
        words(sonde.sensors[3].setup.parameters.parameter1.sentinel.to_bits())
    );
}

// ---- the ports

#[test]
fn the_library_knows_the_crates_ports_and_no_other() {
    for port in 0..=255 {
        let known = port == Port::Serial as u8 || port == Port::Radio as u8;
        let due = if known { 0 } else { Error::NoPort as u8 };
        assert_eq!(answered(telling(false), &[], &mut [0; 256], port).number, due, "port {port}");
    }
}

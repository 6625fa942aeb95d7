use super::*;
use sonde::{Error, Sonde};

const ARCHIVE: &str = include_str!("../../../../docs/ARCHIVE.md");

/// The worked volume of docs/ARCHIVE.md: full with 3 entries, of sensor 2 by two points, of sensor 1 by one, and of sensor 2 directly.
fn worked() -> Vec<u16> {
    let lines = ARCHIVE.lines().filter_map(|line| line.strip_prefix("    "));
    let words: Vec<u16> = lines
        .flat_map(|line| line.split(' ').map(|word| u16::from_str_radix(word, 16).unwrap()))
        .collect();
    assert_eq!(words.len(), 136);
    words
}

/// The worked volume with other words.
fn with(changes: &[(usize, u16)]) -> Vec<u16> {
    let mut words = worked();
    changes.iter().for_each(|&(at, word)| words[at] = word);
    words
}

/// The first fault, which is there exactly where the library refuses.
fn held(words: &[u16]) -> Option<Fault> {
    let (fault, verdict) = (first(words), Sonde::power_up(1, words));
    match (&fault, &verdict) {
        (None, Ok(_)) | (Some(_), Err(Error::Invalid)) => fault,
        _ => panic!("{fault:?}, while power-up gives {verdict:?}"),
    }
}

fn told(words: &[u16]) -> String {
    held(words).map_or("none".to_string(), |fault| fault.to_string())
}

fn assert_told(cases: &[(&[(usize, u16)], &str)]) {
    for (changes, message) in cases {
        assert_eq!(told(&with(changes)), *message, "{changes:04X?}");
    }
}

#[test]
fn the_worked_volume_is_whole() {
    assert_eq!(held(&worked()), None);
}

/// Whether a rule speaks of this word alone, or of the float that it is in, and that rule is broken when the word is changed to this.
fn alone(at: usize, word: u16) -> bool {
    let third = [20, 26, 38, 74, 98, 122].iter().any(|&at3| at == at3 || at == at3 + 1);
    match at {
        _ if third => true,
        0 | 1 | 3..=15 | 48..=63 => true,
        2 => word > 3,
        16..=47 => false,
        _ => match (at - 64) % 24 {
            0 | 20..=23 => true,
            1 => !(1..=4).contains(&word),
            2 => word > 2,
            12..=19 => at >= 124 || (104..108).contains(&at),
            _ => false,
        },
    }
}

#[test]
fn every_flipped_bit_that_the_library_refuses_has_a_fault() {
    let mut words = worked();
    let (mut refused, mut named) = (0, 0);
    for at in 0..words.len() {
        for bit in 0..16 {
            words[at] ^= 1 << bit;
            let fault = held(&words);
            refused += usize::from(fault.is_some());
            if alone(at, words[at]) {
                let fault = fault.unwrap();
                assert!(fault.words.contains(&at), "bit {bit} of word {at}: {fault}");
                named += 1;
            }
            words[at] ^= 1 << bit;
        }
    }
    assert_eq!((refused, named), (1530, 1223));
}

#[test]
fn every_word_of_a_telling_value_is_judged_alike() {
    let telling = [0, 1, 2, 3, 4, 0x00FF, 0x3F80, 0x3F99, 0x7F80, 0x8000, 0xBF80, 0xFF7F, 0xFFFF];
    for at in 0..136 {
        for word in telling {
            held(&with(&[(at, word)]));
        }
    }
}

#[test]
fn every_length_is_judged_alike() {
    let mut words = worked();
    words.extend([0xAAAA; 30]);
    for length in 0..words.len() {
        let fault = held(&words[..length]);
        assert_eq!(fault.is_none(), (136..160).contains(&length), "{length} words");
    }
    for length in [24063, 24064, 24065, 30000] {
        let mut words = vec![0xAAAA; length];
        Sonde::fresh(1).unwrap().begin(&mut words).unwrap();
        assert_eq!(held(&words), None);
    }
}

#[test]
fn a_volume_too_short_for_an_entry() {
    assert_eq!(told(&[]), "the volume has 0 words, and has to have at least 88");
    assert_eq!(told(&worked()[..87]), "the volume has 87 words, and has to have at least 88");
    assert_eq!(told(&worked()[..88]), "word 1, capacity: it is 3, and has to be 1 for 88 words");
}

#[test]
fn faults_of_the_header() {
    let swapped =
        "word 0, format: it is 256 (0x0100), and has to be 1; the file has each word's low byte first: `dd conv=swab` swaps the bytes";
    assert_told(&[
        (&[(0, 2)], "word 0, format: it is 2, and has to be 1"),
        (&[(0, 0x0100)], swapped),
        (&[(1, 4)], "word 1, capacity: it is 4, and has to be 3 for 136 words"),
        (&[(2, 4)], "word 2, entries in use: it is 4, and has to be at most 3, the capacity"),
        (
            &[(2, 0x8003)],
            "word 2, entries in use: it is 32771 (0x8003), and has to be at most 3, the capacity",
        ),
        (&[(3, 1)], "word 3, in the header: it is 1, and has to be 0"),
        (&[(15, 0x0010)], "word 15, in the header: it is 16 (0x0010), and has to be 0"),
        (&[(63, 0xFFFF)], "word 63, in the header: it is 65535 (0xFFFF), and has to be 0"),
    ]);
}

#[test]
fn faults_of_an_opening() {
    assert_told(&[
        (
            &[(16, 0x7F80)],
            "words 16 and 17, coefficient 1 of sensor 1's opening: it is 7F80 0000, and has to be a finite number",
        ),
        (
            &[(24, 0x3F99), (25, 0x999B)],
            "words 24 and 25, coefficient 2 of sensor 2's opening: it is 1.2000002 (3F99 999B), and has to be 0.85 to 1.2",
        ),
        (
            &[(28, 0xC120), (29, 1)],
            "words 28 and 29, coefficient 1 of sensor 3's opening: it is -10.000001 (C120 0001), and has to be -10 to 10",
        ),
        (
            &[(36, 0x7F7F), (37, 0xFFFF)],
            "words 36 and 37, coefficient 2 of sensor 4's opening: it is 3.4028235e38 (7F7F FFFF), and has to be 0.125 to 8",
        ),
        (
            &[(38, 0x8000)],
            "words 38 and 39, coefficient 3 of sensor 4's opening: it is -0 (8000 0000), and has to be 0 (0000 0000) on this sensor",
        ),
    ]);
}

#[test]
fn faults_of_an_entrys_sensor_and_method() {
    assert_told(&[
        (&[(65, 0)], "word 65, sensor of entry 1: it is 0, and has to be 1 to 4"),
        (
            &[(65, 0x0102)],
            "word 65, sensor of entry 1: it is 258 (0x0102), and has to be 1 to 4",
        ),
        (
            &[(66, 3)],
            "word 66, method of entry 1 (sensor 2): it is 3, and has to be 0, 1 or 2",
        ),
        (
            &[(89, 3), (4, 0), (8, 0), (6, 2), (10, 2)],
            "word 90, method of entry 2 (sensor 3): it is 1, and has to be 0",
        ),
    ]);
}

#[test]
fn faults_of_an_entrys_floats_and_zeros() {
    assert_told(&[
        (
            &[(70, 0xFFC0)],
            "words 70 and 71, coefficient 1 of entry 1 (sensor 2): it is FFC0 0000, and has to be a finite number",
        ),
        (
            &[(130, 0xFF80)],
            "words 130 and 131, y2 of entry 3 (sensor 2): it is FF80 0000, and has to be a finite number",
        ),
        (
            &[(118, 0xBE80)],
            "words 118 and 119, coefficient 1 of entry 3 (sensor 2): it is -0.25 (BE80 0000), and has to be -0.2 to 0.2",
        ),
        (
            &[(123, 1)],
            "words 122 and 123, coefficient 3 of entry 3 (sensor 2): it is 1e-45 (0000 0001), and has to be 0 (0000 0000) on this sensor",
        ),
        (
            &[(104, 0x4100)],
            "words 104 and 105, x2 of entry 2 (sensor 1): it is 8 (4100 0000), and has to be 0 (0000 0000): method 1 doesn't use it",
        ),
        (
            &[(126, 0x8000)],
            "words 126 and 127, y1 of entry 3 (sensor 2): it is -0 (8000 0000), and has to be 0 (0000 0000): method 0 doesn't use it",
        ),
        (&[(108, 1)], "word 108, word 20 of entry 2 (sensor 1): it is 1, and has to be 0"),
        (
            &[(87, 0x0010)],
            "word 87, word 23 of entry 1 (sensor 2): it is 16 (0x0010), and has to be 0",
        ),
    ]);
}

#[test]
fn an_entry_may_name_any_technician() {
    for technician in [0, 1, 7, 0x0100, 0x8000, 0xFFFF] {
        assert_eq!(held(&with(&[(67, technician), (91, !technician), (115, 7)])), None);
    }
}

#[test]
fn coefficients_that_the_points_do_not_give() {
    assert_told(&[
        (
            &[(70, 0x8000)],
            "words 70 and 71, coefficient 1 of entry 1 (sensor 2): it is -0 (8000 0000), and the points give 0 (0000 0000)",
        ),
        (
            &[(73, 1)],
            "words 72 and 73, coefficient 2 of entry 1 (sensor 2): it is 1.1250001 (3F90 0001), and the points give 1.125 (3F90 0000)",
        ),
        (
            &[(94, 0x8000)],
            "words 94 and 95, coefficient 1 of entry 2 (sensor 1): it is -0 (8000 0000), and the points give 0 (0000 0000)",
        ),
        (
            &[(102, 0x447A), (103, 0)],
            "words 96 and 97, coefficient 2 of entry 2 (sensor 1): it is 1.25 (3FA0 0000), and the points give 1 (3F80 0000)",
        ),
        (
            &[(100, 0), (101, 1)],
            "words 96 and 97, coefficient 2 of entry 2 (sensor 1): it is 1.25 (3FA0 0000), and the points give no finite number",
        ),
        (
            &[(114, 1)],
            "words 124 and 125, x1 of entry 3 (sensor 2): it is 0 (0000 0000), and method 1 divides by it",
        ),
        (
            &[(114, 2), (128, 0x8000)],
            "words 128 and 129, x2 of entry 3 (sensor 2): it is -0 (8000 0000), the same as x1, and method 2 divides by x1 - x2",
        ),
    ]);
}

#[test]
fn links_that_miss_an_entry() {
    assert_told(&[
        (
            &[(5, 0)],
            "word 5, first entry of sensor 2: it is 0, and has to be 1, the sensor's first entry (word 65)",
        ),
        (
            &[(64, 2)],
            "word 64, next of entry 1 (sensor 2): it is 2, and has to be 3, the sensor's next entry (word 113)",
        ),
        (
            &[(113, 1)],
            "word 88, next of entry 2 (sensor 1): it is 0, and has to be 3, the sensor's next entry (word 113)",
        ),
    ]);
}

#[test]
fn chains_that_end_wrongly() {
    assert_told(&[
        (
            &[(6, 3)],
            "word 6, first entry of sensor 3: it is 3, and has to be 0: the sensor has no entry",
        ),
        (
            &[(112, 1)],
            "word 112, next of entry 3 (sensor 2): it is 1, and has to be 0: the sensor has no later entry",
        ),
        (
            &[(112, 4)],
            "word 112, next of entry 3 (sensor 2): it is 4, and has to be at most 3, the entries in use (word 2)",
        ),
        (
            &[(2, 0)],
            "word 4, first entry of sensor 1: it is 2, and has to be at most 0, the entries in use (word 2)",
        ),
        (
            &[(9, 1)],
            "word 9, last entry of sensor 2: it is 1, and has to be 3, where the chain ends",
        ),
        (
            &[(11, 3)],
            "word 11, last entry of sensor 4: it is 3, and has to be 0: the sensor has no entry",
        ),
    ]);
}

/// Zeros of the header, an opening and entries 1 and 2, the link to entry 2, entry 3, the link to it, a chain's end and a last word.
#[test]
fn the_first_fault_is_the_one_that_the_audit_meets_first() {
    let in_order = [(63, 1), (39, 1), (87, 1), (111, 1), (4, 0), (135, 1), (64, 2), (6, 1), (11, 1)];
    for (i, (at, _)) in in_order.iter().enumerate() {
        let fault = held(&with(&in_order[i..])).unwrap();
        assert!(fault.words.contains(at), "{fault} isn't of word {at}");
    }
}

/// Of one sensor: its chain's end comes before its last word, and both before the next sensor's.
#[test]
fn chains_end_sensor_by_sensor() {
    let in_order = [(6, 4), (10, 1), (7, 4), (11, 1)];
    for (i, (at, _)) in in_order.iter().enumerate() {
        assert_eq!(held(&with(&in_order[i..])).unwrap().words, *at..at + 1);
    }
}

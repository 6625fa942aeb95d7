//! How a page fits its journal, and what a printed page shows.

use std::collections::BTreeSet;
use twin::calibration::{LEVEL, SENSORS};
use twin::page::LINE_BYTES;
use twin::volume::{entries, openings, Record, CAPACITY_MOST, ENTRY_WORDS, HEADER_WORDS};

/// The bytes of a page, beside those that the entries in use take.
#[derive(Clone, Copy, Debug, PartialEq, Eq, PartialOrd, Ord)]
pub enum Fit {
    Empty,
    Shorter,
    /// Short of one line.
    LineShort,
    /// Short of one byte.
    ByteShort,
    Just,
    ByteLonger,
    Longer,
}

pub const FITS: [Fit; 7] = [
    Fit::Empty,
    Fit::Shorter,
    Fit::LineShort,
    Fit::ByteShort,
    Fit::Just,
    Fit::ByteLonger,
    Fit::Longer,
];

impl Fit {
    pub fn of(page: usize, due: usize) -> Fit {
        match page {
            0 => Fit::Empty,
            _ if page + LINE_BYTES == due => Fit::LineShort,
            _ if page + 1 == due => Fit::ByteShort,
            _ if page < due => Fit::Shorter,
            _ if page == due => Fit::Just,
            _ if page == due + 1 => Fit::ByteLonger,
            _ => Fit::Longer,
        }
    }

    /// What a print of a valid volume answers.
    pub fn number(self) -> u8 {
        match self {
            Fit::Empty | Fit::Shorter | Fit::LineShort | Fit::ByteShort => 7,
            Fit::Just | Fit::ByteLonger | Fit::Longer => 0,
        }
    }
}

/// What a printed page shows.
#[derive(Clone, Copy, Debug, PartialEq, Eq, PartialOrd, Ord)]
pub enum Printed {
    /// So many entries, where they are none, one or the most.
    Entries(usize),
    /// The digits of the last index.
    Index {
        digits: u32,
    },
    /// An opening that isn't a fresh one.
    Opening {
        sensor: u16,
    },
    Entry {
        sensor: u16,
        method: u16,
    },
    Technician {
        digits: u32,
    },
    /// The greatest number of a technician.
    MostTechnician,
    Time {
        opening: bool,
        digits: u32,
    },
    /// The greatest time.
    MostTime {
        opening: bool,
    },
    /// A digit of a coefficient.
    Digit(u32),
    MinusZero {
        opening: bool,
    },
    /// The order by index isn't the order by sensor.
    Mixed,
    /// The volume has words that are never used.
    LongVolume,
}

/// What the page of a valid volume shows.
pub fn shown(volume: &[u16]) -> BTreeSet<Printed> {
    let mut items = BTreeSet::new();
    let entries: Vec<Record> = entries(volume).collect();
    let (count, last) = (entries.len(), digits(entries.len() as u32));
    items.extend([0, 1, CAPACITY_MOST].contains(&count).then_some(Printed::Entries(count)));
    items.extend((count > 0).then_some(Printed::Index { digits: last }));
    items.extend((!entries.is_sorted_by_key(|entry| entry.sensor)).then_some(Printed::Mixed));
    let most = HEADER_WORDS + ENTRY_WORDS * CAPACITY_MOST;
    items.extend((volume.len() > most).then_some(Printed::LongVolume));
    openings(volume).chain(entries).for_each(|record| show(&mut items, &record));
    items
}

fn show(items: &mut BTreeSet<Printed>, record: &Record) {
    let Record {
        sensor, technician, time, ..
    } = *record;
    let opening = record.method.is_none();
    match record.method {
        Some(method) => {
            let digits = digits(technician.into());
            items.extend([Printed::Entry { sensor, method }, Printed::Technician { digits }]);
        }
        None => items.extend((time != 0).then_some(Printed::Opening { sensor })),
    }
    items.extend((technician == u16::MAX).then_some(Printed::MostTechnician));
    let digits = digits(time);
    items.insert(Printed::Time { opening, digits });
    items.extend((time == u32::MAX).then_some(Printed::MostTime { opening }));
    for bits in record.coefficients {
        items.extend((0..8).map(|place| Printed::Digit(bits >> (4 * place) & 0x0F)));
        items.extend((bits == 0x8000_0000).then_some(Printed::MinusZero { opening }));
    }
}

/// Of a decimal number.
fn digits(number: u32) -> u32 {
    number.checked_ilog10().unwrap_or(0) + 1
}

/// What the pages of a run have to show.
pub fn required() -> Vec<Printed> {
    let mut items = vec![Printed::MostTechnician, Printed::Mixed, Printed::LongVolume];
    items.extend([0, 1, CAPACITY_MOST].map(Printed::Entries));
    items.extend((1..=4).map(|digits| Printed::Index { digits }));
    items.extend((1..=5).map(|digits| Printed::Technician { digits }));
    items.extend((0..16).map(Printed::Digit));
    for opening in [false, true] {
        items.extend((1..=10).map(|digits| Printed::Time { opening, digits }));
        items.push(Printed::MostTime { opening });
        items.push(Printed::MinusZero { opening });
    }
    for index in 0..SENSORS {
        let (sensor, methods) = (index as u16 + 1, if index == LEVEL { 1 } else { 3 });
        items.push(Printed::Opening { sensor });
        items.extend((0..methods).map(|method| Printed::Entry { sensor, method }));
    }
    items
}

#[cfg(test)]
mod tests {
    use super::*;

    #[test]
    fn digits_of_numbers() {
        let known = [(0, 1), (9, 1), (10, 2), (65535, 5), (999_999_999, 9), (u32::MAX, 10)];
        assert!(known.into_iter().all(|(number, count)| digits(number) == count));
    }

    #[test]
    fn fits_beside_a_page() {
        let known = [
            (0, Fit::Empty),
            (1, Fit::Shorter),
            (159, Fit::LineShort),
            (160, Fit::Shorter),
            (211, Fit::ByteShort),
            (212, Fit::Just),
            (213, Fit::ByteLonger),
            (214, Fit::Longer),
        ];
        for (page, fit) in known {
            assert_eq!(Fit::of(page, 212), fit, "{page}");
            assert_eq!(fit.number() == 0, page >= 212);
        }
    }
}

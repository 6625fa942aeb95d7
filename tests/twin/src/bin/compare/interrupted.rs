//! What cuts, appends and salvages meet, and what they have to have met.

use crate::both::Both;
use crate::calls::{Cut, Request};
use crate::cuts::{in_use, places};
use crate::ports::{Way, ASCII_ON_RADIO, WAYS};
use sonde::ffi;
use std::collections::BTreeSet;
use twin::calibration::{LEVEL, SENSORS};
use twin::frames::{judge, Change, SensorChange, Verdict};
use twin::framing::Room;
use twin::volume::{capacity, APPEND_STORES, ENTRY_WORDS, HEADER_WORDS};
use twin::Framing;

/// More stores than an append has count as so many.
pub const MORE_STORES: usize = APPEND_STORES + 1;

/// A frame that appends nothing.
#[derive(Clone, Copy, Debug, PartialEq, Eq, PartialOrd, Ord)]
pub enum Barren {
    /// An update without room for its reply.
    ShortUpdate,
    ShortReply,
    Bad,
    Foreign,
    /// A read at address 0.
    Ignored,
    Read,
    Refused,
    /// An update that is refused for its limits alone.
    Failed,
    Written,
}

const BARREN: [Barren; 9] = [
    Barren::ShortUpdate,
    Barren::ShortReply,
    Barren::Bad,
    Barren::Foreign,
    Barren::Ignored,
    Barren::Read,
    Barren::Refused,
    Barren::Failed,
    Barren::Written,
];

/// What is cut; sensors count from 0.
#[derive(Clone, Copy, Debug, PartialEq, Eq, PartialOrd, Ord)]
pub enum Interrupted {
    /// An accepted calibration, after so many stores; whether its entry is the first of its chain.
    Update {
        sensor: usize,
        method: u16,
        first: bool,
        stores: usize,
    },
    /// In a list that goes on; whether the update is taken.
    Followed {
        sensor: usize,
        taken: bool,
    },
    /// The same by how the update came.
    FollowedBy {
        way: Way,
        taken: bool,
    },
    Nothing {
        way: Way,
        barren: Barren,
    },
    NoPort(Framing),
}

/// The sensor whose update the frame is, where it appends an entry: sonde and volume have to be in agreement.
pub fn appends(both: &Both, request: &Request) -> Option<usize> {
    interrupted(both, request, Way::of(request.arrival)?).ok()
}

/// How a frame that isn't bad is judged, where sonde and volume are in agreement.
fn verdict(both: &Both, request: &Request, way: Way) -> Option<Verdict> {
    let mut room = Room::None;
    let body = way.body(&request.bytes, &mut room)?;
    let full = in_use(&both.twin_volume) == capacity(request.words);
    Some(judge(both.twin.address, &both.twin.settings, full, way.port, body))
}

/// The sensor whose entry the frame appends, or why it appends none.
fn interrupted(both: &Both, request: &Request, way: Way) -> Result<usize, Barren> {
    let short = request.reply < way.framing.reply_least();
    Err(match verdict(both, request, way) {
        Some(Verdict::Write(Change::Sensor {
            sensor,
            change: SensorChange::Update(_),
        })) => return if short { Err(Barren::ShortUpdate) } else { Ok(sensor) },
        _ if short => Barren::ShortReply,
        None => Barren::Bad,
        Some(Verdict::Foreign) => Barren::Foreign,
        Some(Verdict::Ignored) => Barren::Ignored,
        Some(Verdict::Read { .. }) => Barren::Read,
        Some(Verdict::Refused(_)) => Barren::Refused,
        Some(Verdict::OutOfLimits { .. }) => Barren::Failed,
        Some(Verdict::Write(_)) => Barren::Written,
    })
}

/// What a cut meets, by what there is before it.
pub fn of_cut(both: &Both, cut: &Cut, followed: bool) -> Vec<Interrupted> {
    let Some(way) = Way::of(cut.request.arrival) else {
        return vec![Interrupted::NoPort(cut.request.arrival.framing)];
    };
    let sensor = match interrupted(both, &cut.request, way) {
        Ok(sensor) => sensor,
        Err(barren) => return vec![Interrupted::Nothing { way, barren }],
    };
    let taken = cut.stores >= APPEND_STORES;
    let update = Interrupted::Update {
        sensor,
        method: both.twin.settings.sensors[sensor].method,
        first: both.twin_volume[8 + sensor] == 0,
        stores: cut.stores.min(MORE_STORES),
    };
    let mut items = vec![update];
    if followed {
        items.extend([Interrupted::Followed { sensor, taken }, Interrupted::FollowedBy { way, taken }]);
    }
    items
}

/// The cuts of accepted calibrations that a run has to meet: every one on every kind of entry.
pub fn required_updates() -> Vec<Interrupted> {
    let mut items = Vec::new();
    for sensor in 0..SENSORS {
        let methods = if sensor == LEVEL { 0..1 } else { 0..3 };
        for (method, first) in methods.flat_map(|method| [(method, false), (method, true)]) {
            items.extend((0..=MORE_STORES).map(|stores| Interrupted::Update {
                sensor,
                method,
                first,
                stores,
            }));
        }
    }
    items
}

pub fn required_cuts() -> Vec<Interrupted> {
    let mut items = required_updates();
    for taken in [false, true] {
        items.extend((0..SENSORS).map(|sensor| Interrupted::Followed { sensor, taken }));
        items.extend(WAYS.map(|way| Interrupted::FollowedBy { way, taken }));
    }
    items.extend(
        WAYS.into_iter()
            .flat_map(|way| BARREN.map(|barren| Interrupted::Nothing { way, barren })),
    );
    items.push(Interrupted::Nothing {
        way: ASCII_ON_RADIO,
        barren: Barren::Bad,
    });
    items.extend([Framing::Rtu, Framing::Ascii].map(Interrupted::NoPort));
    items
}

/// Where the link of an append goes.
#[derive(Clone, Copy, Debug, PartialEq, Eq, PartialOrd, Ord)]
pub enum Link {
    /// The chain's first.
    First,
    /// An earlier entry.
    Earlier,
    /// The entry itself, which no journal does.
    Itself,
    /// Free words.
    Free,
    /// Past the end of the volume: no store.
    Past,
}

/// What an append meets.
#[derive(Clone, Copy, Debug, PartialEq, Eq, PartialOrd, Ord)]
pub enum Appended {
    /// So many stores of an append that makes some.
    Stores(usize),
    Sensor(u16),
    /// A valid entry, to a valid volume with room.
    Valid {
        stores: usize,
    },
    /// A NaN of other bits than the one that is stored.
    OtherNan,
    Full,
    /// No room for any entry.
    Short,
    Link(Link),
}

/// What an append meets, by the words that it is lent.
pub fn of_append(volume: &[u16], entry: &ffi::Entry, stores: usize) -> BTreeSet<Appended> {
    let mut items = BTreeSet::from([Appended::Sensor(entry.sensor)]);
    let (in_use, capacity) = (in_use(volume), capacity(volume.len()));
    items.extend((capacity == 0).then_some(Appended::Short));
    items.extend((capacity > 0 && in_use >= capacity).then_some(Appended::Full));
    let places = places(volume, entry.sensor);
    let Some(&link) = places.get(ENTRY_WORDS) else {
        return items;
    };
    items.insert(Appended::Stores(stores.min(MORE_STORES)));
    let coefficients = [
        entry.calibration.coefficient1,
        entry.calibration.coefficient2,
        entry.calibration.coefficient3,
    ];
    let other_nan = coefficients.iter().any(|value| value.is_nan() && value.to_bits() != 0x7FC0_0000);
    items.extend((other_nan && stores >= ENTRY_WORDS).then_some(Appended::OtherNan));
    let link = match link {
        _ if link < HEADER_WORDS => Link::First,
        _ if link >= volume.len() => Link::Past,
        _ if link == places[0] => Link::Itself,
        _ if link < places[0] => Link::Earlier,
        _ => Link::Free,
    };
    items.extend((stores > ENTRY_WORDS).then_some(Appended::Link(link)));
    items
}

pub fn required_appends() -> Vec<Appended> {
    let mut items = vec![Appended::OtherNan, Appended::Full, Appended::Short];
    items.extend([0, 1, 2, 3, 4, 5, 6, 65535].map(Appended::Sensor));
    items.extend([Link::First, Link::Earlier, Link::Itself, Link::Free, Link::Past].map(Appended::Link));
    for stores in 0..=MORE_STORES {
        items.extend([Appended::Stores(stores), Appended::Valid { stores }]);
    }
    items
}

#[cfg(test)]
mod tests {
    use super::*;

    /// A volume with room for three entries, the first of which is in use, on sensor 1.
    fn volume() -> Vec<u16> {
        let mut volume = vec![0; HEADER_WORDS + 3 * ENTRY_WORDS];
        [volume[2], volume[4], volume[8]] = [1; 3];
        volume
    }

    #[test]
    fn links_of_appends() {
        let known = [
            (0, Link::First),
            (1, Link::Earlier),
            (2, Link::Itself),
            (3, Link::Free),
            (4, Link::Past),
            (65535, Link::Past),
        ];
        for (last, link) in known {
            let mut volume = volume();
            volume[8] = last;
            let entry = ffi::Entry {
                sensor: 1,
                ..ffi::Entry::default()
            };
            assert!(of_append(&volume, &entry, 25).contains(&Appended::Link(link)));
            assert!(!of_append(&volume, &entry, 24).contains(&Appended::Link(link)));
        }
    }

    #[test]
    fn appends_without_stores() {
        let entry = |sensor| ffi::Entry {
            sensor,
            ..ffi::Entry::default()
        };
        let none = |words: usize, sensor: u16| of_append(&volume()[..words], &entry(sensor), 27);
        assert!(none(87, 1).contains(&Appended::Short));
        assert!(none(88, 1).contains(&Appended::Full));
        assert_eq!(none(136, 5), BTreeSet::from([Appended::Sensor(5)]));
        assert!(none(112, 4).contains(&Appended::Stores(27)));
    }

    #[test]
    fn kinds_of_updates() {
        assert_eq!(required_updates().len(), 2 * 10 * 29);
    }
}

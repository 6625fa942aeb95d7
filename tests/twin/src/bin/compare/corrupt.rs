//! Sondes and volumes that no call leaves behind: one thing wrong, in both implementations alike.

use crate::both::Both;
use crate::random::Random;
use crate::values;
use twin::calibration::{DIRECT, LEVEL, LIMITS, ONE_POINT, TWO_POINTS};
use twin::map::PARAMETERS;
use twin::state::Sonde;
use twin::volume::{capacity, ENTRY_WORDS, HEADER_WORDS};

#[derive(Clone, Copy, Debug, PartialEq, Eq, PartialOrd, Ord)]
pub enum Corruption {
    Address,
    ActiveNotFinite,
    TrialNotFinite,
    PointNotFinite,
    SentinelNotFinite,
    RawNotFinite,
    Units,
    Method,
    LevelId,
    OutOfLimits,
    ActiveBit,
    ActiveTime,
    SpareUnits,
    SpareLevelId,
    Mode,
    TrialThird,
    Technician,
    Version,
    CapacityWord,
    InUse,
    HeaderZero,
    First,
    Last,
    OpeningCoefficient,
    OpeningTime,
    EntryNext,
    EntrySensor,
    EntryMethod,
    EntryTechnician,
    EntryZero,
    EntryTime,
    EntryCoefficient,
    EntryPoint,
    LevelByPoint,
    FreeWord,
    SwappedLinks,
    ForeignLink,
    ChainWords,
    NotFromPoints,
    NegativeZero,
    AnyWords,
    AnyLength,
    WordLonger,
    WordShorter,
    EntryLonger,
    EntryShorter,
}

use Corruption::*;

/// Those that change the sonde.
pub const OF_SONDE: [Corruption; 17] = [
    Address,
    ActiveNotFinite,
    TrialNotFinite,
    PointNotFinite,
    SentinelNotFinite,
    RawNotFinite,
    Units,
    Method,
    LevelId,
    OutOfLimits,
    ActiveBit,
    ActiveTime,
    SpareUnits,
    SpareLevelId,
    Mode,
    TrialThird,
    Technician,
];

/// Those that change the volume, or how much of it is lent.
pub const OF_VOLUME: [Corruption; 29] = [
    Version,
    CapacityWord,
    InUse,
    HeaderZero,
    First,
    Last,
    OpeningCoefficient,
    OpeningTime,
    EntryNext,
    EntrySensor,
    EntryMethod,
    EntryTechnician,
    EntryZero,
    EntryTime,
    EntryCoefficient,
    EntryPoint,
    LevelByPoint,
    FreeWord,
    SwappedLinks,
    ForeignLink,
    ChainWords,
    NotFromPoints,
    NegativeZero,
    AnyWords,
    AnyLength,
    WordLonger,
    WordShorter,
    EntryLonger,
    EntryShorter,
];

impl Corruption {
    /// Whether sonde and volume stay valid and in agreement.
    pub fn harmless(self) -> bool {
        let of_sonde = matches!(self, SpareUnits | SpareLevelId | Mode | TrialThird | Technician);
        of_sonde || matches!(self, EntryTechnician | FreeWord)
    }

    /// Whether sonde and volume may still be valid and in agreement: what was picked can be listed, overruled by a later entry, or a length
    /// of the same capacity.
    pub fn uncertain(self) -> bool {
        let listed = matches!(self, Units | EntryMethod | InUse);
        let overruled = matches!(self, OpeningCoefficient | OpeningTime | EntryTime | EntryCoefficient | EntryPoint);
        listed || overruled || matches!(self, AnyLength | WordLonger | WordShorter | EntryLonger | EntryShorter)
    }

    /// Whether the sonde or the volume stays valid by itself.
    pub fn disagreement(self) -> bool {
        matches!(self, ActiveBit | ActiveTime | OpeningTime | EntryTime)
    }

    /// Whether a volume so changed is invalid by itself; `None` where it can be either.
    pub fn invalid(self) -> Option<bool> {
        match self {
            _ if self.harmless() || self.disagreement() => Some(false),
            _ if self.uncertain() => None,
            _ => Some(true),
        }
    }

    /// Whether it changes chain words alone, to others.
    pub fn of_chains(self) -> bool {
        matches!(self, First | Last | EntryNext | SwappedLinks | ForeignLink | ChainWords)
    }

    /// Whether a volume so changed is beyond salvage; `None` where it can be either. An entry may go to another sensor's chain.
    pub fn beyond_salvage(self) -> Option<bool> {
        match self {
            EntrySensor => None,
            _ if self.of_chains() => Some(false),
            _ => self.invalid(),
        }
    }
}

pub fn corrupt_sonde(sonde: &mut Sonde, corruption: Corruption, random: &mut Random) {
    let sensor = if corruption == LevelId { LEVEL } else { random.below(4) };
    let wrong = values::not_finite(random);
    let settings = &mut sonde.settings.sensors[sensor];
    let parameters = PARAMETERS[sensor].len();
    match corruption {
        Address => sonde.address = random.pick(&[0, 248, 249, 255]),
        ActiveNotFinite => settings.active.coefficients[random.below(3)] = wrong,
        TrialNotFinite => settings.trial[random.below(3)] = wrong,
        PointNotFinite => settings.points[random.below(4)] = wrong,
        SentinelNotFinite => settings.sentinels[random.below(3)] = wrong,
        RawNotFinite => sonde.samples[sensor].raws[random.below(2)] = wrong,
        Units => settings.units[random.below(parameters)] ^= random.pick(&[4, 8, 0x40, 0x100, 0x8000]),
        Method => {
            settings.method = if sensor == LEVEL {
                random.pick(&[1, 2, 3])
            } else {
                random.pick(&[3, 4, 0x100, 0xFFFF])
            }
        }
        LevelId => settings.level_id = random.pick(&[0, 2, 6, 0x103, 0xFFFF]),
        OutOfLimits => step_out_of_limits(&mut settings.active.coefficients, sensor, random),
        ActiveBit => flip_float(&mut settings.active.coefficients[random.below(3)], random),
        ActiveTime => settings.active.time ^= 1 << random.below(32),
        SpareUnits if parameters < 3 => settings.units[random.between(parameters, 2)] = random.word(),
        SpareLevelId => sonde.settings.sensors[random.pick(&[0, 1, 3])].level_id = random.word(),
        Mode => settings.calibrating = !settings.calibrating,
        TrialThird => {
            settings.calibrating = true;
            // By one or two of these points a slope out of every sensor's limits, with which the third is +0.0.
            settings.method = if sensor == LEVEL {
                DIRECT
            } else {
                random.pick(&[DIRECT, ONE_POINT, TWO_POINTS])
            };
            settings.points = [2.0, 1000.0, 1.0, 0.0];
            settings.trial = settings.active.coefficients;
            settings.trial[2] = random.pick(&[-0.0, 1.0, -1.0, f32::from_bits(1)]);
        }
        Technician => change(&mut sonde.settings.technician, random),
        _ => sonde.settings.sensors[LEVEL].units[2] = random.word(),
    }
}

fn step_out_of_limits(coefficients: &mut [f32; 3], sensor: usize, random: &mut Random) {
    let coefficient = random.below(3);
    coefficients[coefficient] = match LIMITS[sensor][coefficient] {
        Some((low, high)) => random.pick(&[low.next_down(), high.next_up()]),
        None => random.pick(&[-0.0, f32::from_bits(1)]),
    };
}

fn flip_float(value: &mut f32, random: &mut Random) {
    *value = f32::from_bits(value.to_bits() ^ 1 << random.below(32));
}

/// Corrupts the volume; false where it has nothing to corrupt so.
pub fn corrupt_volume(both: &mut Both, corruption: Corruption, random: &mut Random) -> bool {
    let lent = both.lent;
    let words = match corruption {
        AnyLength => any_length(random, both.twin_volume.len()),
        WordLonger => lent + 1,
        WordShorter => lent - 1,
        EntryLonger => lent + ENTRY_WORDS,
        EntryShorter => lent - ENTRY_WORDS,
        _ => lent,
    };
    if words > both.twin_volume.len() {
        return false;
    }
    let mut done = words != lent;
    both.change_volume(|volume| done |= corrupt_words(&mut volume[..lent], corruption, random));
    both.lent = words;
    done
}

/// Up to two words beside each length at which the capacity changes, or a length without a whole header.
fn any_length(random: &mut Random, room: usize) -> usize {
    let edge = random.pick(&[64, 88, 112, 24040, 24064]) + random.between(0, 4) - 2;
    let short = random.below(HEADER_WORDS);
    if edge <= room {
        random.pick(&[edge, edge, edge, short])
    } else {
        short
    }
}

/// Header words that have to be 0.
const HEADER_ZEROS: [usize; 21] = [3, 12, 13, 14, 15, 48, 49, 50, 51, 52, 53, 54, 55, 56, 57, 58, 59, 60, 61, 62, 63];

fn corrupt_words(volume: &mut [u16], corruption: Corruption, random: &mut Random) -> bool {
    let in_use = usize::from(volume[2]);
    match corruption {
        AnyLength if random.chance(70) => {}
        WordLonger | WordShorter | EntryLonger | EntryShorter => {}
        AnyWords | AnyLength => any_words(volume, random),
        FreeWord => return corrupt_free_word(volume, in_use, random),
        Version => change(&mut volume[0], random),
        CapacityWord => change(&mut volume[1], random),
        InUse => volume[2] = random.pick(&[volume[2] + 1, volume[2].wrapping_sub(1), volume[1] + 1, 0, 1, 2, 65535]),
        HeaderZero => change(&mut volume[random.pick(&HEADER_ZEROS)], random),
        First => relink(&mut volume[random.between(4, 7)], in_use, random),
        Last => relink(&mut volume[random.between(8, 11)], in_use, random),
        OpeningCoefficient => change(&mut volume[random.between(16, 39)], random),
        OpeningTime => change(&mut volume[random.between(40, 47)], random),
        NegativeZero if random.chance(20) => volume[16 + 6 * random.pick(&[0, 1, 3]) + 4] ^= 0x8000,
        ChainWords => scatter_links(volume, in_use, random),
        _ if in_use == 0 => return false,
        SwappedLinks => return swap_links(volume, in_use, random),
        ForeignLink => return link_through_another(volume, in_use, random),
        _ => {
            return corrupt_entry(
                &mut volume[HEADER_WORDS + ENTRY_WORDS * random.below(in_use)..],
                in_use,
                corruption,
                random,
            )
        }
    }
    true
}

/// Another value of a word: one bit, a small number or any.
fn change(word: &mut u16, random: &mut Random) {
    let other = random.word().max(1);
    *word = match random.below(4) {
        0 => word.wrapping_add(1),
        1 => *word ^ other,
        _ => *word ^ 1 << random.below(16),
    };
}

/// Another index, most of the time one in use.
fn relink(word: &mut u16, in_use: usize, random: &mut Random) {
    let index = random.between(0, in_use + 1) as u16;
    *word = if index == *word {
        word.wrapping_add(random.pick(&[1, 0xFFFF]))
    } else {
        index
    };
}

fn corrupt_free_word(volume: &mut [u16], in_use: usize, random: &mut Random) -> bool {
    let free = HEADER_WORDS + ENTRY_WORDS * in_use;
    if free >= volume.len() {
        return false;
    }
    change(&mut volume[random.between(free, volume.len() - 1)], random);
    true
}

/// Swaps two chain words that differ, of entries or of the header.
fn swap_links(volume: &mut [u16], in_use: usize, random: &mut Random) -> bool {
    let mut links: Vec<usize> = (4..12).collect();
    links.extend((0..in_use).map(|entry| HEADER_WORDS + ENTRY_WORDS * entry));
    let (left, right) = (random.pick(&links), random.pick(&links));
    volume.swap(left, right);
    volume[left] != volume[right]
}

/// Other words in the header's chains, and any in those of the entries.
fn scatter_links(volume: &mut [u16], in_use: usize, random: &mut Random) {
    let wild = random.chance(50);
    let nexts = (0..in_use).map(|entry| HEADER_WORDS + ENTRY_WORDS * entry);
    for link in (4..12).chain(nexts) {
        relink(&mut volume[link], in_use, random);
        if wild && link >= HEADER_WORDS {
            volume[link] = random.word();
        }
    }
}

/// Makes a last one that isn't in use: the next entry, a free one, or past the volume.
pub fn stray_last(volume: &mut [u16], random: &mut Random) {
    let (used, any) = (volume[2], random.word());
    volume[8 + random.below(4)] = random.pick(&[used + 1, used + 1, used + 2, used + 3, 1001, 65535, any]);
}

/// Leads the chain of an entry's sensor through an entry of another: a -> b becomes a -> c -> b.
fn link_through_another(volume: &mut [u16], in_use: usize, random: &mut Random) -> bool {
    let at = |index: usize| HEADER_WORDS + ENTRY_WORDS * (index - 1);
    let pairs = (0..4).map(|_| (random.between(1, in_use), random.between(1, in_use)));
    let foreign = |&(from, through): &(usize, usize)| through > from && volume[at(through) + 1] != volume[at(from) + 1];
    let Some((from, through)) = pairs.filter(foreign).last() else {
        return false;
    };
    if volume[at(from)] > through as u16 {
        volume[at(through)] = volume[at(from)];
    }
    volume[at(from)] = through as u16;
    true
}

fn corrupt_entry(entry: &mut [u16], in_use: usize, corruption: Corruption, random: &mut Random) -> bool {
    let method = entry[2];
    match corruption {
        EntryNext => relink(&mut entry[0], in_use, random),
        EntrySensor => entry[1] = random.pick(&[0, 1, 2, 3, 4, 5, 0x101, 65535].map(|sensor| if sensor == entry[1] { 0 } else { sensor })),
        EntryMethod => entry[2] = random.pick(&[1, 2, 3, 65535].map(|other| if other == method { 0 } else { other })),
        EntryTechnician => change(&mut entry[3], random),
        EntryZero => change(&mut entry[random.between(20, 23)], random),
        EntryTime => change(&mut entry[random.between(4, 5)], random),
        EntryCoefficient => change(&mut entry[random.between(6, 11)], random),
        EntryPoint => change(&mut entry[random.between(12, 19)], random),
        LevelByPoint if entry[1] != 3 => return false,
        LevelByPoint => make_by_point(entry),
        NotFromPoints if method == DIRECT => return false,
        NotFromPoints => entry[random.pick(&[7, 9])] ^= 1,
        _ => return negate_zero(entry, random),
    }
    true
}

/// Makes an entry one of method 1, with all that this asks: x1 is 1, and y1 coefficient 2.
fn make_by_point(entry: &mut [u16]) {
    entry[2] = ONE_POINT;
    entry[6..8].fill(0);
    entry[10..12].fill(0);
    entry[12..14].copy_from_slice(&[0x3F80, 0]);
    entry.copy_within(8..10, 14);
}

/// Makes a float that has to be +0.0 a -0.0.
fn negate_zero(entry: &mut [u16], random: &mut Random) -> bool {
    let unused: &[usize] = match entry[2] {
        0 => &[12, 14, 16, 18],
        1 => &[6, 16, 18],
        _ => &[10],
    };
    let at = random.pick(unused);
    entry[at] ^= 0x8000;
    true
}

/// Any words, some of them after a likely header.
fn any_words(volume: &mut [u16], random: &mut Random) {
    let likely = random.chance(70);
    random.fill_words(volume);
    if likely && volume.len() >= HEADER_WORDS {
        let room = capacity(volume.len());
        volume[..HEADER_WORDS].fill(0);
        let in_use = random.between(0, room) as u16;
        volume[..3].copy_from_slice(&[1, room as u16, in_use]);
        volume[4..12].iter_mut().for_each(|link| *link = random.below(4) as u16);
    }
    if likely {
        volume
            .iter_mut()
            .skip(HEADER_WORDS)
            .for_each(|word| *word &= random.pick(&[0, 0, 1, 3, 0xFFFF]));
    }
}

//! Appends that are cut after some of their stores, and salvages, on both implementations; and what is held beside their comparison, in which
//! both alike could be wrong.

use crate::both::{agree, differ_volume, Both};
use crate::calls::{Answer, Cut, Request};
use crate::convert::{entry_from_library, entry_of_words};
use crate::library;
use crate::random::Random;
use sonde::ffi;
use twin::volume::{capacity, APPEND_STORES, ENTRY_WORDS, HEADER_WORDS};

/// The chain words of the header.
pub const CHAIN_WORDS: std::ops::Range<usize> = 4..12;
/// So many choices of the chain words are tried where a small volume is beyond salvage.
const CHOICES: usize = 3;
const SMALL: usize = HEADER_WORDS + 4 * ENTRY_WORDS;

/// Where an entry begins; the first is 0.
pub fn entry_at(place: usize) -> usize {
    HEADER_WORDS + ENTRY_WORDS * place
}

/// The count of a volume, 0 where it is too short to have one.
pub fn in_use(volume: &[u16]) -> usize {
    volume.get(2).copied().unwrap_or(0).into()
}

fn valid(volume: &[u16]) -> bool {
    library::power_up(1, volume).number == 0
}

/// The first stores of an append.
pub fn append(both: &mut Both, words: usize, entry: &ffi::Entry, stores: usize) -> Result<Answer, String> {
    let before = both.library_volume.clone();
    twin::append(&mut both.twin_volume[..words], &entry_from_library(entry), stores);
    library::append(&mut both.library_volume[..words], *entry, stores);
    differ_volume(&both.twin_volume, &both.library_volume)?;
    let mut whole = before.clone();
    library::append(&mut whole[..words], *entry, usize::MAX);
    hold_stores(&before, &whole, &both.library_volume, words, entry.sensor, stores)?;
    Ok(Answer::of(0))
}

/// Where the stores of an append go, in their order; none where it makes none.
pub fn places(volume: &[u16], sensor: u16) -> Vec<usize> {
    let in_use = in_use(volume);
    if in_use >= capacity(volume.len()) || !(1..=4).contains(&sensor) {
        return Vec::new();
    }
    let last = 7 + usize::from(sensor);
    let link = match usize::from(volume[last]) {
        0 => last - 4,
        index => entry_at(index - 1),
    };
    (entry_at(in_use)..entry_at(in_use + 1)).chain([link, last, 2]).collect()
}

/// Each word is old or new: new where its store was made. A link into the entry itself is the second store of its word, which is 0 before that.
fn hold_stores(before: &[u16], whole: &[u16], after: &[u16], words: usize, sensor: u16, stores: usize) -> Result<(), String> {
    let mut due = before.to_vec();
    let places = places(&before[..words], sensor);
    let made = places.iter().take(stores).filter(|&&place| place < words);
    made.for_each(|&place| due[place] = whole[place]);
    let twice = places.get(ENTRY_WORDS) == places.first();
    if !places.is_empty() && twice && (1..=ENTRY_WORDS).contains(&stores) {
        due[places[0]] = 0;
    }
    match (0..due.len()).find(|&word| due[word] != after[word]) {
        None => Ok(()),
        Some(word) => Err(format!(
            "after {stores} stores both have {:#06X} in word {word}, not {:#06X}",
            after[word], due[word]
        )),
    }
}

/// A salvage: number, words that differ, and the volume.
pub fn salvage(both: &mut Both, words: usize, random: &mut Random) -> Result<Answer, String> {
    let before = both.library_volume[..words].to_vec();
    let (number, changed) = twin::salvage(&mut both.twin_volume[..words]);
    let library = library::salvage(&mut both.library_volume[..words]);
    let answer = agree(Answer::new(number, changed), Answer::new(library.number, library.changed))?;
    differ_volume(&both.twin_volume, &both.library_volume)?;
    hold_salvage(&before, &both.library_volume[..words], answer, random)?;
    Ok(answer)
}

fn hold_salvage(before: &[u16], after: &[u16], answer: Answer, random: &mut Random) -> Result<(), String> {
    let changed: Vec<usize> = (0..before.len()).filter(|&word| before[word] != after[word]).collect();
    if changed.len() != answer.length as usize {
        return Err(format!("both report {} words, and {changed:?} differ", answer.length));
    }
    match answer.number {
        0 => hold_salvaged(before, after, &changed),
        8 => hold_beyond(before, after, random),
        number => Err(format!("both salvages give {number}")),
    }
}

/// Chain words alone may differ; the volume is valid, and was it already where none does; another salvage changes nothing.
fn hold_salvaged(before: &[u16], after: &[u16], changed: &[usize]) -> Result<(), String> {
    let chain_word = |word: usize| {
        let next = (HEADER_WORDS..entry_at(in_use(after))).contains(&word) && (word - HEADER_WORDS).is_multiple_of(ENTRY_WORDS);
        CHAIN_WORDS.contains(&word) || next
    };
    if let Some(word) = changed.iter().find(|&&word| !chain_word(word)) {
        return Err(format!("both salvages change word {word}, which is no chain word"));
    }
    if !valid(after) || valid(before) != changed.is_empty() {
        return Err(format!("a volume is invalid after it, or was valid, and {changed:?} differ"));
    }
    let mut again = after.to_vec();
    let second = library::salvage(&mut again);
    match (second.number, second.changed, again == after) {
        (0, 0, true) => Ok(()),
        other => Err(format!(
            "a second salvage gives {other:?} (number, words, whether the volume stays)"
        )),
    }
}

/// The volume stays and is invalid, and so it is with chain words drawn at random.
fn hold_beyond(before: &[u16], after: &[u16], random: &mut Random) -> Result<(), String> {
    if before != after || valid(before) {
        return Err("both salvages refuse a valid volume, or change one that they refuse".to_string());
    }
    if !(HEADER_WORDS..SMALL).contains(&before.len()) {
        return Ok(());
    }
    let mut chosen = before.to_vec();
    for _ in 0..CHOICES {
        choose_links(&mut chosen, random);
        if valid(&chosen) {
            return Err(format!("both salvages refuse a volume that {:?} make valid", &chosen[CHAIN_WORDS]));
        }
    }
    Ok(())
}

/// Chain words at random, of the header and of the entries that the volume has room for.
fn choose_links(volume: &mut [u16], random: &mut Random) {
    let room = capacity(volume.len()).min(in_use(volume));
    let nexts = (0..room).map(entry_at);
    for word in CHAIN_WORDS.chain(nexts) {
        let index = random.between(0, room) as u16;
        volume[word] = random.pick(&[0, index]);
    }
}

/// The volume as the whole frame leaves it, by the library.
pub fn carried_out(both: &Both, request: &Request) -> (u8, Vec<u16>) {
    let (mut volume, mut reply) = (both.library_volume.clone(), vec![0; request.reply]);
    let lent = &mut volume[..request.words];
    let frame = library::frame(both.library, &request.bytes, &mut reply, lent, request.arrival);
    (frame.number, volume)
}

/// The first stores of a frame's append; the sonde is lost and stays as it was only until the power-up. The library's are made by its append,
/// of the entry that the whole frame leaves on a copy, and with all of them the append has to store what the frame does.
pub fn cut(both: &mut Both, cut: &Cut) -> Result<Answer, String> {
    let Cut { request, stores, .. } = cut;
    let words = request.words;
    let volume = &mut both.twin_volume[..words];
    let twin = twin::cut(&both.twin, &request.bytes, request.reply, volume, request.arrival, *stores);
    let (library, whole) = carried_out(both, request);
    let before = in_use(&both.library_volume[..words]);
    let mut all = both.library_volume.clone();
    if in_use(&whole[..words]) != before {
        let entry = entry_of_words(&whole[entry_at(before)..entry_at(before + 1)]);
        library::append(&mut all[..words], entry, APPEND_STORES);
        library::append(&mut both.library_volume[..words], entry, *stores);
    }
    if let Some(word) = (0..all.len()).find(|&word| all[word] != whole[word]) {
        let (all, whole) = (all[word], whole[word]);
        return Err(format!(
            "the library's append doesn't store what its frame does, in word {word}\n  append: {all:#06X}\n  frame:  {whole:#06X}"
        ));
    }
    agree(Answer::of(twin), Answer::of(library))
}

/// What a salvage gives after a cut, where the volumes from before the append and after it are valid: the one from before if the count is old,
/// from after if it is new, in every word but the free ones. The words that it changes go by the stores.
pub fn hold_cut(before: &[u16], whole: &[u16], salvaged: &[u16], stores: usize, answer: Answer) -> Result<(), String> {
    let appended = in_use(whole) != in_use(before);
    let changed = match stores {
        25 if appended => 1,
        26 if appended => 2,
        _ => 0u16,
    };
    if answer != Answer::new(0, changed) {
        return Err(format!("after {stores} stores both salvages give {answer:?}, not {changed} words"));
    }
    let due = if stores < APPEND_STORES { before } else { whole };
    let used = entry_at(in_use(due));
    match (0..used).find(|&word| salvaged[word] != due[word]) {
        None => Ok(()),
        Some(word) => Err(format!(
            "after {stores} stores and a salvage word {word} is {:#06X}, not {:#06X}",
            salvaged[word], due[word]
        )),
    }
}

/// The same, for an append of any entry: where it isn't known, whether both volumes are valid is asked first.
pub fn hold_any_cut(before: &[u16], salvaged: &[u16], entry: ffi::Entry, stores: usize, answer: Answer) -> Result<bool, String> {
    let mut whole = before.to_vec();
    library::append(&mut whole, entry, usize::MAX);
    if !valid(before) || !valid(&whole) {
        return Ok(false);
    }
    hold_cut(before, &whole, salvaged, stores, answer)?;
    Ok(in_use(before) != in_use(&whole))
}

#[cfg(test)]
mod tests {
    use super::*;

    /// A journal of two entries of sensor 1, with room for another.
    fn journal() -> Vec<u16> {
        let mut volume = vec![0; entry_at(3)];
        assert_eq!(library::begin(library::fresh(1).sonde, &mut volume).number, 0);
        (0..2).for_each(|_| library::append(&mut volume, entry(1), APPEND_STORES));
        volume
    }

    /// By fresh coefficients.
    fn entry(sensor: u16) -> ffi::Entry {
        let calibration = ffi::Calibration {
            coefficient2: if sensor == 3 { 0.0 } else { 1.0 },
            time: 9,
            ..ffi::Calibration::default()
        };
        ffi::Entry {
            sensor,
            calibration,
            ..ffi::Entry::default()
        }
    }

    /// Which words are held new: those of the stores made, and no others.
    #[test]
    fn stores_are_held() {
        for sensor in 1..=4 {
            let before = journal();
            let mut whole = before.clone();
            library::append(&mut whole, entry(sensor), APPEND_STORES);
            for made in 0..=APPEND_STORES {
                let mut after = before.clone();
                library::append(&mut after, entry(sensor), made);
                let held = |after: &[u16], stores| hold_stores(&before, &whole, after, before.len(), sensor, stores).is_ok();
                assert!(held(&after, made));
                let next = places(&before, sensor).get(made).copied();
                let shows = next.is_some_and(|place| before[place] != whole[place]);
                assert_eq!(held(&after, made + 1), !shows);
                after[5] ^= 1;
                assert!(!held(&after, made));
            }
        }
    }

    #[test]
    fn cuts_are_held() {
        let before = journal();
        let mut whole = before.clone();
        library::append(&mut whole, entry(1), APPEND_STORES);
        let held = |salvaged: &[u16], stores, words: u16| hold_cut(&before, &whole, salvaged, stores, Answer::new(0, words)).is_ok();
        for (stores, words) in [(0, 0), (24, 0), (25, 1), (26, 2)] {
            assert!(held(&before, stores, words));
            assert!(!held(&before, stores, words + 1));
            assert!(!held(&whole, stores, words));
        }
        assert!(held(&whole, 27, 0) && held(&whole, usize::MAX, 0));
        assert!(!held(&before, 27, 0));
        assert!(hold_cut(&before, &before, &before, 25, Answer::of(0)).is_ok());
        assert!(hold_cut(&before, &whole, &before, 3, Answer::of(8)).is_err());
    }

    #[test]
    fn salvages_are_held() {
        let volume = journal();
        let mut random = Random::new(1, 1);
        let mut held = |before: &[u16], after: &[u16], answer| hold_salvage(before, after, answer, &mut random).is_ok();
        let changed = |word: usize, value: u16| {
            let mut changed = volume.clone();
            changed[word] = value;
            changed
        };
        assert!(held(&volume, &volume, Answer::of(0)));
        assert!(held(&changed(4, 2), &volume, Answer::new(0, 1u16)));
        assert!(held(&changed(entry_at(0), 7), &volume, Answer::new(0, 1u16)));
        assert!(!held(&changed(4, 2), &volume, Answer::new(0, 2u16)));
        assert!(!held(&changed(2, 1), &volume, Answer::new(0, 1u16)));
        assert!(!held(&changed(entry_at(2), 7), &volume, Answer::new(0, 1u16)));
        assert!(!held(&volume, &changed(4, 2), Answer::new(0, 1u16)));
        assert!(!held(&changed(4, 2), &changed(4, 2), Answer::of(0)));
        assert!(held(&changed(3, 1), &changed(3, 1), Answer::of(8)));
        assert!(!held(&changed(3, 1), &volume, Answer::of(8)));
        assert!(!held(&volume, &volume, Answer::of(8)));
        assert!(!held(&changed(4, 2), &changed(4, 2), Answer::of(4)));
    }

    /// Of a journal without entries the right words are likely to be drawn.
    #[test]
    fn choices_are_tried() {
        let mut volume = vec![0; entry_at(1)];
        library::begin(library::fresh(1).sonde, &mut volume);
        volume[4] = 1;
        assert!(hold_salvage(&volume, &volume, Answer::of(8), &mut Random::new(1, 1)).is_err());
    }
}

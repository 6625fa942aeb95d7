//! Lists of calls. After each call everything is compared; a clean list is also held to the control book (demand 3).

use crate::before::Before;
use crate::both::{Both, Comparison};
use crate::calls::{Answer, Call, Cut, Kind, Request};
use crate::convert::settings_difference;
use crate::corrupt::{corrupt_sonde, corrupt_volume, stray_last, Corruption, OF_SONDE, OF_VOLUME};
use crate::coverage::{Coverage, Item};
use crate::cuts;
use crate::generate::{makes_sonde, Generator, TECHNICIAN};
use crate::interrupted::{self, appends, Appended, MORE_STORES};
use crate::library;
use crate::ports::{hold_port, off_port, OtherPorts, NO_PORTS};
use crate::random::Random;
use serve::fault;
use std::collections::VecDeque;
use twin::book::Book;
use twin::calibration::DIRECT;
use twin::map::{ENTER, UPDATE};
use twin::page::page_bytes;
use twin::state::{SensorSettings, Sonde};
use twin::volume::{replay, APPEND_STORES, CAPACITY_MOST, ENTRY_WORDS, HEADER_WORDS};

/// Words of a volume of full capacity.
const MOST_WORDS: usize = HEADER_WORDS + ENTRY_WORDS * CAPACITY_MOST;
/// Entries in use where one more makes it full.
const LAST_PLACE: usize = CAPACITY_MOST - 1;
/// So many of a hundred frames are also sent in both framings, to copies.
const IN_BOTH_PERCENT: usize = 10;
/// So many of a hundred calls in lists of corruptions are followed by an append to a copy.
const APPEND_PERCENT: usize = 20;
/// So many of a hundred clean lists run beside one that differs in ports alone.
const OTHER_PORTS_PERCENT: usize = 25;
/// One list in so many fills a journal of 1000 entries; the first of all does.
const LONG_EVERY: u64 = 10_000;

#[derive(Clone, Copy, Debug)]
enum Shape {
    /// Calls on small volumes.
    Clean,
    /// Calls on volumes of about full capacity.
    Wide,
    /// A journal filled up to 1000 entries and beyond.
    Long,
    /// Calls, mostly on small volumes, each followed by calls on a copy with something wrong.
    Corrupted,
}

/// One thread's work.
pub struct Lists {
    seed: u64,
    comparison: Comparison,
    pub coverage: Coverage,
    pub calls: u64,
    /// Volumes whose fault was held to the verdict on them.
    pub volumes: u64,
    /// Requests that were sent in both framings.
    pub in_both_framings: u64,
    /// Frames that came by the other port in a list that differs in ports alone.
    pub by_other_port: u64,
    words: Vec<u16>,
}

impl Lists {
    pub fn new(seed: u64) -> Lists {
        Lists {
            seed,
            comparison: Comparison::new(),
            coverage: Coverage::default(),
            calls: 0,
            volumes: 0,
            in_both_framings: 0,
            by_other_port: 0,
            words: Vec::new(),
        }
    }

    pub fn registers(&self) -> u64 {
        self.comparison.registers_compared
    }

    /// Runs the list of this index; a difference comes with all that is needed to see it again.
    pub fn run(&mut self, index: u64) -> Result<(), String> {
        let mut random = Random::new(self.seed, index);
        let shape = match random.below(100) {
            _ if index.is_multiple_of(LONG_EVERY) => Shape::Long,
            0..=2 => Shape::Wide,
            3..=39 => Shape::Corrupted,
            _ => Shape::Clean,
        };
        let mut generator = Generator::new(random);
        let done = match shape {
            Shape::Clean => self.clean(&mut generator, false),
            Shape::Wide => self.clean(&mut generator, true),
            Shape::Long => self.long(&mut generator),
            Shape::Corrupted => self.corrupted(&mut generator),
        };
        done.map_err(|difference| format!("seed {}, list {index} ({shape:?})\n{difference}", self.seed))
    }

    /// Runs and compares one call, and notes what it met.
    fn step(&mut self, both: &mut Both, call: &Call, random: &mut Random) -> Result<Answer, String> {
        self.calls += 1;
        let before = Before::new(both);
        let done = self.compared_step(both, &before, call, random);
        done.map_err(|difference| format!("{call}\n{difference}"))
    }

    /// The same for a call of a list: a cut comes with its salvage and its power-up.
    fn list_step(&mut self, both: &mut Both, call: &Call, random: &mut Random) -> Result<Answer, String> {
        let Call::Cut(cut) = call else {
            return self.step(both, call, random);
        };
        self.note_cut(both, cut, true);
        cut_by(both, call, cut, |both, call| self.step(both, call, random))
    }

    fn note_cut(&mut self, both: &Both, cut: &Cut, followed: bool) {
        let items = interrupted::of_cut(both, cut, followed);
        items.into_iter().for_each(|item| self.coverage.note(Item::Interrupted(item)));
    }

    /// Of some updates every cut, most often of those that are seldom; seldom on long volumes, which take long.
    fn sometimes_every_cut(&mut self, both: &Both, book: &Book, call: &Call, generator: &mut Generator) -> Result<(), String> {
        let Call::Frame(request) = call else {
            return Ok(());
        };
        let Some(sensor) = appends(both, request).filter(|_| !generator.unbegun) else {
            return Ok(());
        };
        let by_points = both.twin.settings.sensors[sensor].method != DIRECT;
        let first = both.twin_volume[8 + sensor] == 0;
        let percent = match (by_points, first) {
            _ if both.twin_volume.len() >= MOST_WORDS => 5,
            (false, true) => 10,
            (false, false) => 20,
            (true, true) => 40,
            (true, false) => 100,
        };
        if !generator.random.chance(percent) {
            return Ok(());
        }
        self.every_cut(both, book, request, generator)
    }

    /// Every cut of an update in a list, on copies: demand 3 holds after each. The last two lack a byte of the reply's room, or come by a port that
    /// there isn't, and leave nothing. Registers aren't read back.
    fn every_cut(&mut self, both: &Both, book: &Book, request: &Request, generator: &mut Generator) -> Result<(), String> {
        let [mut short, mut nowhere] = [request.clone(), request.clone()];
        short.reply = request.arrival.framing.reply_least() - 1;
        nowhere.arrival.port = generator.random.pick(&NO_PORTS);
        let cuts = (0..=MORE_STORES).map(|stores| (request, stores));
        for (request, stores) in cuts.chain([(&short, APPEND_STORES), (&nowhere, APPEND_STORES)]) {
            let cut = generator.cut(request.clone(), stores);
            self.note_cut(both, &cut, false);
            let (mut both, mut book) = (both.clone(), book.clone());
            let call = Call::Cut(cut.clone());
            cut_by(&mut both, &call, &cut, |both, call| {
                let done = self.comparison.run_unread(both, call, &mut generator.random);
                done.map_err(|difference| format!("{call}\n{difference}"))
            })?;
            follow(&mut book, &call);
            self.check_book(&both, &book)
                .map_err(|difference| format!("{call}\n{difference}"))?;
        }
        Ok(())
    }

    fn compared_step(&mut self, both: &mut Both, before: &Before, call: &Call, random: &mut Random) -> Result<Answer, String> {
        if let (Call::Frame(request), true) = (call, random.chance(IN_BOTH_PERCENT)) {
            let compared = self.comparison.in_both_framings(both, request, random)?;
            self.in_both_framings += u64::from(compared);
        }
        let answer = self.comparison.run(both, call, random)?;
        if let Call::Frame(request) = call {
            hold_form(before, both, request, answer)?;
        }
        if let Call::Frame(request) | Call::Cut(Cut { request, .. }) = call {
            hold_port(request, answer)?;
        }
        hold_technician(before, both, call, answer)?;
        self.coverage.note_call(before, call, answer);
        if let Call::Print { words, page } = *call {
            self.coverage.note_print(&both.twin_volume[..words], page, answer.number);
        }
        both.history = before.history.after(call, &before.sonde, &both.twin);
        if self.comparison.agreed {
            self.coverage.note_registers(&both.twin, &self.comparison.registers);
        }
        self.hold_fault_after(both, call, answer)?;
        Ok(answer)
    }

    /// Where the call, or the registers read back after it, tell whether the volume is valid.
    fn hold_fault_after(&mut self, both: &Both, call: &Call, answer: Answer) -> Result<(), String> {
        match *call {
            Call::PowerUp { words, .. } if answer.number != 1 => self.hold_fault(&both.library_volume[..words], answer.number),
            Call::Print { words, .. } => self.hold_fault(&both.library_volume[..words], answer.number),
            _ if self.comparison.agreed => self.hold_fault(&both.library_volume[..both.lent], 0),
            _ => Ok(()),
        }
    }

    /// The serial host names a fault exactly where power-up or print refuses the volume, and of words that the volume has.
    fn hold_fault(&mut self, volume: &[u16], number: u8) -> Result<(), String> {
        self.volumes += 1;
        let fault = fault::first(volume);
        if fault.is_some() != (number == 4) || fault.as_ref().is_some_and(|fault| fault.words.end > volume.len()) {
            return Err(format!(
                "the fault named doesn't go with the number\n  number: {number}\n  fault:  {fault:?}"
            ));
        }
        Ok(())
    }

    /// The fault of a volume that was corrupted, by itself.
    fn hold_corrupted(&mut self, copy: &Both, corruption: Corruption) -> Result<(), String> {
        let volume = &copy.library_volume[..copy.lent];
        let number = library::power_up(1, volume).number;
        self.hold_fault(volume, number)?;
        let named = number == 4;
        self.coverage.note(Item::Fault { corruption, named });
        if corruption.invalid().is_some_and(|invalid| invalid != named) {
            return Err(format!("power-up gives {number}"));
        }
        Ok(())
    }

    /// A step of a clean list, which the book follows.
    fn followed_step(&mut self, both: &mut Both, book: &mut Book, call: &Call, generator: &mut Generator) -> Result<(), String> {
        let answer = self.list_step(both, call, &mut generator.random)?;
        if [4, 8].contains(&answer.number) {
            return Err(format!("{call}\nnumber {} in a clean list", answer.number));
        }
        follow(book, call);
        if makes_sonde(call) {
            generator.unbegun = true;
        }
        if call.kind() == Kind::Begin && answer.number == 0 {
            generator.unbegun = false;
        }
        if generator.unbegun {
            return Ok(());
        }
        self.check_book(both, book).map_err(|difference| format!("{call}\n{difference}"))?;
        match *call {
            Call::Print { page, .. } => self
                .check_page(book, page, answer)
                .map_err(|difference| format!("{call}\n{difference}")),
            _ => Ok(()),
        }
    }

    /// The page shows the book's openings and entries, or it is too short for them.
    fn check_page(&self, book: &Book, page: usize, answer: Answer) -> Result<(), String> {
        let due = book.page();
        let answer_due = match page < due.len() {
            true => Answer::of(7),
            false => Answer::new(0, due.len() as u32),
        };
        if answer != answer_due {
            return Err(format!("{answer:?}, and by the book {answer_due:?}"));
        }
        let printed = String::from_utf8_lossy(self.comparison.page(answer));
        match printed.lines().zip(due.lines()).find(|(line, by_book)| line != by_book) {
            Some((line, by_book)) => Err(format!("a line isn't the book's\n  page: \"{line}\"\n  book: \"{by_book}\"")),
            None if answer.number == 0 && printed != due => Err("the lines don't end as the book's do".to_string()),
            None => Ok(()),
        }
    }

    /// Demand 3: header and entries in use are the book's; replay, calibrations in force and the book's are the same.
    fn check_book(&mut self, both: &Both, book: &Book) -> Result<(), String> {
        book.lay_out(&mut self.words);
        if let Some(word) = (0..self.words.len()).find(|&word| both.library_volume[word] != self.words[word]) {
            let (volume, laid) = (both.library_volume[word], self.words[word]);
            return Err(format!(
                "word {word} of the volume isn't the book's\n  volume: {volume:#06X}\n  book:   {laid:#06X}"
            ));
        }
        for (sensor, settings) in both.twin.settings.sensors.iter().enumerate() {
            let replayed = replay(&both.library_volume, sensor);
            if !replayed.same(&settings.active) || !replayed.same(&book.settings().sensors[sensor].active) {
                return Err(format!(
                    "sensor {}: the calibration in force isn't replay's or the book's",
                    sensor + 1
                ));
            }
        }
        if book.address() != both.library.address {
            return Err(format!("the address isn't the book's, {}", book.address()));
        }
        match settings_difference(&both.twin.settings, book.settings()) {
            None => Ok(()),
            Some(field) => Err(format!("the settings aren't the book's: {field} (sonde's and book's)")),
        }
    }

    /// The same call in a list that differs in ports alone, which has to leave the same.
    fn other_step(&mut self, other: &mut OtherPorts, both: &Both, book: &Book, call: &Call, random: &mut Random) -> Result<(), String> {
        if let Some((to, what)) = other.step(&mut self.comparison, call, random)? {
            self.by_other_port += 1;
            what.into_iter().for_each(|moved| self.coverage.note(Item::Moved { to, moved }));
        }
        other.hold(both, book).map_err(|difference| format!("{call}\n{difference}"))
    }

    fn clean(&mut self, generator: &mut Generator, wide: bool) -> Result<(), String> {
        let words = if wide {
            MOST_WORDS + 2
        } else {
            small_volume(&mut generator.random)
        };
        let mut both = Both::new(words, &mut generator.random);
        let mut book = Book::fresh(1);
        let beside = generator.random.chance(OTHER_PORTS_PERCENT);
        let mut other = beside.then(|| OtherPorts::new(&both, &book));
        for number in 0..generator.random.between(20, 400) {
            let call = if number == 0 {
                Call::Fresh { address: 1 }
            } else {
                generator.call(&both)
            };
            self.sometimes_every_cut(&both, &book, &call, generator)
                .and_then(|()| self.followed_step(&mut both, &mut book, &call, generator))
                .and_then(|()| match &mut other {
                    Some(other) => self.other_step(other, &both, &book, &call, &mut generator.random),
                    None => Ok(()),
                })
                .map_err(|difference| format!("call {number}: {difference}"))?;
        }
        Ok(())
    }

    /// Fills a journal of 1000 entries by several technicians, with prints and cuts in between, goes on when it is full, and corrupts copies.
    fn long(&mut self, generator: &mut Generator) -> Result<(), String> {
        let mut both = Both::new(MOST_WORDS + ENTRY_WORDS + 2, &mut generator.random);
        let mut book = Book::fresh(1);
        let mut calls = VecDeque::from([Call::Fresh { address: 1 }, Call::Begin { words: MOST_WORDS }]);
        calls.extend(long_modes(generator));
        let mut number = 0;
        while let Some(call) = calls.pop_front() {
            if let (Call::Frame(request), LAST_PLACE) = (&call, book.entries().len()) {
                self.every_cut(&both, &book, request, generator)?;
            }
            self.followed_step(&mut both, &mut book, &call, generator)
                .map_err(|difference| format!("call {number}: {difference}"))?;
            number += 1;
            if calls.is_empty() && book.entries().len() < CAPACITY_MOST {
                if generator.random.chance(20) {
                    let technician = generator.random.word();
                    calls.push_back(long_word(generator, TECHNICIAN, technician));
                }
                if generator.random.chance(10) {
                    calls.push_back(generator.print(&both, MOST_WORDS));
                }
                let register = generator.random.pick(&[105, 205, 305, 405]);
                let update = long_word(generator, register, UPDATE);
                calls.extend(long_cut(generator, &update));
                calls.push_back(update);
            }
        }
        self.when_full(&mut both, &mut book, generator)?;
        self.corrupted_full(both, generator)
    }

    /// An update too many, a power-up, an audit, and prints: of a volume with words that are never used, and on a page that lacks a byte.
    fn when_full(&mut self, both: &mut Both, book: &mut Book, generator: &mut Generator) -> Result<(), String> {
        let last = [
            long_word(generator, 305, UPDATE),
            Call::PowerUp {
                address: 9,
                words: MOST_WORDS,
            },
            Call::Audit { words: MOST_WORDS + 1 },
            Call::Print {
                words: MOST_WORDS + ENTRY_WORDS,
                page: page_bytes(CAPACITY_MOST),
            },
            Call::Print {
                words: MOST_WORDS,
                page: page_bytes(CAPACITY_MOST) - 1,
            },
        ];
        for call in last {
            self.followed_step(both, book, &call, generator)
                .map_err(|difference| format!("when full: {difference}"))?;
        }
        Ok(())
    }

    /// Corrupts copies of a journal of 1000 entries. Here alone a length of an entry more or less can leave the capacity as it is.
    fn corrupted_full(&mut self, mut both: Both, generator: &mut Generator) -> Result<(), String> {
        for _ in 0..100 {
            self.corrupted_step(&both, generator)?;
        }
        self.corrupted_by(Corruption::EntryLonger, &both, generator)?;
        both.lent += ENTRY_WORDS;
        self.corrupted_by(Corruption::EntryShorter, &both, generator)
    }

    fn corrupted(&mut self, generator: &mut Generator) -> Result<(), String> {
        let wide = generator.random.chance(3);
        let words = if wide {
            MOST_WORDS + ENTRY_WORDS + 2
        } else {
            small_volume(&mut generator.random)
        };
        let mut both = Both::new(words, &mut generator.random);
        for number in 0..generator.random.between(20, 200) {
            let call = generator.call(&both);
            let answer = self
                .list_step(&mut both, &call, &mut generator.random)
                .map_err(|difference| format!("call {number}: {difference}"))?;
            generator.unbegun = (generator.unbegun || makes_sonde(&call)) && !(call.kind() == Kind::Begin && answer.number == 0);
            if number == 20 && generator.random.chance(30) {
                set_counters(&mut both, &mut generator.random);
            }
            if !generator.unbegun {
                self.corrupted_step(&both, generator)
                    .and_then(|()| self.append_step(&both, generator))
                    .map_err(|difference| format!("after call {number}, on a copy: {difference}"))?;
            }
        }
        Ok(())
    }

    /// Calls on a copy with something wrong.
    fn corrupted_step(&mut self, both: &Both, generator: &mut Generator) -> Result<(), String> {
        let corruption = if generator.random.chance(40) {
            generator.random.pick(&OF_SONDE)
        } else {
            generator.random.pick(&OF_VOLUME)
        };
        self.corrupted_by(corruption, both, generator)
    }

    /// Sometimes an append of any entry, after any number of stores a salvage; on a copy that is as it was, corrupted, or has another last.
    fn append_step(&mut self, both: &Both, generator: &mut Generator) -> Result<(), String> {
        if !generator.random.chance(APPEND_PERCENT) {
            return Ok(());
        }
        let mut copy = both.clone();
        let random = &mut generator.random;
        match random.below(10) {
            0..=2 => drop(corrupt_volume(&mut copy, random.pick(&OF_VOLUME), random)),
            3..=4 => copy.change_volume(|volume| stray_last(volume, random)),
            _ => {}
        }
        let call = generator.append(&copy);
        let Call::Append { words, entry, stores } = call else {
            return Ok(());
        };
        let before = copy.library_volume[..words].to_vec();
        let items = interrupted::of_append(&before, &entry, stores);
        items.into_iter().for_each(|item| self.coverage.note(Item::Appended(item)));
        self.step(&mut copy, &call, &mut generator.random)?;
        let answer = self.step(&mut copy, &Call::Salvage { words }, &mut generator.random)?;
        let held = cuts::hold_any_cut(&before, &copy.library_volume[..words], entry, stores, answer);
        if held.map_err(|difference| format!("{call}\n{difference}"))? {
            let stores = stores.min(MORE_STORES);
            self.coverage.note(Item::Appended(Appended::Valid { stores }));
        }
        Ok(())
    }

    /// A port that there isn't refuses the frame before what is wrong with sonde or volume.
    fn note_no_port(&mut self, corruption: Corruption, call: &Call, number: u8) {
        if let (Call::Frame(request), 9, false) = (call, number, corruption.harmless() || corruption.uncertain()) {
            let framing = request.arrival.framing;
            self.coverage.note(Item::NoPortBefore { framing, number: 4 });
        }
    }

    fn corrupted_by(&mut self, corruption: Corruption, both: &Both, generator: &mut Generator) -> Result<(), String> {
        let mut copy = both.clone();
        if !corrupt(&mut copy, corruption, &mut generator.random) {
            return Ok(());
        }
        let failed = |difference| format!("corrupted by {corruption:?}: {difference}");
        if OF_VOLUME.contains(&corruption) {
            self.hold_corrupted(&copy, corruption).map_err(failed)?;
        }
        let calls = [Call::Audit { words: copy.lent }, call_on_wrong(&copy, corruption, generator)];
        for call in &calls {
            let Answer { number, .. } = self.step(&mut copy, call, &mut generator.random).map_err(failed)?;
            self.coverage.note(Item::Corrupted {
                corruption,
                call: call.kind(),
                number,
            });
            self.note_no_port(corruption, call, number);
            hold_print(corruption, call, number).map_err(failed)?;
            hold_salvage(corruption, call, number, both, &copy).map_err(failed)?;
            let expected = if corruption.harmless() { 0 } else { 4 };
            if call.kind() == Kind::Audit && number != expected && !corruption.uncertain() {
                return Err(format!("corrupted by {corruption:?}: both audits give {number}, not {expected}"));
            }
        }
        Ok(())
    }
}

/// Feeds the book a call's arguments.
pub fn follow(book: &mut Book, call: &Call) {
    match call {
        Call::Fresh { address } if makes_sonde(call) => *book = Book::fresh(*address),
        Call::Begin { words } => book.begin(*words),
        Call::PowerUp { address, .. } => book.power_up(*address),
        Call::Frame(request) => book.frame(&request.bytes, request.reply, request.arrival),
        Call::Cut(Cut { request, stores, address }) => {
            book.cut(&request.bytes, request.reply, request.arrival, *stores, *address);
        }
        Call::Fresh { .. }
        | Call::Measure { .. }
        | Call::Audit { .. }
        | Call::Print { .. }
        | Call::Append { .. }
        | Call::Salvage { .. } => {}
    }
}

/// A cut, then at once its salvage and its power-up, each by `run`: the salvage gives the volume from before or after the append, and the
/// power-up isn't refused. The answer is the cut's.
pub fn cut_by(
    both: &mut Both,
    call: &Call,
    cut: &Cut,
    mut run: impl FnMut(&mut Both, &Call) -> Result<Answer, String>,
) -> Result<Answer, String> {
    let words = cut.request.words;
    let failed = |difference: String| format!("after {call}\n{difference}");
    let before = both.library_volume.clone();
    let (_, whole) = cuts::carried_out(both, &cut.request);
    let answer = run(both, call)?;
    let [salvage, power_up] = cut.following();
    let salvaged = run(both, &salvage).map_err(failed)?;
    let volume = &both.library_volume[..words];
    cuts::hold_cut(&before[..words], &whole[..words], volume, cut.stores, salvaged).map_err(failed)?;
    match run(both, &power_up).map_err(failed)?.number {
        0 => Ok(answer),
        number => Err(failed(format!("the power-up after its salvage gives {number}"))),
    }
}

/// Words for one to eight entries, and some over.
fn small_volume(random: &mut Random) -> usize {
    HEADER_WORDS + ENTRY_WORDS * random.pick(&[1, 2, 3, 4, 6, 8]) + random.between(0, 25)
}

/// Every sensor's mode on.
fn long_modes(generator: &mut Generator) -> [Call; 4] {
    [105, 205, 305, 405].map(|register| long_word(generator, register, ENTER))
}

/// Seldom a cut before the update, of the same one, and the modes on again.
fn long_cut(generator: &mut Generator, update: &Call) -> Vec<Call> {
    match update {
        Call::Frame(request) if generator.random.chance(3) => {
            let stores = generator.random.below(APPEND_STORES);
            let cut = Cut {
                address: 1,
                ..generator.cut(request.clone(), stores)
            };
            let mut calls = vec![Call::Cut(cut)];
            calls.extend(long_modes(generator));
            calls
        }
        _ => Vec::new(),
    }
}

fn long_word(generator: &mut Generator, register: u16, value: u16) -> Call {
    generator.word_frame(1, register, value, MOST_WORDS)
}

/// A frame that was made to be good isn't counted bad, and one that was made to break its form is, or that its port doesn't take: both
/// implementations alike could be wrong.
fn hold_form(before: &Before, both: &Both, request: &Request, answer: Answer) -> Result<(), String> {
    let due = match request.breach {
        _ if off_port(request) => 1,
        None => 0,
        Some(breach) if breach.certain() => 1,
        Some(_) => return Ok(()),
    };
    let (was, is) = (before.sonde.counters.bad, both.twin.counters.bad);
    let due = if answer.number == 0 { was.saturating_add(due) } else { was };
    if is != due {
        return Err(format!("both count {was} bad frames before it and {is} after it, not {due}"));
    }
    Ok(())
}

/// A sonde that was just made has technician 0, no call but a frame changes the number, and an entry carries the one from before its frame: both
/// implementations alike could be wrong.
fn hold_technician(before: &Before, both: &Both, call: &Call, answer: Answer) -> Result<(), String> {
    let (was, is) = (before.sonde.settings.technician, both.twin.settings.technician);
    let (due, frame) = match call.kind() {
        Kind::Fresh | Kind::PowerUp if answer.number == 0 => (0, false),
        Kind::Frame if answer.number == 0 => (is, true),
        _ => (was, false),
    };
    if is != due {
        return Err(format!("both have technician {was} before it and {is} after it, not {due}"));
    }
    let volume = &both.twin_volume;
    if frame && usize::from(volume[2]) == before.in_use + 1 {
        let carried = volume[HEADER_WORDS + ENTRY_WORDS * before.in_use + 3];
        if carried != was {
            return Err(format!("both put technician {carried} in the entry, not {was}"));
        }
    }
    Ok(())
}

/// A print looks at the volume, and never at the sonde beside it: both implementations alike could be wrong.
fn hold_print(corruption: Corruption, call: &Call, number: u8) -> Result<(), String> {
    let invalid = match OF_VOLUME.contains(&corruption) {
        true => corruption.invalid(),
        false => Some(false),
    };
    match (call.kind(), invalid) {
        (Kind::Print, Some(invalid)) if invalid != (number == 4) => Err(format!("both prints give {number}")),
        _ => Ok(()),
    }
}

/// Other chain words go back to those that were, and whether the volume is beyond salvage goes by what was corrupted.
fn hold_salvage(corruption: Corruption, call: &Call, number: u8, both: &Both, copy: &Both) -> Result<(), String> {
    if call.kind() != Kind::Salvage {
        return Ok(());
    }
    if corruption.beyond_salvage().is_some_and(|beyond| beyond != (number == 8)) {
        return Err(format!("both salvages give {number}"));
    }
    if corruption.of_chains() && copy.library_volume != both.library_volume {
        return Err("both salvages don't give the volume from before".to_string());
    }
    Ok(())
}

/// Counters near the number at which they stop.
fn set_counters(both: &mut Both, random: &mut Random) {
    both.change_sonde(|sonde| {
        let near = [(); 3].map(|()| u16::MAX - random.below(6) as u16);
        [sonde.counters.good, sonde.counters.bad, sonde.counters.exceptions] = near;
    });
}

fn corrupt(both: &mut Both, corruption: Corruption, random: &mut Random) -> bool {
    if OF_SONDE.contains(&corruption) {
        both.change_sonde(|sonde| corrupt_sonde(sonde, corruption, random));
        return true;
    }
    corrupt_volume(both, corruption, random)
}

/// The sensor whose update shows what was changed: one with a third coefficient on trial or, for the technician, one in mode.
fn telling_sensor(sonde: &Sonde, corruption: Corruption) -> u16 {
    let telling = |settings: &SensorSettings| match corruption {
        Corruption::TrialThird => settings.trial[2].to_bits() != 0,
        _ => settings.calibrating,
    };
    sonde.settings.sensors.iter().position(telling).unwrap_or(0) as u16
}

/// A call that looks at what is wrong.
fn call_on_wrong(both: &Both, corruption: Corruption, generator: &mut Generator) -> Call {
    let words = both.lent;
    if [Corruption::TrialThird, Corruption::Technician].contains(&corruption) && generator.random.chance(50) {
        let register = 100 * telling_sensor(&both.twin, corruption) + 105;
        return generator.word_frame(both.twin.address, register, UPDATE, words);
    }
    match generator.random.below(14) {
        0..=1 => Call::Begin { words },
        2..=3 => generator.measure(&both.twin),
        4..=6 => Call::PowerUp { address: 1, words },
        7..=8 => generator.print(both, words),
        9..=10 if OF_VOLUME.contains(&corruption) => Call::Salvage { words },
        _ => generator.frame(both),
    }
}

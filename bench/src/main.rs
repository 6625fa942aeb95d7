//! Prints how long the proved library takes beside the second implementation and libmodbus, and how many instructions.
//!
//! Times are the least of several rounds in which all rows and sides take turns, in one run; the ratio is what counts. Instructions are counted by
//! `valgrind --tool=callgrind`, which this program starts on itself: a run with calls less a run without them.

mod rows;
mod sides;

use bench::collected;
use rows::{rows, Row};
use sides::{side, Side, NAMES};
use std::time::Instant;

const ROUNDS: usize = 60;
const ROUND_NS: f64 = 2e6;

/// A row of one side, and the least nanoseconds of a call so far.
struct Timed {
    side: Box<dyn Side>,
    least: Option<f64>,
}

impl Timed {
    fn new(row: &Row, mut side: Box<dyn Side>) -> Timed {
        row.prepare(side.as_mut());
        Timed { side, least: None }
    }

    fn round(&mut self, row: &Row) {
        let calls = (ROUND_NS / self.least.unwrap_or(20_000.0)).ceil() as usize;
        let start = Instant::now();
        row.repeat(self.side.as_mut(), calls);
        let time = start.elapsed().as_nanos() as f64 / calls as f64;
        self.least = Some(self.least.map_or(time, |least| least.min(time)));
    }
}

/// Nanoseconds of a call, row by row and side by side. The rounds of a row are spread over the run, so that a time in which the machine is slow
/// doesn't fall on one row.
fn times(rows: &[Row]) -> Vec<Sides> {
    let mut timed: Vec<[Option<Timed>; 3]> = rows
        .iter()
        .map(|row| NAMES.map(|name| taking_part(row, name).map(|side| Timed::new(row, side))))
        .collect();
    for _ in 0..ROUNDS {
        for (row, sides) in rows.iter().zip(&mut timed) {
            sides.iter_mut().flatten().for_each(|side| side.round(row));
        }
    }
    timed
        .iter()
        .map(|sides| sides.each_ref().map(|side| side.as_ref()?.least))
        .collect()
}

fn taking_part(row: &Row, name: &str) -> Option<Box<dyn Side>> {
    side(name).filter(|_| row.has_part(name))
}

/// Calls for a count of instructions.
const COUNTED: usize = 64;

/// Instructions of a call; `None` where the side doesn't take part or valgrind isn't installed.
fn instructions(index: usize, row: &Row, name: &str) -> Option<f64> {
    taking_part(row, name)?;
    let count = |calls: usize| collected(&[index.to_string(), name.to_string(), calls.to_string()]);
    Some((count(COUNTED)? - count(0)?) / COUNTED as f64)
}

/// The counted run: one row of one side, so many calls. It has a thread's stack, which begins at a page. Where the program's own begins depends
/// on its path and environment, and so would the count, by the alignment of what is copied.
fn counted(arguments: &[String]) {
    let [index, name, calls] = arguments else {
        eprintln!("bench takes no arguments");
        std::process::exit(2);
    };
    let number = |text: &String| text.parse::<usize>().expect("a number");
    let (index, name, calls) = (number(index), name.clone(), number(calls));
    let run = std::thread::spawn(move || {
        let rows = rows();
        let row = &rows[index];
        let mut side = side(&name).expect("a side");
        row.prepare(side.as_mut());
        row.repeat(side.as_mut(), calls);
    });
    run.join().expect("the counted run ends");
}

type Sides = [Option<f64>; 3];

fn print(name: &str, times: Sides, counts: Sides, unit: f64) {
    let cell = |value: Option<f64>, digits: usize| value.map_or("–".into(), |value| format!("{value:.digits$}"));
    let ratio = |values: Sides, other: usize| cell(values[0].zip(values[other]).map(|(own, other)| own / other), 2);
    let mut cells = vec![name.to_string()];
    cells.extend(times.map(|time| cell(time.map(|time| time / unit), usize::from(unit != 1.0) * 2)));
    cells.extend([ratio(times, 1), ratio(times, 2)]);
    cells.extend(counts.map(|count| cell(count.map(|count| count / unit), usize::from(unit != 1.0))));
    cells.push(ratio(counts, 1));
    println!("| {} |", cells.join(" | "));
}

/// What one row is to another, for each side that has both.
fn shares(own: Sides, other: Sides) -> String {
    let share = |i: usize| Some(format!("{} {:.2}", NAMES[i], own[i]? / other[i]?));
    (0..NAMES.len()).filter_map(share).collect::<Vec<_>>().join(", ")
}

fn main() {
    let arguments: Vec<String> = std::env::args().skip(1).collect();
    if !arguments.is_empty() {
        return counted(&arguments);
    }
    if side("libmodbus").is_none() {
        println!("(libmodbus isn't installed: its columns are empty)");
    }
    println!("| work | library ns | twin ns | libmodbus ns | to twin | to libmodbus | library instr. | twin instr. | libmodbus instr. | to twin |");
    println!("|---|---|---|---|---|---|---|---|---|---|");
    let rows = rows();
    let results: Vec<(Sides, Sides)> = times(&rows)
        .into_iter()
        .zip(&rows)
        .enumerate()
        .map(|(index, (times, row))| {
            let counts = NAMES.map(|name| instructions(index, row, name));
            print(&row.name, times, counts, 1.0);
            (times, counts)
        })
        .collect();
    let of = |name| results[rows.iter().position(|row| row.name == name).expect("a row")];
    let less = |long: Sides, short: Sides| -> Sides { std::array::from_fn(|i| Some(long[i]? - short[i]?)) };
    let each_byte = |name, long, short, bytes| {
        let (long, short): ((Sides, Sides), (Sides, Sides)) = (of(long), of(short));
        let times = less(long.0, short.0);
        print(name, times, less(long.1, short.1), bytes);
        times.map(|time| time.map(|time| time / bytes))
    };
    let checksum = each_byte("checksum, each byte", rows::BAD_255, rows::BAD_8, rows::SUMMED);
    each_byte(
        "ASCII: decoding and checksum, each byte",
        rows::ASCII_LONG,
        rows::ASCII_SHORT,
        rows::DECODED,
    );
    let speeds = NAMES
        .iter()
        .zip(checksum)
        .filter_map(|(name, time)| Some(format!("{name} {:.0}", 1000.0 / time?)));
    println!("\nchecksum, million bytes in a second: {}", speeds.collect::<Vec<_>>().join(", "));
    let (salvage, audit) = (of(rows::SALVAGE), of(rows::AUDIT));
    let (times, counts) = (shares(salvage.0, audit.0), shares(salvage.1, audit.1));
    println!("salvage to audit, 1000 entries: {times}; by instructions: {counts}");
}

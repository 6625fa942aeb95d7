//! Runs seeded lists of calls on the proved library and on the twin and compares, after each call: number and length, the whole reply
//! buffer or page (filled with random bytes beforehand), the whole volume (its free words too), every field of the sonde bit for bit, and
//! every register of the map, read by frames on copies. Frames of a list are RTU or ASCII at random and come by either port, seldom by one
//! that there isn't. Some are also sent in both framings, to copies, where the effect has to be the same, and beside some lists runs one
//! that differs in the ports of RTU frames alone and has to leave the same. Clean lists are also held to the control book (demand 3), and so
//! are the pages that they print. They hold cuts, each with its salvage and power-up; of some updates every cut is tried, on copies. Lists
//! of corrupted sondes and volumes are apart, and so are appends of any entry to any words. Wherever it is known whether a frame is bad or a
//! volume valid, both are held to that, and so is the fault that the serial host names. At the end the run has to have met everything that
//! `coverage` requires. The rounds of the CRC, which take no sonde, are compared by themselves, at every sum.

mod before;
mod both;
mod breach;
mod calls;
mod convert;
mod corrupt;
mod coverage;
mod cuts;
mod generate;
mod interrupted;
mod library;
mod lists;
mod ports;
mod printed;
mod random;
mod rounds;
mod values;

use coverage::Coverage;
use lists::Lists;
use std::panic::{catch_unwind, AssertUnwindSafe};
use std::process::ExitCode;
use std::sync::atomic::{AtomicBool, Ordering};

const USAGE: &str = "\
Compares the proved library with its twin on seeded lists of calls.

usage: compare [--calls N] [--seed S] [--list I]

  --calls N   at least N calls (1000000)
  --seed S    the seed, decimal or 0x (1)
  --list I    only the list of this index
  --help      this text

Exit code 0: no difference; 1: a difference, or something required was never met; 2: bad arguments.
What has to be met is required of runs of at least 500000 calls.";

/// Shorter runs can't meet everything.
const COVERING_CALLS: u64 = 500_000;
const THREADS: u64 = 2;

struct Options {
    calls: u64,
    seed: u64,
    list: Option<u64>,
}

/// `None` where help is asked for.
fn parse(mut arguments: impl Iterator<Item = String>) -> Result<Option<Options>, String> {
    let mut options = Options {
        calls: 1_000_000,
        seed: 1,
        list: None,
    };
    while let Some(name) = arguments.next() {
        if name == "--help" || name == "-h" {
            return Ok(None);
        }
        if !["--calls", "--seed", "--list"].contains(&name.as_str()) {
            return Err(format!("unknown argument {name:?}"));
        }
        let text = arguments.next().ok_or(format!("{name} needs a number"))?;
        let number = number(&text).ok_or(format!("{name} needs a whole number from 0 to {}, not {text:?}", u64::MAX))?;
        match name.as_str() {
            "--calls" => options.calls = number,
            "--seed" => options.seed = number,
            _ => options.list = Some(number),
        }
    }
    if options.calls == 0 {
        return Err("--calls has to be at least 1".to_string());
    }
    Ok(Some(options))
}

fn number(text: &str) -> Option<u64> {
    match text.strip_prefix("0x") {
        Some(digits) => u64::from_str_radix(digits, 16).ok(),
        None => text.parse().ok(),
    }
}

/// Lists `first`, `first + THREADS`, ... until so many calls are done or `stop` is set, as by a difference.
fn run_share(seed: u64, first: u64, calls: u64, stop: &AtomicBool) -> Result<Lists, String> {
    let mut lists = Lists::new(seed);
    let mut index = first;
    while lists.calls < calls && !stop.load(Ordering::Relaxed) {
        let run = catch_unwind(AssertUnwindSafe(|| lists.run(index)));
        let done = run.unwrap_or_else(|_| Err(format!("seed {seed}, list {index}: a panic, see above")));
        stop.fetch_or(done.is_err(), Ordering::Relaxed);
        done?;
        index += THREADS;
    }
    Ok(lists)
}

fn run_all(options: &Options) -> Result<Vec<Lists>, String> {
    if let Some(index) = options.list {
        let mut lists = Lists::new(options.seed);
        lists.run(index)?;
        return Ok(vec![lists]);
    }
    let share = options.calls.div_ceil(THREADS);
    let stop = &AtomicBool::new(false);
    std::thread::scope(|scope| {
        let threads: Vec<_> = (0..THREADS)
            .map(|first| scope.spawn(move || run_share(options.seed, first, share, stop)))
            .collect();
        threads
            .into_iter()
            .map(|thread| thread.join().unwrap_or_else(|_| Err("a thread panicked, see above".to_string())))
            .collect()
    })
}

fn report(shares: &[Lists], rounds: &str) -> ExitCode {
    let mut coverage = Coverage::default();
    shares.iter().for_each(|lists| coverage.merge(&lists.coverage));
    let calls: u64 = shares.iter().map(|lists| lists.calls).sum();
    let registers: u64 = shares.iter().map(Lists::registers).sum();
    let volumes: u64 = shares.iter().map(|lists| lists.volumes).sum();
    let (table, missing) = coverage.report();
    print!("{table}");
    if calls >= COVERING_CALLS && !missing.is_empty() {
        missing.iter().for_each(|item| println!("never met: {item:?}"));
        return ExitCode::FAILURE;
    }
    let both: u64 = shares.iter().map(|lists| lists.in_both_framings).sum();
    let other: u64 = shares.iter().map(|lists| lists.by_other_port).sum();
    println!(
        "{calls} calls and {registers} registers compared, {}, {both} requests in both framings, {}, {other} RTU frames by the other port, {}, {}, {rounds}, faults asked of {volumes} volumes, no difference",
        coverage.ascii(),
        coverage.ports(),
        coverage.prints(),
        coverage.cuts()
    );
    ExitCode::SUCCESS
}

fn main() -> ExitCode {
    let options = match parse(std::env::args().skip(1)) {
        Ok(Some(options)) => options,
        Ok(None) => {
            println!("{USAGE}");
            return ExitCode::SUCCESS;
        }
        Err(message) => {
            eprintln!("compare: {message}\n\n{USAGE}");
            return ExitCode::from(2);
        }
    };
    println!("seed {}", options.seed);
    match rounds::compare(options.seed).and_then(|rounds| Ok((run_all(&options)?, rounds))) {
        Ok((shares, rounds)) => report(&shares, &rounds),
        Err(difference) => {
            println!("{difference}");
            ExitCode::FAILURE
        }
    }
}

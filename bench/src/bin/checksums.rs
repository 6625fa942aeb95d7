//! Prints how long the checksum of a message takes by each way that was tried, and how many instructions. Each way is first held to the bits at
//! every length up to 600. Times are the least of several rounds in which the ways take turns.

use std::hint::black_box;
use std::time::Instant;

const LENGTHS: [usize; 5] = [8, 9, 63, 255, 256];
const LONGEST: usize = 600;
const ROUNDS: usize = 25;
/// Calls for a count of instructions.
const COUNTED: usize = 100;

type Way = fn(&[u8]) -> u16;

const WAYS: [(&str, Way); 17] = [
    ("by bits, a byte at a time", by_bits),
    ("a table of 256 words (the twin)", twin::crc),
    ("two tables of 256 bytes (libmodbus)", by_two_byte_tables),
    ("a table of 256 words, two steps a round", |bytes| {
        by_rounds(bytes, table_twice, by_table)
    }),
    ("two tables of 256 words", |bytes| by_rounds(bytes, two_tables, by_table)),
    ("four tables of 16 words", |bytes| by_rounds(bytes, four_tables, by_table)),
    ("parity by shifts", |bytes| by_rounds(bytes, parity_by_shifts, by_round)),
    ("parity flag, at the end", |bytes| by_rounds(bytes, parity_at_the_end, by_round)),
    ("parity flag, joined first", |bytes| by_rounds(bytes, parity_first, by_round)),
    ("**parity flag, joined to the turned sum**", |bytes| {
        by_rounds(bytes, round, by_round)
    }),
    ("the same, the odd byte by a table", |bytes| by_rounds(bytes, round, by_table)),
    ("the same, the odd byte by bits", |bytes| by_rounds(bytes, round, step_bits)),
    ("the same, two rounds a turn", two_rounds_a_turn),
    ("the library's round, a call for each word", |bytes| {
        by_rounds(bytes, sonde::crc_round, by_library)
    }),
    ("parity once, at the end of the message", parity_once),
    ("two words folded a turn", two_words_folded),
    ("four words folded a turn", four_words_folded),
];

// ---- a byte at a time

#[inline(always)]
fn step_bits(sum: u16, byte: u8) -> u16 {
    (0..8).fold(sum ^ u16::from(byte), |x, _| if x & 1 == 1 { x >> 1 ^ 0xA001 } else { x >> 1 })
}

fn by_bits(bytes: &[u8]) -> u16 {
    bytes.iter().fold(0xFFFF, |sum, &byte| step_bits(sum, byte))
}

/// What a byte alone becomes in so many bits.
const fn table_of<const N: usize>(shift: u32, bits: u32) -> [u16; N] {
    let mut table = [0; N];
    let mut i = 0;
    while i < N {
        let mut x = (i as u16) << shift;
        let mut bit = 0;
        while bit < bits {
            x = if x & 1 == 1 { x >> 1 ^ 0xA001 } else { x >> 1 };
            bit += 1;
        }
        table[i] = x;
        i += 1;
    }
    table
}

static EIGHT: [u16; 256] = table_of(0, 8);
static SIXTEEN: [u16; 256] = table_of(0, 16);
static NIBBLES: [[u16; 16]; 4] = [table_of(0, 16), table_of(4, 16), table_of(8, 16), table_of(12, 16)];

const fn halves(high: bool) -> [u8; 256] {
    let words: [u16; 256] = table_of(0, 8);
    let mut bytes = [0; 256];
    let mut i = 0;
    while i < 256 {
        bytes[i] = words[i].to_le_bytes()[high as usize];
        i += 1;
    }
    bytes
}

static LOW: [u8; 256] = halves(false);
static HIGH: [u8; 256] = halves(true);

fn by_two_byte_tables(bytes: &[u8]) -> u16 {
    let (low, high) = bytes.iter().fold((0xFF, 0xFF), |(low, high): (u8, u8), byte| {
        let i = usize::from(low ^ byte);
        (high ^ LOW[i], HIGH[i])
    });
    u16::from_le_bytes([low, high])
}

#[inline(always)]
fn by_table(sum: u16, byte: u8) -> u16 {
    sum >> 8 ^ EIGHT[usize::from(sum as u8 ^ byte)]
}

// ---- a word at a time

/// From a sum on a round for each word, the earlier byte its low half, and the odd byte on its own.
#[inline(always)]
fn rounds_from(sum: u16, bytes: &[u8], round: impl Fn(u16, u16) -> u16, odd: impl Fn(u16, u8) -> u16) -> u16 {
    let words = bytes.chunks_exact(2);
    let last = words.remainder();
    let sum = words.fold(sum, |sum, word| round(sum, u16::from_le_bytes([word[0], word[1]])));
    last.iter().fold(sum, |sum, &byte| odd(sum, byte))
}

#[inline(always)]
fn by_rounds(bytes: &[u8], round: impl Fn(u16, u16) -> u16, odd: impl Fn(u16, u8) -> u16) -> u16 {
    rounds_from(0xFFFF, bytes, round, odd)
}

#[inline(always)]
fn table_twice(sum: u16, word: u16) -> u16 {
    let [low, high] = word.to_le_bytes();
    by_table(by_table(sum, low), high)
}

#[inline(always)]
fn two_tables(sum: u16, word: u16) -> u16 {
    let [low, high] = (sum ^ word).to_le_bytes().map(usize::from);
    SIXTEEN[low] ^ EIGHT[high]
}

#[inline(always)]
fn four_tables(sum: u16, word: u16) -> u16 {
    let x = sum ^ word;
    let at = |k: usize| NIBBLES[k][usize::from(x >> (4 * k) & 15)];
    at(0) ^ at(1) ^ at(2) ^ at(3)
}

/// Sixteen bits without the parity's part.
#[inline(always)]
fn folded(x: u16) -> u16 {
    x >> 2 ^ x << 14 ^ (x >> 2) << 1 ^ (x & 3) << 12
}

#[inline(always)]
fn is_odd(x: u16) -> bool {
    x.count_ones() & 1 == 1
}

#[inline(always)]
fn parity_by_shifts(sum: u16, word: u16) -> u16 {
    let x = sum ^ word;
    let p = [8, 4, 2, 1].into_iter().fold(x, |p, shift| p ^ p >> shift);
    folded(x) ^ 0xC001 * (p & 1)
}

#[inline(always)]
fn parity_at_the_end(sum: u16, word: u16) -> u16 {
    let x = sum ^ word;
    if is_odd(x) {
        folded(x) ^ 0xC001
    } else {
        folded(x)
    }
}

#[inline(always)]
fn parity_first(sum: u16, word: u16) -> u16 {
    let x = sum ^ word;
    let turned = x >> 2 ^ x << 14;
    let settled = if is_odd(x) { turned ^ 0xC001 } else { turned };
    settled ^ (x >> 2) << 1 ^ (x & 3) << 12
}

/// As the library has it.
#[inline(always)]
fn round(sum: u16, word: u16) -> u16 {
    let x = sum ^ word;
    let turned = x >> 2 ^ x << 14;
    let settled = if is_odd(x) { turned ^ 0xC001 } else { turned };
    settled ^ ((x >> 2) << 1 ^ (x & 3) << 12)
}

#[inline(always)]
fn by_round(sum: u16, byte: u8) -> u16 {
    round((sum ^ u16::from(byte)) << 8, 0) ^ sum >> 8
}

#[inline(always)]
fn by_library(sum: u16, byte: u8) -> u16 {
    sonde::crc_round((sum ^ u16::from(byte)) << 8, 0) ^ sum >> 8
}

/// What is left of a message from a sum on.
#[inline(always)]
fn from(sum: u16, bytes: &[u8]) -> u16 {
    rounds_from(sum, bytes, round, by_round)
}

fn two_rounds_a_turn(bytes: &[u8]) -> u16 {
    let pairs = bytes.chunks_exact(4);
    let last = pairs.remainder();
    let sum = pairs.fold(0xFFFF, |sum, b| {
        round(round(sum, u16::from_le_bytes([b[0], b[1]])), u16::from_le_bytes([b[2], b[3]]))
    });
    from(sum, last)
}

// ---- the parity of a whole message: without it sums are worked out by x^15 + x + 1, in which x^16 is x^2 + x, x^32 is x^4 + x^2 and x^64 is
// x^8 + x^4, and the parity of all that went in tells at the end which of two sums it is: they differ by 0xC001

#[inline(always)]
fn settled(sum: u16, all: u16) -> u16 {
    if is_odd(sum ^ all) {
        sum ^ 0xC001
    } else {
        sum
    }
}

fn parity_once(bytes: &[u8]) -> u16 {
    let words = bytes.chunks_exact(2);
    let last = words.remainder();
    let (sum, all) = words.fold((0xFFFF, 0), |(sum, all), word| {
        let word = u16::from_le_bytes([word[0], word[1]]);
        (folded(sum ^ word), all ^ word)
    });
    from(settled(sum, all), last)
}

fn two_words_folded(bytes: &[u8]) -> u16 {
    let mut pairs = bytes.chunks_exact(4).map(|b| u32::from_le_bytes([b[0], b[1], b[2], b[3]]));
    let Some(first) = pairs.next() else {
        return from(0xFFFF, bytes);
    };
    let (a, all) = pairs.fold((first ^ 0xFFFF, first ^ 0xFFFF), |(a, all), word| {
        let v = u64::from(a) ^ u64::from(a) << 2;
        let out = v & 15;
        ((v >> 4 ^ out << 24 ^ out << 26) as u32 ^ word, all ^ word)
    });
    let sum = round(round(0, a as u16), (a >> 16) as u16);
    from(settled(sum, (all ^ all >> 16) as u16), bytes.chunks_exact(4).remainder())
}

fn four_words_folded(bytes: &[u8]) -> u16 {
    let mut fours = bytes
        .chunks_exact(8)
        .map(|b| u64::from_le_bytes([b[0], b[1], b[2], b[3], b[4], b[5], b[6], b[7]]));
    let Some(first) = fours.next() else {
        return from(0xFFFF, bytes);
    };
    let (a, all) = fours.fold((first ^ 0xFFFF, first ^ 0xFFFF), |(a, all), word| {
        let out = (a ^ a << 4) & 255;
        (a >> 4 ^ a >> 8 ^ out << 48 ^ out << 52 ^ word, all ^ word)
    });
    let sum = (0..4).fold(0, |sum, k| round(sum, (a >> (16 * k)) as u16));
    let all = all ^ all >> 32;
    from(settled(sum, (all ^ all >> 16) as u16), bytes.chunks_exact(8).remainder())
}

// ---- the table

fn message() -> Vec<u8> {
    let mut x = 1u32;
    let next = |_| {
        x = x.wrapping_mul(1_664_525).wrapping_add(1_013_904_223);
        (x >> 24) as u8
    };
    (0..LONGEST + 8).map(next).collect()
}

fn hold_to_bits(message: &[u8]) {
    for (name, way) in WAYS {
        for length in 0..=LONGEST {
            let part = &message[length % 7..][..length];
            assert_eq!(way(part), by_bits(part), "{name}, {length} bytes");
        }
    }
}

fn repeat(way: Way, message: &[u8], length: usize, calls: usize) {
    let mut sum = 0usize;
    for _ in 0..calls {
        sum = usize::from(black_box(way)(black_box(&message[sum & 1..][..length])));
    }
    black_box(sum);
}

/// Nanoseconds of a call by way and length.
fn times(message: &[u8]) -> Vec<[f64; 5]> {
    let mut least = vec![[f64::INFINITY; 5]; WAYS.len()];
    for _ in 0..ROUNDS {
        for ((_, way), least) in WAYS.into_iter().zip(&mut least) {
            for (length, least) in LENGTHS.into_iter().zip(least) {
                let calls = 100_000 / (length + 8);
                let start = Instant::now();
                repeat(way, message, length, calls);
                *least = least.min(start.elapsed().as_nanos() as f64 / calls as f64);
            }
        }
    }
    least
}

fn instructions(way: usize, length: usize) -> Option<f64> {
    let count = |calls: usize| bench::collected(&[way, length, calls].map(|number| number.to_string()));
    Some((count(COUNTED)? - count(0)?) / COUNTED as f64)
}

fn print(name: &str, times: [f64; 5], counts: [Option<f64>; 5]) {
    let mut cells = vec![name.to_string()];
    let bytes = (LENGTHS[4] - LENGTHS[0]) as f64;
    cells.extend(times.map(|time| format!("{time:.1}")));
    cells.push(format!("{:.2}", (times[4] - times[0]) / bytes));
    cells.extend(counts.map(|count| count.map_or("–".into(), |count| format!("{count:.0}"))));
    let each = counts[4].zip(counts[0]).map(|(long, short)| (long - short) / bytes);
    cells.push(each.map_or("–".into(), |each| format!("{each:.1}")));
    println!("| {} |", cells.join(" | "));
}

fn main() {
    let arguments: Vec<usize> = std::env::args().skip(1).map(|word| word.parse().expect("a number")).collect();
    let message = message();
    if let [way, length, calls] = arguments[..] {
        return repeat(WAYS[way].1, &message, length, calls);
    }
    hold_to_bits(&message);
    println!("| way | ns: 8 | 9 | 63 | 255 | 256 | each byte | instr.: 8 | 9 | 63 | 255 | 256 | each byte |");
    println!("|---|---|---|---|---|---|---|---|---|---|---|---|---|");
    for (index, ((name, _), times)) in WAYS.into_iter().zip(times(&message)).enumerate() {
        print(name, times, LENGTHS.map(|length| instructions(index, length)));
    }
}

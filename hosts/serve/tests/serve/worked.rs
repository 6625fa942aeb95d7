//! Worked volumes, and the frames that lead to them.

use crate::harness::Client;

/// A fresh sonde's volume for 3 entries: the format 1, the capacity, and the opening, where coefficient 2 is 1.0 on sensors 1, 2 and 4.
pub fn begun() -> Vec<u16> {
    let mut words = vec![0; 64 + 24 * 3];
    words[0] = 1;
    words[1] = 3;
    for sensor in [1, 2, 4] {
        words[10 + 6 * sensor + 2] = 0x3F80;
    }
    words
}

/// The same after so many updates at one point (1000, 1250) on sensor 1 at 0x69550001: entries 1 to `count` in one chain.
pub fn updated(count: u16) -> Vec<u16> {
    let mut words = begun();
    words[2] = count;
    words[4] = 1;
    words[8] = count;
    for index in 1..=count {
        let next = if index < count { index + 1 } else { 0 };
        let entry = [next, 1, 1, 0, 0x6955, 0x0001, 0, 0, 0x3FA0, 0, 0, 0, 0x447A, 0, 0x449C, 0x4000];
        let start = 64 + 24 * (usize::from(index) - 1);
        words[start..start + entry.len()].copy_from_slice(&entry);
    }
    words
}

pub fn calibrated() -> Vec<u16> {
    updated(1)
}

/// High byte first.
pub fn bytes(words: &[u16]) -> Vec<u8> {
    words.iter().flat_map(|w| [(w >> 8) as u8, *w as u8]).collect()
}

pub const START: &str = "--entries 3 --clock 1767178241"; // 0x69550001
pub const UPDATE: [u8; 6] = [1, 6, 0, 105, 0xE0, 0x01];
/// What an update is answered by when the journal is full.
pub const FULL: [u8; 3] = [1, 0x86, 0xC0];

/// Mode on, method 1, the point (1000, 1250): requests and replies.
pub fn preparation() -> [(Vec<u8>, Vec<u8>); 4] {
    let echoed = |body: &[u8]| (body.to_vec(), body.to_vec());
    let float = |body: &[u8]| (body.to_vec(), body[..6].to_vec());
    [
        echoed(&[1, 6, 0, 105, 0xE0, 0x00]),
        echoed(&[1, 6, 0, 106, 0, 1]),
        float(&[1, 16, 0, 116, 0, 2, 4, 0x44, 0x7A, 0, 0]),
        float(&[1, 16, 0, 118, 0, 2, 4, 0x44, 0x9C, 0x40, 0]),
    ]
}

pub fn prepare(client: &mut Client) {
    for (body, expected) in preparation() {
        client.ask(&body, &expected);
    }
}

//! The library's round of the CRC beside the twin's two steps, and messages of every length by rounds beside the twin's checksum.

use crate::library;
use crate::random::Random;

/// Words that every sum meets, besides random ones.
const WORDS: [u16; 4] = [0, 0x00FF, 0xFF00, 0xFFFF];
const RANDOM_WORDS: usize = 12;
/// The longest message, and how many there are of each length.
const MESSAGE_MOST: usize = 600;
const MESSAGES: usize = 20;

/// A stream of random numbers that no list of calls has.
const STREAM: u64 = u64::MAX;

/// How many rounds and messages were compared, or the first difference.
pub fn compare(seed: u64) -> Result<String, String> {
    let mut random = Random::new(seed, STREAM);
    let mut rounds = 0u64;
    for sum in 0..=u16::MAX {
        let words: [u16; RANDOM_WORDS] = std::array::from_fn(|_| random.word());
        for word in WORDS.into_iter().chain(words) {
            compare_round(sum, word)?;
            rounds += 1;
        }
    }
    for length in 0..=MESSAGE_MOST {
        for _ in 0..MESSAGES {
            let mut message = vec![0; length];
            random.fill_bytes(&mut message);
            compare_message(&message)?;
        }
    }
    let messages = (MESSAGE_MOST + 1) * MESSAGES;
    Ok(format!("{rounds} rounds of the CRC, {messages} messages by rounds"))
}

fn compare_round(sum: u16, word: u16) -> Result<(), String> {
    let (twin, library) = (twin::crc_round(sum, word), library::crc_round(sum, word));
    if twin == library {
        return Ok(());
    }
    Err(format!(
        "the round of {sum:#06X} and {word:#06X} differs\n  twin:    {twin:#06X}\n  library: {library:#06X}"
    ))
}

/// A round for each word, the earlier byte its low half, and the odd byte on its own, as the header has it.
fn by_rounds(message: &[u8]) -> u16 {
    let mut words = message.chunks_exact(2);
    let sum = words.by_ref().fold(0xFFFF, |sum, bytes| {
        library::crc_round(sum, u16::from_le_bytes([bytes[0], bytes[1]]))
    });
    match *words.remainder() {
        [byte] => library::crc_round((sum ^ u16::from(byte)) << 8, 0) ^ sum >> 8,
        _ => sum,
    }
}

fn compare_message(message: &[u8]) -> Result<(), String> {
    let (twin, library) = (twin::crc(message), by_rounds(message));
    if twin == library {
        return Ok(());
    }
    Err(format!(
        "the checksum by rounds differs on {message:02X?}\n  twin:    {twin:#06X}\n  library: {library:#06X}"
    ))
}

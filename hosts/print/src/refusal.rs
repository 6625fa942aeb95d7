//! Why the proved program refuses a volume. The verdict is the program's; this only names the reason.

use serve::fault;

/// The most bytes that are printed: 1000 entries and the header.
pub const MOST_BYTES: usize = 48128;

/// What is wrong with bytes that the program refused. They may be cut behind the first that is too many.
pub fn reason(bytes: &[u8]) -> String {
    if bytes.is_empty() {
        return "it is empty".to_string();
    }
    if bytes.len() > MOST_BYTES {
        return format!(
            "it has more than {MOST_BYTES} bytes, the most that is printed; no journal uses the bytes beyond, and `head -c {MOST_BYTES}` cuts them off"
        );
    }
    if !bytes.len().is_multiple_of(2) {
        return format!("it has {} bytes, which are no whole words", bytes.len());
    }
    let words: Vec<u16> = bytes.chunks_exact(2).map(|pair| u16::from_be_bytes([pair[0], pair[1]])).collect();
    match fault::first(&words) {
        Some(fault) => fault.to_string(),
        None => "the printer refused it, and no fault is found here".to_string(),
    }
}

#[cfg(test)]
mod tests {
    use super::*;

    #[test]
    fn lengths_are_told_before_words() {
        assert_eq!(reason(&[]), "it is empty");
        assert_eq!(reason(&[0; 175]), "it has 175 bytes, which are no whole words");
        assert!(reason(&[0; MOST_BYTES + 1]).starts_with("it has more than 48128 bytes"));
        assert!(reason(&[0; 174]).contains("87 words"));
        assert!(reason(&[0; MOST_BYTES]).starts_with("word 0, format"));
    }
}

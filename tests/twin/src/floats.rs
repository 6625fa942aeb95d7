//! Values of two words: the high word comes first.

pub fn join(high: u16, low: u16) -> u32 {
    u32::from(high) << 16 | u32::from(low)
}

pub fn split(value: u32) -> [u16; 2] {
    [(value >> 16) as u16, value as u16]
}

/// The float of two words.
pub fn float(words: &[u16]) -> f32 {
    f32::from_bits(join(words[0], words[1]))
}

/// The bits of a float. Every NaN is one: its sign and payload aren't kept.
pub fn bits(value: f32) -> u32 {
    if value.is_nan() {
        0x7FC0_0000
    } else {
        value.to_bits()
    }
}

/// Whether two lists of floats are the same in every bit.
pub fn same(left: &[f32], right: &[f32]) -> bool {
    left.iter().zip(right).all(|(l, r)| l.to_bits() == r.to_bits())
}

pub fn all_finite(values: &[f32]) -> bool {
    values.iter().all(|value| value.is_finite())
}

#[cfg(test)]
mod tests {
    use super::*;

    #[test]
    fn one_is_high_word_first() {
        assert_eq!(split(1.0f32.to_bits()), [0x3F80, 0x0000]);
        assert_eq!(float(&[0x3F80, 0x0000]), 1.0);
    }

    #[test]
    fn one_nan() {
        for pattern in [0x7F80_0001, 0x7FBF_FFFF, 0x7FC0_0000, 0xFFC0_0000, 0xFFFF_FFFF] {
            assert_eq!(bits(f32::from_bits(pattern)), 0x7FC0_0000);
        }
        for pattern in [0, 0x8000_0000, 1, 0x3F80_0000, 0x7F80_0000, 0xFF80_0000] {
            assert_eq!(bits(f32::from_bits(pattern)), pattern);
        }
    }

    #[test]
    fn zeros_differ_in_a_bit() {
        assert!(!same(&[0.0], &[-0.0]));
        assert!(same(&[f32::NAN], &[f32::NAN]));
    }
}

//! Floats that are likely to find a mistake.

use crate::random::Random;
use twin::calibration::LIMITS;

/// Both zeros, subnormals, the ends of the normal range, infinities, quiet and signalling NaNs with several payloads, and plain values.
const TELLING: [u32; 34] = [
    0x0000_0000,
    0x8000_0000,
    0x0000_0001,
    0x8000_0001,
    0x007F_FFFF,
    0x807F_FFFF,
    0x0080_0000,
    0x8080_0000,
    0x7F7F_FFFF,
    0xFF7F_FFFF,
    0x7F7F_FFFE,
    0x7F00_0000,
    0xFF00_0000,
    0x7E80_0000,
    0x7F80_0000,
    0xFF80_0000,
    0x7FC0_0000,
    0xFFC0_0000,
    0x7F80_0001,
    0xFF80_0001,
    0x7FBF_FFFF,
    0x7FFF_FFFF,
    0xFFFF_FFFF,
    0x7FC1_2345,
    0x3F80_0000,
    0xBF80_0000,
    0x3F80_0001,
    0x3F7F_FFFF,
    0x4974_2400, // 1000000
    0x0040_0000,
    0x0001_0000,
    0x7F80_FFFF,
    0x3DCC_CCCD, // 0.1
    0x461C_4000, // 10000
];

pub fn any(random: &mut Random) -> f32 {
    match random.below(10) {
        0..=3 => f32::from_bits(random.pick(&TELLING)),
        4 => f32::from_bits(random.long()),
        5 => beside_some_limit(random),
        6 => random.between(0, 40) as f32 - 20.0,
        _ => plain(random, -200.0, 200.0),
    }
}

pub fn finite(random: &mut Random) -> f32 {
    loop {
        let value = any(random);
        if value.is_finite() {
            return value;
        }
    }
}

pub fn not_finite(random: &mut Random) -> f32 {
    let fraction = if random.chance(30) { 0 } else { random.long() & 0x007F_FFFF };
    f32::from_bits(0x7F80_0000 | fraction | random.long() & 0x8000_0000)
}

/// A value between two others, never on them.
pub fn plain(random: &mut Random, low: f32, high: f32) -> f32 {
    let part = random.between(1, 9999) as f32 / 10000.0;
    low + (high - low) * part
}

/// A value within a coefficient's limits.
pub fn within(random: &mut Random, sensor: usize, coefficient: usize) -> f32 {
    match LIMITS[sensor][coefficient] {
        Some((low, high)) => plain(random, low, high),
        None => 0.0,
    }
}

/// On a limit of a coefficient, or one step inside or outside it.
pub fn beside_limit(random: &mut Random, sensor: usize, coefficient: usize) -> f32 {
    let Some((low, high)) = LIMITS[sensor][coefficient] else {
        return random.pick(&[0.0, -0.0, f32::from_bits(1)]);
    };
    let limit = random.pick(&[low, high]);
    random.pick(&[limit, limit, limit.next_up(), limit.next_down()])
}

fn beside_some_limit(random: &mut Random) -> f32 {
    let (sensor, coefficient) = (random.below(4), random.below(3));
    beside_limit(random, sensor, coefficient)
}

//! Coefficients, their limits, and the candidate of each calibration method.

use crate::floats::same;

pub const SENSORS: usize = 4;
/// Sensor 3, the only one with a third coefficient, and without methods 1 and 2. Sensors count from 0 inside the code.
pub const LEVEL: usize = 2;

pub const DIRECT: u16 = 0;
pub const ONE_POINT: u16 = 1;
pub const TWO_POINTS: u16 = 2;

pub type Coefficients = [f32; 3];
/// x1, y1, x2, y2.
pub type Points = [f32; 4];

/// Coefficients in force, and when they were calibrated.
#[derive(Clone, Copy, Debug)]
pub struct Calibration {
    pub coefficients: Coefficients,
    pub time: u32,
}

impl Calibration {
    /// Equal in every bit.
    pub fn same(&self, other: &Calibration) -> bool {
        self.time == other.time && same(&self.coefficients, &other.coefficients)
    }
}

pub const DEFAULTS: [Coefficients; SENSORS] = [[0.0, 1.0, 0.0], [0.0, 1.0, 0.0], [0.0, 0.0, 0.0], [0.0, 1.0, 0.0]];

/// Inclusive limits; `None` where only the bits of +0.0 are allowed.
pub const LIMITS: [[Option<(f32, f32)>; 3]; SENSORS] = [
    [Some((-100.0, 100.0)), Some((0.25, 4.0)), None],
    [Some((-0.2, 0.2)), Some((0.85, 1.20)), None],
    [Some((-10.0, 10.0)), Some((-10000.0, 10000.0)), Some((-10.0, 2000.0))],
    [Some((-100.0, 100.0)), Some((0.125, 8.0)), None],
];

/// No NaN or infinity is within limits.
pub fn within_limits(sensor: usize, coefficients: &Coefficients) -> bool {
    coefficients.iter().zip(&LIMITS[sensor]).all(|(value, limits)| match limits {
        Some((low, high)) => low <= value && value <= high,
        None => value.to_bits() == 0,
    })
}

/// Whether a sensor has the method.
pub fn listed_method(sensor: usize, method: u16) -> bool {
    method == DIRECT || sensor != LEVEL && method <= TWO_POINTS
}

/// What an update puts in force if it is within limits. One point with x1 = 0, or two with x1 = x2, divides by zero: the second coefficient
/// is then infinite or NaN, so never finite and never within limits.
pub fn candidate(method: u16, trial: &Coefficients, &[x1, y1, x2, y2]: &Points) -> Coefficients {
    match method {
        ONE_POINT => [0.0, y1 / x1, 0.0],
        TWO_POINTS => {
            let slope = (y1 - y2) / (x1 - x2);
            [y1 - slope * x1, slope, 0.0]
        }
        _ => *trial,
    }
}

/// The points that a method uses, +0.0 for the others.
pub fn used_points(method: u16, &[x1, y1, x2, y2]: &Points) -> Points {
    match method {
        ONE_POINT => [x1, y1, 0.0, 0.0],
        TWO_POINTS => [x1, y1, x2, y2],
        _ => [0.0; 4],
    }
}

#[cfg(test)]
mod tests {
    use super::*;

    const OXYGEN: usize = 1;

    #[test]
    fn two_points() {
        let given = |points| candidate(TWO_POINTS, &[9.0; 3], &points);
        assert_eq!(given([10.0, 21.0, 2.0, 5.0]), [1.0, 2.0, 0.0]);
        assert_eq!(given([8.0, 9.0, 0.0, 0.0]), [0.0, 1.125, 0.0]);
        assert!(within_limits(OXYGEN, &given([8.0, 9.0, 0.0, 0.0])));
        assert_eq!(given([8.0, 10.0, 0.0, 0.0])[1], 1.25);
        assert!(!within_limits(OXYGEN, &given([8.0, 10.0, 0.0, 0.0])));
        for y2 in [4.0, 5.0, f32::MAX] {
            assert!(!within_limits(0, &given([3.0, 4.0, 3.0, y2])));
            assert!(!given([3.0, 4.0, 3.0, y2])[1].is_finite());
        }
        assert!(same(&given([f32::MAX, 2.0, -f32::MAX, 3.0]), &[2.0, -0.0, 0.0]));
    }

    #[test]
    fn one_point() {
        let given = |x1, y1| candidate(ONE_POINT, &[9.0; 3], &[x1, y1, 7.0, 7.0]);
        assert_eq!(given(1000.0, 1250.0)[1].to_bits(), 0x3FA0_0000);
        assert!(same(&given(1000.0, 1250.0), &[0.0, 1.25, 0.0]));
        for x1 in [0.0, -0.0] {
            for y1 in [1.0, 0.0] {
                assert!(!within_limits(0, &given(x1, y1)));
                assert!(!given(x1, y1)[1].is_finite());
            }
        }
    }

    #[test]
    fn limits_are_inclusive() {
        assert!(within_limits(OXYGEN, &[0.0, f32::from_bits(0x3F99_999A), 0.0]));
        assert!(!within_limits(OXYGEN, &[0.0, f32::from_bits(0x3F99_999B), 0.0]));
        assert!(within_limits(OXYGEN, &[-0.0, 1.0, 0.0]));
        assert!(!within_limits(OXYGEN, &[0.0, 1.0, -0.0]));
    }
}

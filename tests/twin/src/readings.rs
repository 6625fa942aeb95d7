//! The value and quality that a parameter shows.

use crate::calibration::LEVEL;
use crate::state::{Sample, SensorSettings};

pub const GOOD: u16 = 0;
pub const NOT_FINITE: u16 = 3;
pub const CALIBRATING: u16 = 6;
pub const NOT_PRESENT: u16 = 7;

const CONDUCTIVITY: usize = 0;

#[derive(Clone, Copy, Debug)]
pub struct Reading {
    pub value: f32,
    pub quality: u16,
}

pub fn reading(sensor: usize, parameter: usize, settings: &SensorSettings, sample: &Sample) -> Reading {
    let sentinel = settings.sentinels[parameter];
    if !sample.present {
        return Reading {
            value: sentinel,
            quality: NOT_PRESENT,
        };
    }
    let value = convert(quantity(sensor, parameter, settings, sample), settings.units[parameter]);
    match (value.is_finite(), settings.calibrating) {
        (false, _) => Reading {
            value: sentinel,
            quality: NOT_FINITE,
        },
        (true, true) => Reading {
            value,
            quality: CALIBRATING,
        },
        (true, false) => Reading { value, quality: GOOD },
    }
}

/// The parameter's value before the conversion to its unit, not finite where that of the parameter it is worked from isn't.
fn quantity(sensor: usize, parameter: usize, settings: &SensorSettings, sample: &Sample) -> f32 {
    let [raw, temperature] = sample.raws;
    match (sensor, parameter) {
        (CONDUCTIVITY, 0) => temperature,
        (CONDUCTIVITY, 2) => resistivity(corrected(settings, raw)),
        (LEVEL, 0) if settings.calibrating => raw,
        (LEVEL, 0) => pressure(settings, raw),
        (LEVEL, _) => level(settings, raw),
        _ => corrected(settings, raw),
    }
}

/// Conductivity, oxygen or chlorophyll.
fn corrected(settings: &SensorSettings, raw: f32) -> f32 {
    let [offset, slope, _] = settings.active.coefficients;
    if settings.calibrating {
        raw
    } else {
        offset + slope * raw
    }
}

/// 1000000 / infinity would be 0, a number: an infinite conductivity makes the resistivity not finite too.
fn resistivity(conductivity: f32) -> f32 {
    if conductivity == 0.0 {
        10_000_000.0
    } else if conductivity.is_finite() {
        1_000_000.0 / conductivity
    } else {
        conductivity
    }
}

fn pressure(settings: &SensorSettings, raw: f32) -> f32 {
    raw - settings.active.coefficients[0]
}

/// A pressure that isn't finite makes the level so, by the formulas themselves.
fn level(settings: &SensorSettings, raw: f32) -> f32 {
    let [_, reference, reference_pressure] = settings.active.coefficients;
    let pressure = pressure(settings, raw);
    match settings.level_id {
        _ if settings.calibrating => height(pressure),
        3 => height(pressure),
        4 => reference - height(pressure - reference_pressure),
        _ => reference + height(pressure - reference_pressure),
    }
}

/// Metres of water of specific gravity 1.
fn height(pressure: f32) -> f32 {
    pressure * 0.70307 / 1.0
}

fn convert(value: f32, units: u16) -> f32 {
    match units {
        2 => value * 1.8 + 32.0,
        19 => value * 6.894757,
        20 => value * 0.06894757,
        21 => value * 68.94757,
        22 => value * 51.71493,
        _ => value,
    }
}

#[cfg(test)]
mod tests {
    use super::*;
    use crate::state::Settings;

    fn conductivity(parameter: usize, raws: [f32; 2], calibrating: bool) -> Reading {
        let mut settings = Settings::fresh().sensors[CONDUCTIVITY];
        settings.active.coefficients = [2.0, 4.0, 0.0];
        settings.units[0] = 2;
        settings.sentinels = [-1.0; 3];
        settings.calibrating = calibrating;
        reading(CONDUCTIVITY, parameter, &settings, &Sample { present: true, raws })
    }

    #[test]
    fn mode_shows_raws() {
        let show = |parameter, raws, calibrating| conductivity(parameter, raws, calibrating).value;
        assert_eq!(show(1, [10.0, 0.0], false), 42.0);
        assert_eq!(show(1, [10.0, 0.0], true), 10.0);
        assert_eq!(show(0, [10.0, 100.0], true), 212.0);
        assert_eq!(show(2, [2.0, 0.0], false), 100_000.0);
        assert_eq!(show(2, [-0.0, 0.0], true), 10_000_000.0);
    }

    #[test]
    fn not_finite_is_the_sentinel() {
        for parameter in [1, 2] {
            let Reading { value, quality } = conductivity(parameter, [f32::MAX, 0.0], false);
            assert_eq!((value, quality), (-1.0, NOT_FINITE));
        }
        assert_eq!(conductivity(1, [f32::MAX, 0.0], true).quality, CALIBRATING);
        assert_eq!(conductivity(0, [0.0, f32::MAX], true).quality, NOT_FINITE);
    }
}

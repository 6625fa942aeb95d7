//! The sonde's state: as it leaves the works, and what makes it valid.

use crate::calibration::{listed_method, within_limits, Calibration, Coefficients, Points, DEFAULTS, DIRECT, LEVEL, SENSORS};
use crate::floats::all_finite;
use crate::map::{LEVEL_IDS, PARAMETERS, PARAMETERS_MOST};

/// What frames write to a sensor, and what its calibrations decide.
#[derive(Clone, Copy, Debug)]
pub struct SensorSettings {
    pub calibrating: bool,
    pub active: Calibration,
    pub trial: Coefficients,
    pub method: u16,
    pub points: Points,
    pub next: u32,
    /// Means something on sensor 3 only.
    pub level_id: u16,
    /// 0 for a parameter that the sensor lacks.
    pub units: [u16; PARAMETERS_MOST],
    pub sentinels: [f32; PARAMETERS_MOST],
}

/// What frames write, and what calibrations decide: the device's and each sensor's.
#[derive(Clone, Copy, Debug)]
pub struct Settings {
    /// Who calibrates (document 02, wish 3): any number, and 0 means not given.
    pub technician: u16,
    pub sensors: [SensorSettings; SENSORS],
}

/// What measurements write to a sensor. A sensor that was never measured counts as not present.
#[derive(Clone, Copy, Debug, Default)]
pub struct Sample {
    pub present: bool,
    pub raws: [f32; 2],
}

#[derive(Clone, Copy, Debug, Default, PartialEq, Eq)]
pub struct Counters {
    pub good: u16,
    pub bad: u16,
    pub exceptions: u16,
}

#[derive(Clone, Copy, Debug)]
pub struct Sonde {
    pub address: u8,
    pub settings: Settings,
    pub samples: [Sample; SENSORS],
    pub counters: Counters,
}

pub fn valid_address(address: u8) -> bool {
    (1..=247).contains(&address)
}

impl SensorSettings {
    /// Settings as fresh, but for the calibration in force.
    fn with(sensor: usize, active: Calibration) -> SensorSettings {
        let mut units = [0; PARAMETERS_MOST];
        for (unit, parameter) in units.iter_mut().zip(PARAMETERS[sensor]) {
            *unit = parameter.units[0];
        }
        SensorSettings {
            calibrating: false,
            active,
            trial: active.coefficients,
            method: DIRECT,
            points: [0.0; 4],
            next: 0,
            level_id: LEVEL_IDS[0],
            units,
            sentinels: [0.0; PARAMETERS_MOST],
        }
    }

    /// Units and ids of parameters that the sensor lacks aren't looked at; every float is.
    fn valid(&self, sensor: usize) -> bool {
        within_limits(sensor, &self.active.coefficients)
            && all_finite(&self.trial)
            && all_finite(&self.points)
            && all_finite(&self.sentinels)
            && listed_method(sensor, self.method)
            && PARAMETERS[sensor]
                .iter()
                .zip(&self.units)
                .all(|(parameter, units)| parameter.units.contains(units))
            && (sensor != LEVEL || LEVEL_IDS.contains(&self.level_id))
    }
}

impl Settings {
    /// Settings as fresh, but for the calibrations in force.
    pub fn with(active: [Calibration; SENSORS]) -> Settings {
        Settings {
            technician: 0,
            sensors: std::array::from_fn(|sensor| SensorSettings::with(sensor, active[sensor])),
        }
    }

    pub fn fresh() -> Settings {
        Settings::with(DEFAULTS.map(|coefficients| Calibration { coefficients, time: 0 }))
    }

    /// The calibrations in force.
    pub fn active(&self) -> [Calibration; SENSORS] {
        self.sensors.each_ref().map(|settings| settings.active)
    }

    /// Every technician is valid.
    fn valid(&self) -> bool {
        self.sensors.iter().enumerate().all(|(sensor, settings)| settings.valid(sensor))
    }
}

impl Sonde {
    pub fn fresh(address: u8) -> Sonde {
        Sonde {
            address,
            settings: Settings::fresh(),
            samples: [Sample::default(); SENSORS],
            counters: Counters::default(),
        }
    }

    pub fn valid(&self) -> bool {
        valid_address(self.address) && self.settings.valid() && self.samples.iter().all(|sample| all_finite(&sample.raws))
    }
}

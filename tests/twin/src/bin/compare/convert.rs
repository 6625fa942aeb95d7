//! The library's sonde and the twin's, turned into one another, and compared field by field, floats by their bits. Likewise an entry.

use sonde::ffi;
use twin::calibration::Calibration;
use twin::floats::{float, join};
use twin::state::{Counters, Sample, SensorSettings, Settings, Sonde};
use twin::volume::Entry;

pub fn to_library(sonde: &Sonde) -> ffi::Sonde {
    let Counters { good, bad, exceptions } = sonde.counters;
    ffi::Sonde {
        address: sonde.address,
        technician: sonde.settings.technician,
        sensors: std::array::from_fn(|i| ffi::Sensor {
            setup: setup(&sonde.settings.sensors[i]),
            sample: sample(&sonde.samples[i]),
        }),
        counters: ffi::Counters { good, bad, exceptions },
    }
}

fn setup(settings: &SensorSettings) -> ffi::Setup {
    let [coefficient1, coefficient2, coefficient3] = settings.active.coefficients;
    let [trial1, trial2, trial3] = settings.trial;
    let [x1, y1, x2, y2] = settings.points;
    let parameter = |i: usize| ffi::Parameter {
        units: settings.units[i],
        sentinel: settings.sentinels[i],
    };
    ffi::Setup {
        procedure: ffi::Procedure {
            calibrating: settings.calibrating,
            trial: ffi::Coefficients {
                coefficient1: trial1,
                coefficient2: trial2,
                coefficient3: trial3,
            },
            method: settings.method,
            points: ffi::Points { x1, y1, x2, y2 },
        },
        active: ffi::Active {
            calibration: ffi::Calibration {
                coefficient1,
                coefficient2,
                coefficient3,
                time: settings.active.time,
            },
            next: settings.next,
        },
        parameters: ffi::Parameters {
            level: settings.level_id,
            parameter1: parameter(0),
            parameter2: parameter(1),
            parameter3: parameter(2),
        },
    }
}

fn sample(sample: &Sample) -> ffi::Sample {
    ffi::Sample {
        present: sample.present,
        raw1: sample.raws[0],
        raw2: sample.raws[1],
    }
}

pub fn from_library(sonde: &ffi::Sonde) -> Sonde {
    let ffi::Counters { good, bad, exceptions } = sonde.counters;
    Sonde {
        address: sonde.address,
        settings: Settings {
            technician: sonde.technician,
            sensors: std::array::from_fn(|i| settings(&sonde.sensors[i].setup)),
        },
        samples: std::array::from_fn(|i| {
            let ffi::Sample { present, raw1, raw2 } = sonde.sensors[i].sample;
            Sample {
                present,
                raws: [raw1, raw2],
            }
        }),
        counters: Counters { good, bad, exceptions },
    }
}

fn settings(setup: &ffi::Setup) -> SensorSettings {
    let ffi::Setup {
        procedure,
        active,
        parameters,
    } = *setup;
    let ffi::Calibration {
        coefficient1,
        coefficient2,
        coefficient3,
        time,
    } = active.calibration;
    let trial = procedure.trial;
    let ffi::Points { x1, y1, x2, y2 } = procedure.points;
    let each = [parameters.parameter1, parameters.parameter2, parameters.parameter3];
    SensorSettings {
        calibrating: procedure.calibrating,
        active: Calibration {
            coefficients: [coefficient1, coefficient2, coefficient3],
            time,
        },
        trial: [trial.coefficient1, trial.coefficient2, trial.coefficient3],
        method: procedure.method,
        points: [x1, y1, x2, y2],
        next: active.next,
        level_id: parameters.level,
        units: each.map(|parameter| parameter.units),
        sentinels: each.map(|parameter| parameter.sentinel),
    }
}

/// The twin counts sensors from 0: sensor 0 becomes one past all.
pub fn entry_from_library(entry: &ffi::Entry) -> Entry {
    let ffi::Calibration {
        coefficient1,
        coefficient2,
        coefficient3,
        time,
    } = entry.calibration;
    let ffi::Points { x1, y1, x2, y2 } = entry.points;
    Entry {
        sensor: usize::from(entry.sensor).wrapping_sub(1),
        method: entry.method,
        technician: entry.technician,
        calibration: Calibration {
            coefficients: [coefficient1, coefficient2, coefficient3],
            time,
        },
        points: [x1, y1, x2, y2],
    }
}

/// The entry that these words are.
pub fn entry_of_words(words: &[u16]) -> ffi::Entry {
    let float = |at: usize| float(&words[at..]);
    ffi::Entry {
        sensor: words[1],
        method: words[2],
        technician: words[3],
        calibration: ffi::Calibration {
            coefficient1: float(6),
            coefficient2: float(8),
            coefficient3: float(10),
            time: join(words[4], words[5]),
        },
        points: ffi::Points {
            x1: float(12),
            y1: float(14),
            x2: float(16),
            y2: float(18),
        },
    }
}

/// Fields of a sensor's settings.
const SETTINGS: usize = 21;
const SETTINGS_NAMES: [&str; SETTINGS] = [
    "calibrating",
    "coefficient 1",
    "coefficient 2",
    "coefficient 3",
    "last calibration",
    "trial 1",
    "trial 2",
    "trial 3",
    "method",
    "x1",
    "y1",
    "x2",
    "y2",
    "next",
    "level id",
    "units 1",
    "units 2",
    "units 3",
    "sentinel 1",
    "sentinel 2",
    "sentinel 3",
];

fn settings_bits(settings: &SensorSettings) -> [u32; SETTINGS] {
    let mut bits = [0; SETTINGS];
    bits[0] = u32::from(settings.calibrating);
    bits[1..4].copy_from_slice(&settings.active.coefficients.map(f32::to_bits));
    bits[4] = settings.active.time;
    bits[5..8].copy_from_slice(&settings.trial.map(f32::to_bits));
    bits[8] = u32::from(settings.method);
    bits[9..13].copy_from_slice(&settings.points.map(f32::to_bits));
    bits[13] = settings.next;
    bits[14] = u32::from(settings.level_id);
    bits[15..18].copy_from_slice(&settings.units.map(u32::from));
    bits[18..21].copy_from_slice(&settings.sentinels.map(f32::to_bits));
    bits
}

/// The first field of the settings that differs, with both values.
pub fn settings_difference(left: &Settings, right: &Settings) -> Option<String> {
    if left.technician != right.technician {
        return Some(format!("technician: {} and {}", left.technician, right.technician));
    }
    let pairs = left.sensors.iter().zip(&right.sensors).enumerate();
    pairs
        .map(|(i, (l, r))| (i, settings_bits(l), settings_bits(r)))
        .find(|(_, l, r)| l != r)
        .map(|(i, l, r)| {
            let field = (0..SETTINGS).find(|&field| l[field] != r[field]).unwrap_or(0);
            format!(
                "sensor {}, {}: {:#010X} and {:#010X}",
                i + 1,
                SETTINGS_NAMES[field],
                l[field],
                r[field]
            )
        })
}

/// The first field that differs, with both values.
pub fn difference(left: &Sonde, right: &Sonde) -> Option<String> {
    if left.address != right.address {
        return Some(format!("address: {} and {}", left.address, right.address));
    }
    if left.counters != right.counters {
        return Some(format!("counters: {:?} and {:?}", left.counters, right.counters));
    }
    for (i, (l, r)) in left.samples.iter().zip(&right.samples).enumerate() {
        if l.present != r.present || l.raws.map(f32::to_bits) != r.raws.map(f32::to_bits) {
            return Some(format!("sensor {}, sample: {l:?} and {r:?}", i + 1));
        }
    }
    settings_difference(&left.settings, &right.settings)
}

#[cfg(test)]
mod tests {
    use super::*;

    #[test]
    fn entries_and_their_words() {
        let mut words: [u16; 24] = std::array::from_fn(|word| 0x3F00 + word as u16);
        words[0] = 0;
        words[1] = 3;
        words[20..].fill(0);
        let entry = entry_of_words(&words);
        assert_eq!(entry_from_library(&entry).words(), words);
        let none = [0, 5, 65535].map(|sensor| entry_from_library(&ffi::Entry { sensor, ..entry }).sensor);
        assert!(none.into_iter().all(|sensor| sensor >= 4));
    }
}

//! The four sensors and the coefficients that have a panel (docs/ARCHIVE.md, "Sensors and coefficients"). Their limits are those of `serve::fault`.

use serve::fault::LIMITS;

pub struct Sensor {
    pub name: &'static str,
    /// Coefficients with their units, from the first on; the third of the others is always +0.
    pub coefficients: &'static [&'static str],
}

/// From sensor 1 on.
pub const SENSORS: [Sensor; 4] = [
    Sensor {
        name: "conductivity",
        coefficients: &["cell offset, µS/cm", "cell constant, no units"],
    },
    Sensor {
        name: "dissolved oxygen",
        coefficients: &["offset, mg/L", "slope, no units"],
    },
    Sensor {
        name: "level",
        coefficients: &["pressure offset, psi", "level reference, m", "reference pressure, psi"],
    },
    Sensor {
        name: "chlorophyll-a",
        coefficients: &["offset, µg/L", "slope, no units"],
    },
];

/// The limits of a coefficient, both counted from 1; only for those that have a panel.
pub fn limits(sensor: usize, coefficient: usize) -> [f32; 2] {
    let limits = LIMITS[sensor - 1][coefficient - 1].as_ref();
    limits.map_or([0.0; 2], |limits| [*limits.start(), *limits.end()])
}

#[cfg(test)]
mod tests {
    use super::*;

    #[test]
    fn just_the_coefficients_with_limits_have_panels() {
        for (sensor, limits) in SENSORS.iter().zip(&LIMITS) {
            let limited = limits.iter().filter(|limits| limits.is_some()).count();
            assert_eq!(sensor.coefficients.len(), limited, "{}", sensor.name);
        }
    }
}

//! The register map: which field a register belongs to, and who may write it.

use crate::calibration::{LEVEL, SENSORS};

/// What the map fixes of one parameter. The first units listed are the default.
pub struct Parameter {
    pub id: u16,
    pub units: &'static [u16],
    pub available: u16,
}

/// Parameters per sensor, at most.
pub const PARAMETERS_MOST: usize = 3;

pub const PARAMETERS: [&[Parameter]; SENSORS] = [
    &[
        Parameter {
            id: 1,
            units: &[1, 2],
            available: 0x0003,
        },
        Parameter {
            id: 9,
            units: &[65],
            available: 0x0001,
        },
        Parameter {
            id: 11,
            units: &[81],
            available: 0x0001,
        },
    ],
    &[Parameter {
        id: 20,
        units: &[117],
        available: 0x0010,
    }],
    &[
        Parameter {
            id: 2,
            units: &[17, 19, 20, 21, 22],
            available: 0x003D,
        },
        Parameter {
            id: LEVEL_IDS[0],
            units: &[35],
            available: 0x0004,
        },
    ],
    &[Parameter {
        id: 51,
        units: &[118],
        available: 0x0020,
    }],
];

/// The ids of the level parameter: depth, depth to water, elevation.
pub const LEVEL_IDS: [u16; 3] = [3, 4, 5];
/// The level's place among the parameters of its sensor.
pub const LEVEL_PARAMETER: usize = 1;

pub const ENTER: u16 = 0xE000;
pub const UPDATE: u16 = 0xE001;
pub const LEAVE: u16 = 0xE002;

#[derive(Clone, Copy, Debug, PartialEq, Eq)]
pub enum Field {
    Version,
    Device,
    Clock,
    Good,
    Bad,
    Exceptions,
    Capacity,
    InUse,
    Technician,
    Sensor,
    Last,
    Next,
    Command,
    Method,
    Parameters,
    Coefficient(usize),
    Point(usize),
    Value(usize),
    Id(usize),
    Units(usize),
    Quality(usize),
    Sentinel(usize),
    Available(usize),
}

#[derive(Clone, Copy, Debug, PartialEq, Eq)]
pub enum Access {
    ReadOnly,
    Writable,
    /// Writable in calibration mode only.
    Calibrating,
}

impl Field {
    pub fn words(self) -> u16 {
        use Field::*;
        match self {
            Clock | Last | Next | Coefficient(_) | Point(_) | Value(_) | Sentinel(_) => 2,
            _ => 1,
        }
    }
}

/// Whose a field is.
#[derive(Clone, Copy, Debug, PartialEq, Eq)]
pub enum Owner {
    Device,
    Sensor(usize),
}

/// A field, whose it is, and where it begins.
#[derive(Clone, Copy, Debug)]
pub struct Place {
    pub field: Field,
    pub owner: Owner,
    pub start: u16,
}

impl Place {
    pub fn access(&self) -> Access {
        use Field::*;
        match self.field {
            Technician | Next | Command | Units(_) | Sentinel(_) => Access::Writable,
            Id(LEVEL_PARAMETER) if self.owner == Owner::Sensor(LEVEL) => Access::Writable,
            Method | Coefficient(_) | Point(_) => Access::Calibrating,
            _ => Access::ReadOnly,
        }
    }
}

/// The field that holds a register; `None` where there is no register.
pub fn locate(register: u16) -> Option<Place> {
    let (block, offset) = (usize::from(register / 100), register % 100);
    let owner = match block {
        0 => Owner::Device,
        1..=SENSORS => Owner::Sensor(block - 1),
        _ => return None,
    };
    let (field, part) = match owner {
        Owner::Device => device_field(offset)?,
        Owner::Sensor(sensor) => sensor_field(sensor, offset)?,
    };
    Some(Place {
        field,
        owner,
        start: register - part,
    })
}

/// A field of the device, and which of its words the register is.
fn device_field(offset: u16) -> Option<(Field, u16)> {
    Some(match offset {
        0 => (Field::Version, 0),
        1 => (Field::Device, 0),
        2..=3 => (Field::Clock, offset - 2),
        4 => (Field::Good, 0),
        5 => (Field::Bad, 0),
        6 => (Field::Exceptions, 0),
        7 => (Field::Capacity, 0),
        8 => (Field::InUse, 0),
        9 => (Field::Technician, 0),
        _ => return None,
    })
}

fn sensor_field(sensor: usize, offset: u16) -> Option<(Field, u16)> {
    let level = sensor == LEVEL;
    Some(match offset {
        0 => (Field::Sensor, 0),
        1..=2 => (Field::Last, offset - 1),
        3..=4 => (Field::Next, offset - 3),
        5 => (Field::Command, 0),
        6 if !level => (Field::Method, 0),
        7 => (Field::Parameters, 0),
        10..=13 => (Field::Coefficient(usize::from(offset - 10) / 2), offset % 2),
        14..=15 if level => (Field::Coefficient(2), offset % 2),
        16..=23 if !level => (Field::Point(usize::from(offset - 16) / 2), offset % 2),
        30.. => return parameter_field(sensor, offset - 30),
        _ => return None,
    })
}

fn parameter_field(sensor: usize, offset: u16) -> Option<(Field, u16)> {
    let parameter = usize::from(offset / 8);
    if parameter >= PARAMETERS[sensor].len() {
        return None;
    }
    Some(match offset % 8 {
        part @ 0..=1 => (Field::Value(parameter), part),
        2 => (Field::Id(parameter), 0),
        3 => (Field::Units(parameter), 0),
        4 => (Field::Quality(parameter), 0),
        part @ 5..=6 => (Field::Sentinel(parameter), part - 5),
        _ => (Field::Available(parameter), 0),
    })
}

#[cfg(test)]
mod tests {
    use super::*;

    #[test]
    fn registers_of_the_paper() {
        let count = (0..=u16::MAX).filter(|&register| locate(register).is_some()).count();
        assert_eq!(count, 10 + (8 + 4 + 8 + 24) + (8 + 4 + 8 + 8) + (7 + 6 + 16) + (8 + 4 + 8 + 8));
        assert!(locate(0x2500).is_none() && locate(10).is_none());
        assert!(locate(306).is_none() && locate(316).is_none() && locate(114).is_none());
        assert_eq!(locate(315).unwrap().start, 314);
    }

    #[test]
    fn the_technician_is_the_devices_one_writable_field() {
        let device = (0..100).filter_map(locate);
        let writable: Vec<u16> = device
            .filter(|place| place.access() != Access::ReadOnly)
            .map(|place| place.start)
            .collect();
        assert_eq!(writable, [9]);
        let place = locate(9).unwrap();
        assert_eq!(
            (place.owner, place.access(), place.field.words()),
            (Owner::Device, Access::Writable, 1)
        );
    }

    #[test]
    fn available_units_are_the_bits_of_the_units() {
        for parameter in PARAMETERS.iter().copied().flatten() {
            let bit = |units: &u16| units - [1, 17, 33, 65, 81, 113].into_iter().filter(|base| base <= units).max().unwrap();
            let bits = parameter.units.iter().fold(0, |bits, units| bits | 1 << bit(units));
            assert_eq!(bits, parameter.available);
        }
    }
}

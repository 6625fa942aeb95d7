//! What there was before a call, as far as it tells what the call meets.

use crate::both::Both;
use crate::calls::{Call, Kind};
use crate::generate::makes_sonde;
use twin::calibration::SENSORS;
use twin::volume::{ENTRY_WORDS, HEADER_WORDS};
use twin::Sonde;

/// What earlier calls did with the technician's number.
#[derive(Clone, Copy)]
pub struct History {
    /// The number that stood when each sensor's mode went on.
    pub entered: [u16; SENSORS],
    /// Whether a power-up has cleared a number, and none was given since.
    pub cleared: bool,
}

impl History {
    /// That of a sonde as it is, without earlier calls.
    pub fn of(sonde: &Sonde) -> History {
        History {
            entered: [sonde.settings.technician; SENSORS],
            cleared: false,
        }
    }

    /// After a call, by the sondes before and after it.
    pub fn after(self, call: &Call, before: &Sonde, after: &Sonde) -> History {
        let (was, is) = (&before.settings, &after.settings);
        let entered = std::array::from_fn(|sensor| {
            let enters = is.sensors[sensor].calibrating && !was.sensors[sensor].calibrating;
            if enters {
                is.technician
            } else {
                self.entered[sensor]
            }
        });
        let clears = call.kind() == Kind::PowerUp && was.technician != 0;
        let cleared = (clears || self.cleared) && is.technician == 0 && !makes_sonde(call);
        History { entered, cleared }
    }
}

/// What there was before a call.
pub struct Before {
    pub sonde: Sonde,
    pub in_use: usize,
    pub lent: usize,
    pub history: History,
    /// The technician of each chain's last entry; 0 where there is none.
    pub technicians: [u16; SENSORS],
}

impl Before {
    pub fn new(both: &Both) -> Before {
        let volume = &both.twin_volume[..both.lent];
        Before {
            sonde: both.twin,
            in_use: volume.get(2).copied().unwrap_or(0).into(),
            lent: both.lent,
            history: both.history,
            technicians: std::array::from_fn(|sensor| last_technician(volume, sensor).unwrap_or(0)),
        }
    }

    /// Whether an entry has a technician's number.
    pub fn with_technician(&self) -> bool {
        self.technicians != [0; SENSORS]
    }
}

/// The technician of the last entry of a sensor's chain.
fn last_technician(volume: &[u16], sensor: usize) -> Option<u16> {
    let earlier_entries = volume.get(8 + sensor)?.checked_sub(1)?;
    volume.get(HEADER_WORDS + ENTRY_WORDS * usize::from(earlier_entries) + 3).copied()
}

#[cfg(test)]
mod tests {
    use super::*;

    #[test]
    fn history_of_the_technician() {
        let sonde = |technician: u16, calibrating: bool| {
            let mut sonde = Sonde::fresh(1);
            sonde.settings.technician = technician;
            sonde.settings.sensors[2].calibrating = calibrating;
            sonde
        };
        let audit = Call::Audit { words: 0 };
        let power_up = Call::PowerUp { address: 1, words: 0 };
        let fresh = Call::Fresh { address: 1 };
        let history = History::of(&sonde(5, false));
        let history = history.after(&audit, &sonde(7, false), &sonde(7, true));
        let history = history.after(&audit, &sonde(7, true), &sonde(8, true));
        assert_eq!((history.entered, history.cleared), ([5, 5, 7, 5], false));
        assert!(!history.after(&power_up, &sonde(8, true), &sonde(8, true)).cleared);
        let cleared = history.after(&power_up, &sonde(8, true), &sonde(0, false));
        let cleared = cleared.after(&power_up, &sonde(0, false), &sonde(0, false));
        assert!(cleared.after(&audit, &sonde(0, false), &sonde(0, true)).cleared);
        assert!(!cleared.after(&audit, &sonde(0, false), &sonde(1, false)).cleared);
        assert!(!cleared.after(&fresh, &sonde(0, false), &sonde(0, false)).cleared);
    }

    #[test]
    fn technician_of_a_chains_last_entry() {
        let mut volume = [0; HEADER_WORDS + 2 * ENTRY_WORDS];
        volume[9] = 2;
        volume[10] = 3;
        volume[HEADER_WORDS + ENTRY_WORDS + 3] = 7;
        assert_eq!([0, 1, 2].map(|sensor| last_technician(&volume, sensor)), [None, Some(7), None]);
        assert_eq!(last_technician(&volume[..9], 1), None);
    }
}

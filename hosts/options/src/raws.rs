//! The raw values of the simulated sensors, as they are written on the command line and in a file.

#[derive(Clone, Copy, Debug, PartialEq)]
struct Raw {
    present: bool,
    first: f32,
    /// Sensor 1 only: its temperature.
    second: f32,
}

/// What the four sensors have measured.
#[derive(Clone, Copy, Debug, PartialEq)]
pub struct Raws([Raw; 4]);

impl Default for Raws {
    fn default() -> Raws {
        let of = |first, second| Raw {
            present: true,
            first,
            second,
        };
        Raws([of(1000.0, 20.0), of(8.0, 0.0), of(14.7, 0.0), of(5.0, 0.0)])
    }
}

impl Raws {
    /// The raw values of sensor 1 to 4, as the library's measure takes them.
    pub fn get(&self, sensor: usize) -> Option<(f32, f32)> {
        let raw = self.0[sensor - 1];
        raw.present.then_some((raw.first, raw.second))
    }

    /// Takes `S=FIRST`, `1=FIRST,SECOND` or `S=absent`. What isn't said stays as it was.
    pub fn set(&mut self, text: &str) -> Result<(), String> {
        let wrong = |why: &str| format!("{text}: {why}");
        let (sensor, values) = text.split_once('=').ok_or_else(|| wrong("it is written SENSOR=VALUE"))?;
        let sensor = sensor.trim().parse().ok().filter(|s| (1..=4).contains(s));
        let sensor: usize = sensor.ok_or_else(|| wrong("the sensors are 1 to 4"))?;
        let raw = &mut self.0[sensor - 1];
        if values.trim() == "absent" {
            raw.present = false;
            return Ok(());
        }
        let (first, second) = match values.split_once(',') {
            Some(_) if sensor != 1 => return Err(wrong("only sensor 1 has a second value")),
            Some((first, second)) => (first, Some(second)),
            None => (values, None),
        };
        let finite = |text: &str| text.trim().parse::<f32>().ok().filter(|v| v.is_finite());
        let first = finite(first).ok_or_else(|| wrong("the value is no finite number"))?;
        let second = second
            .map_or(Some(raw.second), finite)
            .ok_or_else(|| wrong("the second value is no finite number"))?;
        *raw = Raw {
            present: true,
            first,
            second,
        };
        Ok(())
    }

    /// Takes a file's lines, all or none.
    pub fn set_all(&mut self, text: &str) -> Result<(), String> {
        let mut raws = *self;
        for (number, line) in text.lines().enumerate() {
            let line = line.split('#').next().unwrap_or_default().trim();
            if !line.is_empty() {
                raws.set(line).map_err(|e| format!("line {}: {e}", number + 1))?;
            }
        }
        *self = raws;
        Ok(())
    }
}

#[cfg(test)]
mod tests {
    use super::*;

    #[test]
    fn a_file_names_the_sensors_that_it_changes() {
        let mut raws = Raws::default();
        raws.set_all("# bench\n1 = 1413, 25.5\n\n 3=absent # out of the water\n4 = -0.5\n")
            .unwrap();
        assert_eq!(raws.get(1), Some((1413.0, 25.5)));
        assert_eq!(raws.get(2), Some((8.0, 0.0)));
        assert_eq!(raws.get(3), None);
        assert_eq!(raws.get(4), Some((-0.5, 0.0)));
        raws.set_all("1 = 900\n3 = 15").unwrap();
        assert_eq!(raws.get(1), Some((900.0, 25.5)));
        assert_eq!(raws.get(3), Some((15.0, 0.0)));
    }

    #[test]
    fn a_bad_line_is_named_and_nothing_is_taken() {
        for (text, message) in [
            ("2 = 9\n5 = 1", "line 2: 5 = 1: the sensors are 1 to 4"),
            ("0 = 1", "the sensors are 1 to 4"),
            ("2 8", "it is written SENSOR=VALUE"),
            ("2 = nan", "the value is no finite number"),
            ("2 = 1e39", "the value is no finite number"),
            ("2 =", "the value is no finite number"),
            ("1 = 1000, inf", "the second value is no finite number"),
            ("2 = 8, 20", "only sensor 1 has a second value"),
        ] {
            let mut raws = Raws::default();
            let said = raws.set_all(text).unwrap_err();
            assert!(said.contains(message), "{text}: {said}");
            assert_eq!(raws, Raws::default());
        }
    }
}

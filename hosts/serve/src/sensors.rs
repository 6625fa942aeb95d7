//! The simulated sensors: raw values from the command line, or from a file that may change while the server runs.

use crate::files::{open_regular, read_most};
use crate::say;
use serve_options::Raws;
use sonde::Sonde;
use std::path::{Path, PathBuf};

/// More than any list of four sensors needs; a longer file is a wrong one.
const LONGEST_FILE: usize = 65536;

pub struct Sensors {
    raws: Raws,
    file: Option<PathBuf>,
    /// The file as it was last looked at. Its text is compared, and not its time: two changes can have one time.
    seen: Result<String, String>,
}

impl Sensors {
    pub fn new(raws: Raws, file: Option<&Path>) -> Result<Sensors, String> {
        let mut sensors = Sensors {
            raws,
            file: file.map(Path::to_path_buf),
            seen: Ok(String::new()),
        };
        sensors.look()?;
        Ok(sensors)
    }

    /// Takes the file's values if it has changed.
    fn look(&mut self) -> Result<(), String> {
        let Some(file) = &self.file else { return Ok(()) };
        let text = text_of(file);
        if text == self.seen {
            return Ok(());
        }
        self.seen = text.clone();
        text.and_then(|text| self.raws.set_all(&text))
            .map_err(|e| format!("{}: {e}", file.display()))
    }

    /// Measures all four sensors. A file that can't be taken is told once, and the last values stay.
    pub fn measure(&mut self, sonde: &mut Sonde) -> Result<(), sonde::Error> {
        if let Err(message) = self.look() {
            say(&format!("{message}; the last values stay"));
        }
        (1..=4).try_for_each(|sensor| sonde.measure(sensor, self.raws.get(sensor.into())))
    }
}

fn text_of(file: &Path) -> Result<String, String> {
    let bytes = read_most(&open_regular(file)?, LONGEST_FILE + 1).map_err(|e| e.to_string())?;
    match bytes.len() {
        length if length > LONGEST_FILE => Err("it is too long".to_string()),
        _ => String::from_utf8(bytes).map_err(|_| "it isn't UTF-8".to_string()),
    }
}

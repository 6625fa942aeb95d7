//! The words of the command line.

mod raws;

pub use raws::Raws;

use std::ffi::OsString;
use std::io::{stderr, Write};
use std::ops::RangeInclusive;
use std::path::PathBuf;
use std::process::ExitCode;
use std::time::Duration;

pub const HELP: &str = include_str!("help.txt");

/// How the options of the radio line begin.
const OF_RADIO: &str = "--radio-";

const SPEEDS: [u32; 13] = [
    300, 600, 1200, 2400, 4800, 9600, 19200, 38400, 57600, 115200, 230400, 460800, 921600,
];

#[derive(Debug)]
pub enum Command {
    Help,
    Version,
    /// Says whether a file is a valid volume.
    Check(PathBuf),
    Serve(Options),
}

/// With a parity 1 stop bit, without one 2, as the standard wants.
#[derive(Clone, Copy, Debug, PartialEq)]
pub enum Parity {
    None,
    Even,
    Odd,
}

#[derive(Clone, Copy, Debug, PartialEq)]
pub enum DataBits {
    Seven,
    Eight,
}

/// A character on the wire.
#[derive(Clone, Copy, Debug, PartialEq)]
pub struct Character {
    pub data_bits: DataBits,
    pub parity: Parity,
}

impl Character {
    /// Its bits: the start bit, the data bits, and two for parity and stop.
    pub fn bits(self) -> u32 {
        match self.data_bits {
            DataBits::Seven => 10,
            DataBits::Eight => 11,
        }
    }
}

/// What the RTS line is while an RS-485 driver sends.
#[derive(Clone, Copy, Debug, PartialEq)]
pub enum Rts {
    High,
    Low,
}

/// The settings of a line.
#[derive(Debug)]
pub struct LineOptions {
    /// The radio line, else the serial line.
    pub radio: bool,
    /// None: a pseudo-terminal.
    pub device: Option<PathBuf>,
    /// Another name of the pseudo-terminal.
    pub link: Option<PathBuf>,
    /// Modbus ASCII, else RTU.
    pub ascii: bool,
    pub speed: u32,
    pub parity: Parity,
    /// None: by the framing.
    pub data_bits: Option<DataBits>,
    /// None: by the speed.
    pub silence: Option<Duration>,
    /// The line hands back what is sent.
    pub echo: bool,
    /// None: the device's driver is left as it is.
    pub rs485: Option<Rts>,
}

impl LineOptions {
    fn serial() -> LineOptions {
        LineOptions {
            radio: false,
            device: None,
            link: None,
            ascii: false,
            speed: 19200,
            parity: Parity::Even,
            data_bits: None,
            silence: None,
            echo: false,
            rs485: None,
        }
    }

    fn radio() -> LineOptions {
        LineOptions {
            radio: true,
            ..LineOptions::serial()
        }
    }

    /// An option of this line: `--echo`, or `--radio-echo`.
    pub fn option(&self, name: &str) -> String {
        match self.radio {
            true => format!("{OF_RADIO}{name}"),
            false => format!("--{name}"),
        }
    }

    /// The standard's character, but for what was given: RTU has 8 data bits, ASCII 7.
    pub fn character(&self) -> Character {
        let standard = if self.ascii { DataBits::Seven } else { DataBits::Eight };
        Character {
            data_bits: self.data_bits.unwrap_or(standard),
            parity: self.parity,
        }
    }

    /// Whether the options of one line fit together.
    fn fit(&self) -> Result<(), String> {
        let [device, link, rs485] = ["device", "link", "rs485"].map(|name| self.option(name));
        let on_device = self.device.is_some();
        none_of([
            (
                on_device && self.link.is_some(),
                format!("{link} names a pseudo-terminal, and {device} is none"),
            ),
            (!on_device && self.rs485.is_some(), format!("{rs485} is for a {device}")),
            (
                !self.ascii && self.data_bits == Some(DataBits::Seven),
                "--data-bits 7 is for --ascii, and Modbus RTU has 8".to_string(),
            ),
            (
                self.ascii && self.silence.is_some(),
                "--silence is for Modbus RTU, and --ascii ends a frame by LF alone".to_string(),
            ),
        ])
    }

    /// Whether another line has its own device and its own link.
    fn is_apart_from(&self, other: &LineOptions) -> Result<(), String> {
        let both = |name: &str| format!("{} and {} are the same", self.option(name), other.option(name));
        none_of([
            (self.device.is_some() && self.device == other.device, both("device")),
            (self.link.is_some() && self.link == other.link, both("link")),
        ])
    }
}

/// The message of the first misfit that there is.
fn none_of<const N: usize>(misfits: [(bool, String); N]) -> Result<(), String> {
    match misfits.into_iter().find(|(misfit, _)| *misfit) {
        Some((_, message)) => Err(message),
        None => Ok(()),
    }
}

#[derive(Debug)]
pub struct Options {
    pub serial: LineOptions,
    /// None: the serial line is the only one.
    pub radio: Option<LineOptions>,
    pub address: u8,
    pub volume: PathBuf,
    /// Begun with the calibrations that `volume` has in force, and served in its place.
    pub new_volume: Option<PathBuf>,
    /// None: as many as a volume can have.
    pub entries: Option<usize>,
    pub raws: Raws,
    pub raws_file: Option<PathBuf>,
    /// None: the system's.
    pub clock: Option<u32>,
    pub verbose: bool,
}

impl Default for Options {
    fn default() -> Options {
        Options {
            serial: LineOptions::serial(),
            radio: None,
            address: 1,
            volume: PathBuf::from("sonde.volume"),
            new_volume: None,
            entries: None,
            raws: Raws::default(),
            raws_file: None,
            clock: None,
            verbose: false,
        }
    }
}

/// Says what is wrong with the words of the command line.
pub fn told(message: &str) -> ExitCode {
    let _ = stderr().write_all(format!("serve: {message}; --help lists the options\n").as_bytes());
    ExitCode::from(2)
}

pub fn parse(words: impl IntoIterator<Item = OsString>) -> Result<Command, String> {
    let text = |word: OsString| word.into_string().map_err(|word| format!("{}: this isn't UTF-8", word.display()));
    let words: Vec<String> = words.into_iter().map(text).collect::<Result<_, _>>()?;
    let mut options = Options::default();
    let mut rest = words.iter().map(String::as_str);
    while let Some(name) = rest.next() {
        match name {
            "--help" | "-h" => return Ok(Command::Help),
            "--version" => return Ok(Command::Version),
            "--check" => {
                let file = value(name, rest.next())?;
                let alone = words.len() == 2;
                return alone
                    .then(|| Command::Check(file.into()))
                    .ok_or("--check FILE stands alone".to_string());
            }
            "--radio" => options.radio = Some(options.radio.unwrap_or_else(LineOptions::radio)),
            "--ascii" => options.serial.ascii = true,
            "--echo" | "--radio-echo" => options.line(name).echo = true,
            "--verbose" => options.verbose = true,
            _ => options.set(name, rest.next())?,
        }
    }
    radio_is_asked_for(&words)?;
    options.fit()?;
    Ok(Command::Serve(options))
}

/// Options of the radio line want `--radio`. No value begins as an option does.
fn radio_is_asked_for(words: &[String]) -> Result<(), String> {
    let asked = words.iter().any(|word| word == "--radio");
    match words.iter().find(|word| word.starts_with(OF_RADIO)) {
        Some(name) if !asked => Err(format!("{name} is for the radio line, and there is no --radio")),
        _ => Ok(()),
    }
}

impl Options {
    /// The serial line, and the radio line if there is one.
    pub fn lines(&self) -> impl Iterator<Item = &LineOptions> {
        std::iter::once(&self.serial).chain(&self.radio)
    }

    /// The line that an option is for.
    fn line(&mut self, name: &str) -> &mut LineOptions {
        match name.starts_with(OF_RADIO) {
            true => self.radio.get_or_insert_with(LineOptions::radio),
            false => &mut self.serial,
        }
    }

    /// One option that has a value.
    fn set(&mut self, name: &str, given: Option<&str>) -> Result<(), String> {
        let value = || value(name, given);
        match name {
            "--device" | "--radio-device" => self.line(name).device = Some(value()?.into()),
            "--link" | "--radio-link" => self.line(name).link = Some(value()?.into()),
            "--speed" | "--radio-speed" => self.line(name).speed = speed(name, value()?)?,
            "--parity" | "--radio-parity" => self.line(name).parity = parity(name, value()?)?,
            "--data-bits" => self.serial.data_bits = Some(data_bits(name, value()?)?),
            "--silence" | "--radio-silence" => self.line(name).silence = Some(silence(name, value()?)?),
            "--rs485" | "--radio-rs485" => self.line(name).rs485 = Some(rts(name, value()?)?),
            "--address" => self.address = number(name, value()?, 1..=247)? as u8,
            "--volume" => self.volume = value()?.into(),
            "--new-volume" => self.new_volume = Some(value()?.into()),
            "--entries" => self.entries = Some(number(name, value()?, 1..=1000)? as usize),
            "--raw" => self.raws.set(value()?).map_err(|e| format!("--raw {e}"))?,
            "--raws" => self.raws_file = Some(value()?.into()),
            "--clock" => self.clock = Some(number(name, value()?, 0..=u32::MAX.into())? as u32),
            _ => return Err(format!("there is no option {name}")),
        }
        Ok(())
    }

    /// Whether the options fit together.
    fn fit(&self) -> Result<(), String> {
        self.lines().try_for_each(LineOptions::fit)?;
        self.radio.iter().try_for_each(|radio| self.serial.is_apart_from(radio))
    }
}

fn value<'a>(name: &str, given: Option<&'a str>) -> Result<&'a str, String> {
    let given = given.filter(|v| !v.is_empty() && !v.starts_with("--"));
    given.ok_or_else(|| format!("{name} wants a value"))
}

fn number(name: &str, text: &str, range: RangeInclusive<u64>) -> Result<u64, String> {
    let wrong = || format!("{name} {text}: that is no whole number from {} to {}", range.start(), range.end());
    text.parse().ok().filter(|n| range.contains(n)).ok_or_else(wrong)
}

fn speed(name: &str, text: &str) -> Result<u32, String> {
    let listed = SPEEDS.map(|s| s.to_string()).join(", ");
    let speed = text.parse().ok().filter(|s| SPEEDS.contains(s));
    speed.ok_or_else(|| format!("{name} {text}: the speeds are {listed}"))
}

fn parity(name: &str, text: &str) -> Result<Parity, String> {
    match text {
        "none" => Ok(Parity::None),
        "even" => Ok(Parity::Even),
        "odd" => Ok(Parity::Odd),
        _ => Err(format!("{name} {text}: it is none, even or odd")),
    }
}

fn data_bits(name: &str, text: &str) -> Result<DataBits, String> {
    match text {
        "7" => Ok(DataBits::Seven),
        "8" => Ok(DataBits::Eight),
        _ => Err(format!("{name} {text}: it is 7 or 8")),
    }
}

fn silence(name: &str, text: &str) -> Result<Duration, String> {
    number(name, text, 1..=10_000).map(Duration::from_millis)
}

fn rts(name: &str, text: &str) -> Result<Rts, String> {
    match text {
        "high" => Ok(Rts::High),
        "low" => Ok(Rts::Low),
        _ => Err(format!("{name} {text}: it is high or low")),
    }
}

#[cfg(test)]
mod tests;

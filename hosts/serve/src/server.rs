//! The loop: cut a frame, let the library answer it, keep the volume safe, send the reply.

use crate::date;
use crate::framing::{exception, shown};
use crate::lines::Lines;
use crate::say;
use crate::sensors::Sensors;
use crate::sys;
use crate::volume::VolumeFile;
use serve_options::Options;
use sonde::{Arrival, Port, Sonde, ASCII_REPLY_BYTES};
use std::fmt::{self, Display};
use std::fs::File;
use std::io::Write;
use std::time::SystemTime;

/// Serves until a signal stops it.
pub fn serve(options: &Options) -> Result<(), String> {
    let stop = sys::stop_signals().map_err(|e| format!("signals can't be caught: {e}"))?;
    let sensors = Sensors::new(options.raws, options.raws_file.as_deref())?;
    let lines = Lines::open(options)?;
    let server = Server::new(options, sensors)?;
    announce(&lines)?;
    exchange(server, lines, &stop)
}

/// Answers frame after frame until `stop` can be read.
fn exchange(mut server: Server, mut lines: Lines, stop: &File) -> Result<(), String> {
    let mut buffer = [0; ASCII_REPLY_BYTES]; // more than RTU wants
    while let Some(request) = lines.next(stop)? {
        let arrival = lines.arrival(&request, server.clock());
        let reply = server.answer(&request.frame.bytes, &mut buffer, arrival)?;
        lines.send(&request, reply, stop)?;
    }
    Ok(())
}

/// The first lines of standard output, by which scripts find the serial line and the radio line.
fn announce(lines: &Lines) -> Result<(), String> {
    let mut out = std::io::stdout();
    let written = out.write_all(lines.paths().as_bytes()).and_then(|()| out.flush());
    written.map_err(|e| format!("the line's path can't be written to standard output: {e}"))
}

struct Server {
    sonde: Sonde,
    volume: VolumeFile,
    sensors: Sensors,
    /// None: the system's.
    clock: Option<u32>,
    verbose: bool,
    /// Whether it is said by which line a frame came: there are two.
    tells_port: bool,
    /// A technician was told that the journal is full.
    refused: bool,
}

/// The code of an update that a full journal can't take.
const JOURNAL_FULL: u8 = 0xC0;

impl Server {
    fn new(options: &Options, sensors: Sensors) -> Result<Server, String> {
        let (volume, sonde) = match &options.new_volume {
            Some(new) => VolumeFile::succeed(&options.volume, new, options.address, options.entries)?,
            None => VolumeFile::open(&options.volume, options.address, options.entries)?,
        };
        if volume.is_full() {
            say(&full(&volume));
        }
        Ok(Server {
            sonde,
            volume,
            sensors,
            clock: options.clock,
            verbose: options.verbose,
            tells_port: options.radio.is_some(),
            refused: false,
        })
    }

    fn clock(&self) -> u32 {
        self.clock.unwrap_or_else(system_clock)
    }

    /// The reply to a frame, empty for none. An accepted calibration is in the file before its reply is handed back. Where that fails, so
    /// does this: the reply would promise an archive that isn't there.
    fn answer<'a>(&mut self, frame: &[u8], buffer: &'a mut [u8], arrival: Arrival) -> Result<&'a [u8], String> {
        let refused = |e: sonde::Error| format!("the library refused a call with number {}: {e}", e as u8);
        self.sensors.measure(&mut self.sonde).map_err(refused)?;
        let reply = self.sonde.frame(frame, buffer, &mut self.volume.words, arrival).map_err(refused)?;
        let journalled = self.volume.save()?;
        if self.verbose {
            let done = journalled.then(|| self.journalled()).transpose().map_err(refused)?;
            let port = self.tells_port.then_some(arrival.port);
            say(&log_line(arrival, port, frame, reply, done));
        }
        self.tell_full(journalled, exception(arrival.framing, reply));
        Ok(reply)
    }

    /// Of a calibration that was accepted just now.
    fn journalled(&self) -> Result<Journalled, sonde::Error> {
        Ok(Journalled {
            technician: self.volume.newest_technician(),
            entries: self.sonde.audit(&self.volume.words)?,
        })
    }

    /// Says what to do about a full journal: once when it becomes full, and once when an update is refused for it.
    fn tell_full(&mut self, journalled: bool, code: Option<u8>) {
        let refused = code == Some(JOURNAL_FULL);
        if journalled && self.volume.is_full() || refused && !self.refused {
            say(&full(&self.volume));
        }
        self.refused |= refused;
    }
}

fn full(volume: &VolumeFile) -> String {
    format!(
        "the journal is full, with {} entries; an update is answered by exception 0xC0. To go on: stop the server and start it with \
         --volume {} --new-volume FILE. FILE begins with the calibrations in force, and the full volume stays for the archive",
        volume.capacity(),
        volume.path.display()
    )
}

/// Whole seconds since 1970, UTC. They fill 32 bits until 2106.
fn system_clock() -> u32 {
    let since = SystemTime::now().duration_since(SystemTime::UNIX_EPOCH).unwrap_or_default();
    since.as_secs().try_into().unwrap_or(u32::MAX)
}

/// What --verbose says of an accepted calibration.
struct Journalled {
    /// 0: not given.
    technician: u16,
    /// In use, with this one.
    entries: u16,
}

impl Display for Journalled {
    fn fmt(&self, f: &mut fmt::Formatter) -> fmt::Result {
        f.write_str("calibration journalled, technician ")?;
        match self.technician {
            0 => f.write_str("not given")?,
            number => write!(f, "{number}")?,
        }
        write!(f, ", entries in use: {}", self.entries)
    }
}

/// What --verbose says of a frame, of its port if that is said, and of what was journalled by it.
fn log_line(arrival: Arrival, port: Option<Port>, frame: &[u8], reply: &[u8], journalled: Option<Journalled>) -> String {
    let Arrival { clock, framing, .. } = arrival;
    let port = port.map_or("", |port| match port {
        Port::Serial => "serial ",
        Port::Radio => "radio ",
    });
    let answer = match (reply, exception(framing, reply)) {
        ([], _) => "no reply".to_string(),
        (_, Some(code)) => format!("< {} (exception 0x{code:02X})", shown(framing, reply)),
        _ => format!("< {}", shown(framing, reply)),
    };
    let note = journalled.map_or(String::new(), |done| format!(" ({done})"));
    format!("{} {clock} {port}> {} {answer}{note}", date::utc(clock), shown(framing, frame))
}

#[cfg(test)]
mod tests {
    use super::*;

    fn third(technician: u16) -> Option<Journalled> {
        Some(Journalled { technician, entries: 3 })
    }

    #[test]
    fn a_line_for_each_frame() {
        let lines = [
            log_line(Arrival::rtu(7), None, &[1, 3, 0xAB], &[], None),
            log_line(Arrival::rtu(7), None, &[1, 0x44], &[1, 0xC4, 1, 0, 0], None),
            log_line(Arrival::rtu(9), None, &[1, 6], &[1, 6], third(7)),
            log_line(Arrival::rtu(9), None, &[1, 6], &[], third(65535)),
        ];
        assert_eq!(lines[0], "1970-01-01T00:00:07Z 7 > 01 03 AB no reply");
        assert_eq!(lines[1], "1970-01-01T00:00:07Z 7 > 01 44 < 01 C4 01 00 00 (exception 0x01)");
        assert_eq!(
            lines[2],
            "1970-01-01T00:00:09Z 9 > 01 06 < 01 06 (calibration journalled, technician 7, entries in use: 3)"
        );
        assert_eq!(
            lines[3],
            "1970-01-01T00:00:09Z 9 > 01 06 no reply (calibration journalled, technician 65535, entries in use: 3)"
        );
    }

    #[test]
    fn ascii_frames_are_shown_as_text() {
        let lines = [
            log_line(Arrival::ascii(7), None, b":01\x8A\n", &[], None),
            log_line(Arrival::ascii(7), None, b":010325000001D6\r\n", b":0183027A\r\n", None),
            log_line(Arrival::ascii(9), None, b":01\r\n", b":0103830277\r\n", third(0)),
        ];
        assert_eq!(lines[0], "1970-01-01T00:00:07Z 7 > :01\\x8a\\n no reply");
        assert_eq!(
            lines[1],
            "1970-01-01T00:00:07Z 7 > :010325000001D6\\r\\n < :0183027A\\r\\n (exception 0x02)"
        );
        assert_eq!(
            lines[2],
            "1970-01-01T00:00:09Z 9 > :01\\r\\n < :0103830277\\r\\n (calibration journalled, technician not given, entries in use: 3)"
        );
    }
    #[test]
    fn of_two_lines_the_one_that_a_frame_came_by_is_told() {
        let lines = [
            log_line(Arrival::radio(7), Some(Port::Radio), &[1, 3, 0xAB], &[], None),
            log_line(Arrival::ascii(9), Some(Port::Serial), b":01\r\n", b":0183027A\r\n", None),
        ];
        assert_eq!(lines[0], "1970-01-01T00:00:07Z 7 radio > 01 03 AB no reply");
        assert_eq!(
            lines[1],
            "1970-01-01T00:00:09Z 9 serial > :01\\r\\n < :0183027A\\r\\n (exception 0x02)"
        );
    }
}

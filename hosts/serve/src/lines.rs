//! The lines of one sonde: the serial line, and the radio line where there is one. All are waited for together, also while one of them sends.

use crate::framing::Frame;
use crate::line::Line;
use crate::sys::{self, Wish};
use serve_options::Options;
use sonde::Arrival;
use std::fs::File;
use std::time::Instant;

pub struct Lines(Vec<Line>);

/// A frame, and the place of the line that it came by.
pub struct Request {
    pub frame: Frame,
    line: usize,
}

impl Lines {
    pub fn open(options: &Options) -> Result<Lines, String> {
        options.lines().map(Line::open).collect::<Result<_, _>>().map(Lines)
    }

    /// What clients open, each path in a line of its own.
    pub fn paths(&self) -> String {
        self.0.iter().map(|line| format!("{}\n", line.path.display())).collect()
    }

    /// The next request: of the frames that wait, the one that ended first. None once `stop` can be read.
    pub fn next(&mut self, stop: &File) -> Result<Option<Request>, String> {
        loop {
            let until = self.first().map(|_| Instant::now());
            let lines = self.0.iter_mut().collect();
            let mut listener = Listener { stop, lines };
            if listener.turn(None, until)? == Event::Stop {
                return Ok(None);
            }
            if let Some(request) = self.take() {
                return Ok(Some(request));
            }
        }
    }

    fn take(&mut self) -> Option<Request> {
        let line = self.first()?;
        self.0[line].take().map(|frame| Request { frame, line })
    }

    /// The line whose frame is next.
    fn first(&self) -> Option<usize> {
        first(self.0.iter().map(Line::ended))
    }

    pub fn arrival(&self, request: &Request, clock: u32) -> Arrival {
        self.0[request.line].arrival(clock)
    }

    /// Sends a reply by the line of its request.
    pub fn send(&mut self, request: &Request, reply: &[u8], stop: &File) -> Result<(), String> {
        let (before, from) = self.0.split_at_mut(request.line);
        let [line, after @ ..] = from else { return Ok(()) };
        let lines = before.iter_mut().chain(after).collect();
        line.send(reply, &mut Listener { stop, lines })
    }
}

/// The place of the earliest of times that may not have come; of equal ones, of the first.
fn first(times: impl Iterator<Item = Option<Instant>>) -> Option<usize> {
    let places = times.enumerate().filter_map(|(place, time)| Some((time?, place)));
    places.min().map(|(_, place)| place)
}

#[derive(Debug, PartialEq)]
pub enum Event {
    Stop,
    Ready,
    Timeout,
}

/// Takes in what comes on lines while something else is waited for.
pub struct Listener<'a> {
    stop: &'a File,
    lines: Vec<&'a mut Line>,
}

impl Listener<'_> {
    /// Waits until what is wished of a file is ready, or `stop` can be read, or the time has come.
    pub fn wait(&mut self, wished: Option<(&File, Wish)>, until: Instant) -> Result<Event, String> {
        loop {
            match self.turn(wished, Some(until))? {
                Event::Timeout if Instant::now() < until => {}
                event => return Ok(event),
            }
        }
    }

    /// The same, but no longer than until something comes, or is over, on one of the lines.
    fn turn(&mut self, wished: Option<(&File, Wish)>, until: Option<Instant>) -> Result<Event, String> {
        let now = Instant::now();
        let deadlines = self.lines.iter_mut().filter_map(|line| line.deadline(now));
        let timeout = deadlines.chain(until).min().map(|first| first.saturating_duration_since(now));
        let wishes: Vec<_> = [wished].into_iter().chain(self.lines.iter().map(|line| line.wish())).collect();
        let waited = sys::wait(&wishes, self.stop, timeout).map_err(|e| format!("the lines can't be waited for: {e}"))?;
        let Some(ready) = waited else { return Ok(Event::Stop) };
        for (line, ready) in self.lines.iter_mut().zip(&ready[1..]) {
            match ready {
                true => line.receive().map(drop)?,
                false => line.idle()?,
            }
        }
        Ok(if ready[0] { Event::Ready } else { Event::Timeout })
    }
}

#[cfg(test)]
mod tests {
    use super::*;
    use std::time::Duration;

    #[test]
    fn the_frame_that_ended_first_is_next() {
        let now = Instant::now();
        let later = |ms| Some(now + Duration::from_millis(ms));
        assert_eq!(first([None, None].into_iter()), None);
        assert_eq!(first([None, later(1)].into_iter()), Some(1));
        assert_eq!(first([later(1), None].into_iter()), Some(0));
        assert_eq!(first([later(2), later(1)].into_iter()), Some(1));
        assert_eq!(first([later(1), later(2)].into_iter()), Some(0));
        assert_eq!(first([later(1), later(1)].into_iter()), Some(0));
    }
}

//! What a line hands back. A two-wire adapter hears what it sends, and the reply to a write can be its request, byte for byte: taken for a
//! request, an update's echo would be journalled again and again.

use sonde::Framing;
use std::collections::VecDeque;
use std::ops::Range;
use std::time::{Duration, Instant};

/// How long an adapter may hold bytes back.
pub const HELD_BACK: Duration = Duration::from_millis(100);
/// A frame that begins so soon after a reply, and is the same, may be its echo.
const SOON: Duration = Duration::from_millis(250);
/// So many frames in a row that repeat replies may be a client's. One more is left out, to see.
const REPEATS: u32 = 10;
/// Bytes that are looked through for an echo, at most.
const MOST: usize = 2048;

/// The bytes that have come in since a reply was sent.
pub struct Echo<'a> {
    sent: &'a [u8],
    framing: Framing,
    heard: Vec<u8>,
    /// Where in `heard` a frame may begin: after a silence (RTU), at a colon (ASCII).
    starts: Vec<usize>,
}

#[derive(Clone, Copy, Debug, PartialEq)]
pub enum Heard {
    Nothing,
    /// All that was sent, or the beginning of it and then no more or another frame.
    Echo,
    Other,
}

impl Echo<'_> {
    pub fn of(sent: &[u8], framing: Framing) -> Echo<'_> {
        Echo {
            sent,
            framing,
            heard: Vec::new(),
            starts: Vec::new(),
        }
    }

    pub fn push(&mut self, bytes: &[u8], after_silence: bool) {
        let begins = |(place, byte): (usize, &u8)| match self.framing {
            Framing::Rtu => after_silence && place == 0,
            Framing::Ascii => *byte == b':',
        };
        let places = bytes.iter().enumerate().filter(|place| begins(*place));
        self.starts.extend(places.map(|(place, _)| self.heard.len() + place));
        self.heard.extend_from_slice(bytes);
    }

    /// Where all that was sent stands.
    fn found(&self) -> Option<usize> {
        self.heard.windows(self.sent.len()).position(|bytes| bytes == self.sent)
    }

    /// Whether all has come, or too much else.
    pub fn is_over(&self) -> bool {
        self.found().is_some() || self.heard.len() > MOST
    }

    /// Whether as many bytes have come as were sent.
    pub fn is_long_enough(&self) -> bool {
        self.heard.len() >= self.sent.len()
    }

    /// Whether some of it has come, and nothing else.
    pub fn has_begun(&self) -> bool {
        !self.heard.is_empty() && self.sent.starts_with(&self.heard)
    }

    /// The length of an echo that was cut short: it ends with what was heard, or where another frame begins.
    fn cut(&self) -> usize {
        let same = self.heard.iter().zip(self.sent).take_while(|(heard, sent)| heard == sent).count();
        let ends = self.starts.iter().copied().chain([self.heard.len()]);
        ends.filter(|&end| end <= same).max().unwrap_or(0)
    }

    /// What it was, and the bytes that aren't part of it, in parts: it stood between them, or the next begins a frame.
    pub fn end(self) -> (Heard, Vec<Vec<u8>>) {
        let echo = match self.found() {
            Some(start) => start..start + self.sent.len(),
            None => 0..self.cut(),
        };
        let heard = match echo.is_empty() {
            false => Heard::Echo,
            true if self.heard.is_empty() => Heard::Nothing,
            true => Heard::Other,
        };
        let (before, after) = (0..echo.start, echo.end..self.heard.len());
        (heard, [self.parts(before), self.parts(after)].concat())
    }

    /// The bytes of a range, cut where a frame may begin.
    fn parts(&self, range: Range<usize>) -> Vec<Vec<u8>> {
        let inside = self.starts.iter().copied().filter(|start| range.contains(start));
        let ends = inside.chain([range.end]);
        let mut start = range.start;
        let parts = ends.map(|end| self.heard[std::mem::replace(&mut start, end)..end].to_vec());
        parts.filter(|part| !part.is_empty()).collect()
    }
}

/// What a frame is that may be a reply which the line hands back late.
#[derive(Debug, PartialEq)]
pub enum Verdict {
    /// A client's.
    Request,
    /// A reply, and no client sends such a frame.
    Echo,
    /// A write that has repeated its reply too often to be believed. It is left out, and what comes next shows who sent it.
    LeftOut,
    /// A client's, after one that was left out: that was the line's.
    RequestAfterEcho,
}

/// Replies that are remembered: more than can be on their way back at a time.
const REMEMBERED: usize = 4;

/// Tells clients from a line that hands replies back late. Frames and replies are the bytes that they carry, whatever the framing.
#[derive(Default)]
pub struct Suspicion {
    /// The last replies, with the time at which their last bit was sent.
    replies: VecDeque<(Vec<u8>, Instant)>,
    repeats: u32,
    left_out: Option<Vec<u8>>,
    /// A client was seen to repeat itself.
    trusted: bool,
}

impl Suspicion {
    pub fn replied(&mut self, reply: Vec<u8>, sent: Instant) {
        self.replies.push_back((reply, sent));
        if self.replies.len() > REMEMBERED {
            self.replies.pop_front();
        }
    }

    /// Judges a frame that began to come in at `began`.
    pub fn judge(&mut self, frame: &[u8], began: Instant) -> Verdict {
        let repeats = |(reply, sent): &(Vec<u8>, Instant)| reply == frame && began < *sent + SOON;
        if !self.replies.iter().any(repeats) {
            self.repeats = 0;
            return self.judge_next(frame);
        }
        match frame {
            [_, 6 | 22, ..] if self.trusted => Verdict::Request,
            [_, 6 | 22, ..] if self.repeats < REPEATS => {
                self.repeats += 1;
                Verdict::Request
            }
            [_, 6 | 22, ..] => {
                self.left_out = Some(frame.to_vec());
                Verdict::LeftOut
            }
            _ => Verdict::Echo,
        }
    }

    /// A frame that repeats no reply. A client whose frame was left out sends it again.
    fn judge_next(&mut self, frame: &[u8]) -> Verdict {
        match self.left_out.take() {
            Some(left_out) if left_out == frame => {
                self.trusted = true;
                Verdict::Request
            }
            Some(_) => Verdict::RequestAfterEcho,
            None => Verdict::Request,
        }
    }
}

#[cfg(test)]
mod tests;

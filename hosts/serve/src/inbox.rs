//! Frames as they come in on a line, in order: from the line, or from while a reply was sent.

use crate::framing::{Frame, Framer};
use crate::line::PATIENCE;
use std::time::{Duration, Instant};

pub struct Inbox {
    framer: Framer,
    /// What ends an RTU frame.
    silence: Duration,
    /// Since when nothing has come in and no reply was sent. None: the line wasn't listened to after that, and what wasn't listened to is no silence.
    silent: Option<Instant>,
    /// A reply was sent that a client may not have read.
    replied: bool,
}

impl Inbox {
    pub fn new(framer: Framer, silence: Duration) -> Inbox {
        Inbox {
            framer,
            silence,
            silent: None,
            replied: false,
        }
    }

    /// What was read at this time.
    pub fn push(&mut self, bytes: &[u8], now: Instant) {
        self.framer.push(bytes, now);
        self.silent = None;
    }

    /// A reply was sent. What came in meanwhile is put in; a silence has ended each part but the last.
    pub fn replied(&mut self, parts: Vec<Vec<u8>>, now: Instant) {
        for part in parts {
            self.framer.fall_silent();
            self.framer.push(&part, now);
        }
        self.silent = None;
        self.replied = true;
    }

    /// Whether the line is to be read.
    pub fn takes_more(&self) -> bool {
        self.framer.takes_more()
    }

    /// The line is listened to. When it matters that nothing has come in by then; None: never.
    pub fn deadline(&mut self, now: Instant) -> Option<Instant> {
        let silent = *self.silent.get_or_insert(now);
        match self.framer.waits_for_silence() {
            true => Some(silent + self.silence),
            false => self.replied.then(|| silent + PATIENCE),
        }
    }

    /// Nothing has come in until now, which ends a frame by its silence. Hands back whether the last reply is to be forgotten: a client would have
    /// read it by now.
    pub fn idle(&mut self, now: Instant) -> bool {
        if self.deadline(now).is_none_or(|deadline| now < deadline) {
            return false;
        }
        if self.framer.waits_for_silence() {
            self.framer.fall_silent();
            return false;
        }
        std::mem::replace(&mut self.replied, false)
    }

    /// When the next frame ended.
    pub fn ended(&self) -> Option<Instant> {
        self.framer.first().map(|frame| frame.ended)
    }

    pub fn take(&mut self) -> Option<Frame> {
        self.framer.take()
    }
}

#[cfg(test)]
mod tests;

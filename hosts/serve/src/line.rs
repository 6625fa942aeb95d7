//! The line: a serial device, or a pseudo-terminal that clients open as one.

use crate::echo::{Echo, Heard, Suspicion, Verdict, HELD_BACK};
use crate::files::lock;
use crate::framing::{self, Frame, Framer};
use crate::inbox::Inbox;
use crate::lines::{Event, Listener};
use crate::link::Link;
use crate::say;
use crate::sys::{self, Wish};
use serve_options::{Character, DataBits, LineOptions, Parity};
use sonde::{Arrival, Framing, Port};
use std::fs::{File, OpenOptions};
use std::io::{self, ErrorKind, Read, Write};
use std::os::unix::fs::OpenOptionsExt;
use std::path::{Path, PathBuf};
use std::time::{Duration, Instant};

/// How long a line or a client may leave a reply before it is dropped: a master has given up by then.
pub const PATIENCE: Duration = Duration::from_secs(1);

/// Bytes that are read at a time, at most.
const AT_A_TIME: usize = 512;

const HANDS_BACK: &str = "the line hands back what is sent; it is dropped. --echo makes sure of it";
const LEFT_OUT: &str =
    "a write has come many times right after its reply, and is left out once. If the line hands back what is sent, --echo is needed";

/// Whether the line hands back what is sent.
#[derive(Clone, Copy, PartialEq)]
enum Echoes {
    /// It was said so.
    Yes,
    /// A device: what equals the reply and comes while it is sent, or in the silence after it, is no client's.
    Perhaps,
    /// A device that was seen to do so.
    Seen,
    /// The server's own pseudo-terminal, which has no wire.
    No,
}

pub struct Line {
    /// What a client opens.
    pub path: PathBuf,
    file: File,
    /// The clients' end of a pseudo-terminal. It stays open here, so that the line lives on when a client leaves.
    clients: Option<File>,
    _link: Option<Link>,
    framing: Framing,
    port: Port,
    speed: u32,
    character: Character,
    /// What ends an RTU frame. In both framings, what equals a reply and comes before it is over is an echo.
    silence: Duration,
    inbox: Inbox,
    echoes: Echoes,
    suspicion: Suspicion,
    /// What was said, which is said once.
    told: Vec<&'static str>,
}

impl Line {
    pub fn open(options: &LineOptions) -> Result<Line, String> {
        match &options.device {
            Some(path) => Line::device(path, options).map_err(|e| format!("the device {} can't be used: {e}", path.display())),
            None => Line::pty(options),
        }
    }

    fn device(path: &Path, options: &LineOptions) -> Result<Line, String> {
        let told = |e: io::Error| e.to_string();
        let file = open_line(path).map_err(told)?;
        lock(&file)?;
        sys::set_raw(&file, options.speed, character(&file, options.character()).map_err(told)?).map_err(told)?;
        if let Some(rts) = options.rs485 {
            let option = options.option("rs485");
            sys::set_rs485(&file, rts).map_err(|e| format!("the kernel can't switch its RS-485 driver ({option}): {e}"))?;
        }
        sys::drop_input(&file).map_err(told)?;
        Ok(Line::new(path.to_path_buf(), file, options))
    }

    fn pty(options: &LineOptions) -> Result<Line, String> {
        let told = |e: io::Error| format!("there is no pseudo-terminal to be had: {e}");
        let (file, path) = sys::open_pty().map_err(told)?;
        let clients = open_line(&path).map_err(told)?;
        sys::set_raw(&clients, options.speed, OF_A_PTY).map_err(told)?;
        let link = options.link.as_ref().map(|link| Link::make(link, &path)).transpose()?;
        Ok(Line {
            clients: Some(clients),
            _link: link,
            ..Line::new(path, file, options)
        })
    }

    fn new(path: PathBuf, file: File, options: &LineOptions) -> Line {
        let echoes = match options.device {
            _ if options.echo => Echoes::Yes,
            Some(_) => Echoes::Perhaps,
            None => Echoes::No,
        };
        let (framing, port) = (framing::of(options), framing::port(options));
        let silence = options.silence.unwrap_or(framing::silence(options.speed));
        Line {
            path,
            file,
            clients: None,
            _link: None,
            framing,
            port,
            speed: options.speed,
            character: options.character(),
            silence,
            inbox: Inbox::new(Framer::new(framing, port), silence),
            echoes,
            suspicion: Suspicion::default(),
            told: Vec::new(),
        }
    }

    /// How a frame of this line came.
    pub fn arrival(&self, clock: u32) -> Arrival {
        Arrival {
            clock,
            framing: self.framing,
            port: self.port,
        }
    }

    /// What is waited for between replies.
    pub fn wish(&self) -> Option<(&File, Wish)> {
        self.inbox.takes_more().then_some((&self.file, Wish::Read))
    }

    /// The line is listened to. When it matters that nothing has come in by then; None: never.
    pub fn deadline(&mut self, now: Instant) -> Option<Instant> {
        self.inbox.deadline(now)
    }

    /// Takes in what is there, and hands back how many bytes it was.
    pub fn receive(&mut self) -> Result<usize, String> {
        let mut buffer = [0; AT_A_TIME];
        let bytes = self.read(&mut buffer)?;
        self.inbox.push(bytes, Instant::now());
        Ok(bytes.len())
    }

    /// Nothing has come in until now.
    pub fn idle(&mut self) -> Result<(), String> {
        match self.inbox.idle(Instant::now()) {
            true => self.forget(),
            false => Ok(()),
        }
    }

    /// When the next frame ended.
    pub fn ended(&self) -> Option<Instant> {
        self.inbox.ended()
    }

    /// The next frame, if it is a client's, and no reply that the line hands back late.
    pub fn take(&mut self) -> Option<Frame> {
        let frame = self.inbox.take()?;
        self.is_request(&frame).then_some(frame)
    }

    /// The bytes that are there, at most those that fit.
    fn read<'a>(&mut self, buffer: &'a mut [u8]) -> Result<&'a [u8], String> {
        match self.file.read(buffer) {
            Ok(0) => Err(self.failed(ErrorKind::UnexpectedEof.into())),
            Ok(length) => Ok(&buffer[..length]),
            Err(e) if e.kind() == ErrorKind::WouldBlock => Ok(&[]),
            Err(e) => Err(self.failed(e)),
        }
    }

    fn is_request(&mut self, frame: &Frame) -> bool {
        if self.echoes == Echoes::No {
            return true;
        }
        let verdict = self.suspicion.judge(&framing::carried(self.framing, &frame.bytes), frame.began);
        match verdict {
            Verdict::Request => {}
            Verdict::LeftOut => self.tell(LEFT_OUT),
            Verdict::Echo | Verdict::RequestAfterEcho => self.note_echo(),
        }
        matches!(verdict, Verdict::Request | Verdict::RequestAfterEcho)
    }

    /// Sends a reply, and drops what the line hands back of it. All else that comes in is taken in, here and on the other lines.
    pub fn send(&mut self, reply: &[u8], others: &mut Listener) -> Result<(), String> {
        if reply.is_empty() {
            return Ok(());
        }
        self.calm()?;
        let parts = match self.echoes {
            Echoes::No => self.write(reply, others).map(|_| Vec::new())?,
            _ => self.send_to_wire(reply, others)?,
        };
        self.inbox.replied(parts, Instant::now());
        Ok(())
    }

    /// Sends a reply that may come back. Hands back what came in besides, in its parts.
    fn send_to_wire(&mut self, reply: &[u8], others: &mut Listener) -> Result<Vec<Vec<u8>>, String> {
        self.receive_waiting()?;
        let start = Instant::now();
        if !self.write(reply, others)? {
            return Ok(Vec::new());
        }
        let end = self.sent(start + framing::duration(reply.len(), self.character, self.speed), others)?;
        self.suspicion.replied(framing::carried(self.framing, reply), end);
        self.drop_echo(reply, end, others)
    }

    /// Takes in what has come before anything is sent: no echo.
    fn receive_waiting(&mut self) -> Result<(), String> {
        let mut received = 0;
        while received < AT_A_TIME {
            match self.receive()? {
                0 => break,
                more => received += more,
            }
        }
        Ok(())
    }

    /// Writes a reply, and hands back whether the line took it all.
    fn write(&mut self, mut reply: &[u8], others: &mut Listener) -> Result<bool, String> {
        while !reply.is_empty() {
            match self.file.write(reply) {
                Ok(length) => reply = &reply[length..],
                Err(e) if e.kind() == ErrorKind::Interrupted => {}
                Err(e) if e.kind() != ErrorKind::WouldBlock => return Err(self.failed(e)),
                Err(_) => match others.wait(Some((&self.file, Wish::Write)), Instant::now() + PATIENCE)? {
                    Event::Ready => {}
                    _ => {
                        self.tell("the line doesn't take a reply; it is dropped");
                        return Ok(false);
                    }
                },
            }
        }
        Ok(true)
    }

    /// Waits until a reply has left the device, which isn't before `end` at the line's speed, and hands back when it had.
    fn sent(&self, end: Instant, others: &mut Listener) -> Result<Instant, String> {
        let failed = |e| self.failed(e);
        while sys::unsent(&self.file).map_err(failed)? > 0 && Instant::now() < end + PATIENCE {
            if others.wait(None, Instant::now() + Duration::from_millis(1))? == Event::Stop {
                return Ok(end);
            }
        }
        if sys::unsent(&self.file).map_err(failed)? == 0 {
            sys::drain(&self.file).map_err(failed)?;
        }
        Ok(end.max(Instant::now()))
    }

    /// Drops the echo of a reply whose last bit was sent at `end`. It is waited for where it has to come, but not long after as many bytes have come.
    fn drop_echo(&mut self, reply: &[u8], end: Instant, others: &mut Listener) -> Result<Vec<Vec<u8>>, String> {
        let sure = self.echoes != Echoes::Perhaps;
        let mut echo = Echo::of(reply, self.framing);
        let mut buffer = [0; AT_A_TIME];
        let mut last = end;
        let window = end + if sure { PATIENCE } else { self.silence };
        let mut until = window;
        while !echo.is_over() {
            match others.wait(Some((&self.file, Wish::Read)), until)? {
                Event::Ready => echo.push(self.read(&mut buffer)?, last.elapsed() > self.silence),
                Event::Timeout => break,
                Event::Stop => return Ok(Vec::new()), // nothing is known of the echo, and no more is served
            }
            last = Instant::now();
            until = match sure {
                true if echo.is_long_enough() => last + HELD_BACK,
                false if echo.has_begun() => window.max(last + HELD_BACK),
                _ => window,
            };
        }
        let (heard, parts) = echo.end();
        self.learn(heard);
        Ok(parts)
    }

    /// What was heard of a reply tells what the line does.
    fn learn(&mut self, heard: Heard) {
        match (self.echoes, heard) {
            (Echoes::Perhaps, Heard::Echo) => self.note_echo(),
            (Echoes::Seen, Heard::Nothing) => self.echoes = Echoes::Perhaps,
            (Echoes::Yes, Heard::Nothing) => self.tell("the line hands nothing back; it doesn't want --echo"),
            (Echoes::Yes, Heard::Other) => self.tell("no echo of a reply has come; what came instead is taken for a request"),
            _ => {}
        }
    }

    fn note_echo(&mut self) {
        if self.echoes == Echoes::Perhaps {
            self.echoes = Echoes::Seen;
            self.tell(HANDS_BACK);
        }
    }

    /// Says something of this line, once. Messages are those of the serial line, and of the radio line it is said.
    fn tell(&mut self, message: &'static str) {
        if self.told.contains(&message) {
            return;
        }
        self.told.push(message);
        match self.port {
            Port::Serial => say(message),
            Port::Radio => say(&format!("radio line: {}", message.replace("--echo", "--radio-echo"))),
        }
    }

    /// Switches off the echo of a pseudo-terminal, which a client may have switched on: it would hand back each reply.
    fn calm(&mut self) -> Result<(), String> {
        let Some(clients) = &self.clients else { return Ok(()) };
        let failed = |e| self.failed(e);
        if sys::has_echo(clients).map_err(failed)? {
            sys::set_raw(clients, self.speed, OF_A_PTY).map_err(failed)?;
            self.tell("a client has switched on the pseudo-terminal's echo; it is off again");
        }
        Ok(())
    }

    /// Drops a reply that no client has read. A wire loses what nobody listens to, but a pseudo-terminal keeps it, and the next client would
    /// take it for the reply to its own request.
    fn forget(&self) -> Result<(), String> {
        match &self.clients {
            Some(clients) => sys::drop_input(clients).map_err(|e| self.failed(e)),
            None => Ok(()),
        }
    }

    fn failed(&self, error: io::Error) -> String {
        format!("the line {} failed: {error}", self.path.display())
    }
}

/// A pseudo-terminal has bytes and no parity, and the C library may refuse to set anything else.
const OF_A_PTY: Character = Character {
    data_bits: DataBits::Eight,
    parity: Parity::None,
};

fn character(line: &File, wanted: Character) -> io::Result<Character> {
    Ok(if sys::is_pty(line)? { OF_A_PTY } else { wanted })
}

fn open_line(path: &Path) -> io::Result<File> {
    OpenOptions::new().read(true).write(true).custom_flags(sys::LINE_FLAGS).open(path)
}

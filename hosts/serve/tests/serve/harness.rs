//! A server in a folder of its own, and a client that sends raw frames.

use std::fs::{self, File, OpenOptions};
use std::io::{BufRead, BufReader, Read, Write};
use std::os::unix::fs::OpenOptionsExt;
use std::path::{Path, PathBuf};
use std::process::{Child, ChildStdout, Command, Stdio};
use std::sync::atomic::{AtomicU32, Ordering};
use std::thread::sleep;
use std::time::{Duration, Instant};

/// Far longer than the silence of 2 ms, so that a busy machine doesn't close the gap.
pub const PAUSE: Duration = Duration::from_millis(300);
const DEADLINE: Duration = Duration::from_secs(10);

const SERVE: &str = env!("CARGO_BIN_EXE_serve");

/// A folder that goes when the test ends.
pub struct Folder(pub PathBuf);

impl Folder {
    pub fn new() -> Folder {
        static COUNT: AtomicU32 = AtomicU32::new(0);
        let name = format!("serve-test-{}-{}", std::process::id(), COUNT.fetch_add(1, Ordering::Relaxed));
        let path = std::env::temp_dir().join(name);
        fs::create_dir(&path).unwrap();
        Folder(path)
    }

    pub fn path(&self, name: &str) -> PathBuf {
        self.0.join(name)
    }

    pub fn write(&self, name: &str, content: impl AsRef<[u8]>) {
        fs::write(self.path(name), content).unwrap();
    }

    pub fn read(&self, name: &str) -> Vec<u8> {
        fs::read(self.path(name)).unwrap()
    }

    /// A library that stands in for calls of the C library, to be loaded before it: LD_PRELOAD.
    pub fn stand_in(&self, source: &str) -> PathBuf {
        let (file, library) = (self.path("stand_in.c"), self.path("stand_in.so"));
        fs::write(&file, source).unwrap();
        let mut cc = Command::new("cc");
        cc.args(["-shared", "-fPIC", "-o"]).args([&library, &file]);
        assert!(cc.status().unwrap().success());
        library
    }

    /// The names of the files, in order.
    pub fn names(&self) -> Vec<String> {
        let mut names: Vec<String> = fs::read_dir(&self.0)
            .unwrap()
            .map(|e| e.unwrap().file_name().into_string().unwrap())
            .collect();
        names.sort();
        names
    }

    /// The server's command, to be run in this folder.
    fn command(&self, program: &str, words: &str) -> Command {
        let mut command = Command::new(program);
        command.current_dir(&self.0).args(words.split_whitespace());
        command
    }

    /// A server, and the line that it has announced: empty where it ended without one.
    fn spawn(&self, mut command: Command) -> Server {
        let mut child = command.stdout(Stdio::piped()).stderr(Stdio::piped()).spawn().unwrap();
        let mut output = BufReader::new(child.stdout.take().unwrap());
        let path = announced(&mut output);
        Server { child, output, path }
    }

    /// Runs the server to its end: exit status, standard output and standard error.
    pub fn run(&self, words: &str) -> (i32, String, String) {
        let output = self.command(SERVE, words).output().unwrap();
        let text = |bytes| String::from_utf8(bytes).unwrap();
        (output.status.code().unwrap_or(-1), text(output.stdout), text(output.stderr))
    }

    /// Runs a server that can't start: exit status and standard error.
    pub fn refused(&self, words: &str) -> (i32, String) {
        self.refusing(self.command(SERVE, words), words)
    }

    /// The same with an environment variable.
    pub fn refused_with(&self, name: &str, value: &Path, words: &str) -> (i32, String) {
        let mut command = self.command(SERVE, words);
        command.env(name, value);
        self.refusing(command, words)
    }

    fn refusing(&self, command: Command, words: &str) -> (i32, String) {
        let mut server = self.spawn(command);
        assert_eq!(server.path, PathBuf::new(), "{words}");
        server.ended()
    }

    /// Starts a server and waits until it serves.
    pub fn serve(&self, words: &str) -> Server {
        self.serving(self.command(SERVE, words), words)
    }

    /// The same with an environment variable.
    pub fn serve_with(&self, name: &str, value: &Path, words: &str) -> Server {
        let mut command = self.command(SERVE, words);
        command.env(name, value);
        self.serving(command, words)
    }

    /// A server that can write no file, as on a full disk.
    pub fn serve_on_full_disk(&self, words: &str) -> Server {
        self.serving(self.on_full_disk(words), words)
    }

    /// The same that can't start: exit status and standard error.
    pub fn refused_on_full_disk(&self, words: &str) -> (i32, String) {
        self.refusing(self.on_full_disk(words), words)
    }

    fn on_full_disk(&self, words: &str) -> Command {
        let mut command = Command::new("sh");
        let script = format!("trap '' XFSZ; ulimit -f 0; exec {SERVE} {words}");
        command.current_dir(&self.0).arg("-c").arg(script);
        command
    }

    fn serving(&self, command: Command, words: &str) -> Server {
        let mut server = self.spawn(command);
        if server.path.as_os_str().is_empty() {
            panic!("{words}: the server ended with {:?}", server.ended());
        }
        server
    }
}

impl Drop for Folder {
    fn drop(&mut self) {
        let _ = fs::remove_dir_all(&self.0);
    }
}

/// The next line that a server has announced.
fn announced(output: &mut BufReader<ChildStdout>) -> PathBuf {
    let mut path = String::new();
    output.read_line(&mut path).unwrap();
    PathBuf::from(path.trim_end())
}

pub struct Server {
    child: Child,
    output: BufReader<ChildStdout>,
    pub path: PathBuf,
}

impl Server {
    pub fn id(&self) -> u32 {
        self.child.id()
    }

    pub fn client(&self) -> Client {
        Client::open(&self.path)
    }

    /// The radio line, which is announced after the serial line.
    pub fn radio(&mut self) -> PathBuf {
        announced(&mut self.output)
    }

    pub fn signal(&self, name: &str) {
        let kill = Command::new("kill")
            .arg(format!("-{name}"))
            .arg(self.child.id().to_string())
            .status();
        assert!(kill.unwrap().success());
    }

    /// Sends a signal (INT or TERM) and waits for the end.
    pub fn stop(mut self, signal: &str) -> (i32, String) {
        self.signal(signal);
        self.ended()
    }

    /// Waits for the end: exit status and standard error.
    pub fn ended(&mut self) -> (i32, String) {
        let start = Instant::now();
        while self.child.try_wait().unwrap().is_none() {
            assert!(start.elapsed() < DEADLINE, "the server goes on");
            sleep(Duration::from_millis(1));
        }
        let mut said = String::new();
        self.child.stderr.take().unwrap().read_to_string(&mut said).unwrap();
        (self.child.wait().unwrap().code().unwrap_or(-1), said)
    }
}

impl Drop for Server {
    fn drop(&mut self) {
        let _ = self.child.kill();
        let _ = self.child.wait();
    }
}

pub struct Client(pub File);

impl Client {
    pub fn open(path: &Path) -> Client {
        let mut options = OpenOptions::new();
        options.read(true).write(true).custom_flags(serve::sys::LINE_FLAGS);
        Client(options.open(path).unwrap())
    }

    pub fn send(&mut self, bytes: &[u8]) {
        self.0.write_all(bytes).unwrap();
    }

    /// The next bytes, this many or those that came until the deadline.
    pub fn receive(&mut self, length: usize, deadline: Duration) -> Vec<u8> {
        let start = Instant::now();
        let mut bytes = vec![0; length];
        let mut got = 0;
        while got < length && start.elapsed() < deadline {
            match self.0.read(&mut bytes[got..]) {
                Ok(n) => got += n,
                Err(_) => sleep(Duration::from_millis(1)),
            }
        }
        bytes.truncate(got);
        bytes
    }

    /// Sends bytes, and holds the reply to those that are expected.
    pub fn exchange(&mut self, bytes: &[u8], expected: &[u8]) {
        self.send(bytes);
        self.hears(expected);
    }

    pub fn hears(&mut self, expected: &[u8]) {
        let heard = self.receive(expected.len(), DEADLINE);
        assert_eq!(heard, expected, "{} is not {}", heard.escape_ascii(), expected.escape_ascii());
    }

    /// Sends a body with its checksum, and holds the reply to an expected body with its own.
    pub fn ask(&mut self, body: &[u8], expected: &[u8]) {
        self.exchange(&framed(body), &framed(expected));
    }

    /// The same in ASCII.
    pub fn ask_in_ascii(&mut self, body: &[u8], expected: &[u8]) {
        self.exchange(&in_ascii(body), &in_ascii(expected));
    }

    /// The same on a line that hands back what it is given: the reply goes straight back.
    pub fn ask_with_echo(&mut self, body: &[u8], expected: &[u8]) {
        self.ask(body, expected);
        self.send(&framed(expected));
    }

    /// Nothing comes, for a while.
    pub fn hears_nothing(&mut self) {
        assert_eq!(self.receive(1, PAUSE), []);
    }
}

/// A body with its CRC-16, low byte first: by bits, apart from the library.
pub fn framed(body: &[u8]) -> Vec<u8> {
    let mut crc = 0xFFFFu16;
    for byte in body {
        crc ^= u16::from(*byte);
        for _ in 0..8 {
            crc = if crc & 1 == 1 { crc >> 1 ^ 0xA001 } else { crc >> 1 };
        }
    }
    [body, &crc.to_le_bytes()].concat()
}

/// A body as Modbus ASCII has it: the LRC makes the sum of all bytes zero.
pub fn in_ascii(body: &[u8]) -> Vec<u8> {
    let sum = body.iter().fold(0, |sum: u8, byte| sum.wrapping_add(*byte));
    let digits: String = body.iter().chain([&sum.wrapping_neg()]).map(|byte| format!("{byte:02X}")).collect();
    format!(":{digits}\r\n").into_bytes()
}

//! One call on both implementations, and all that is compared after it.

use crate::before::History;
use crate::breach;
use crate::calls::{hex, Answer, Call, Request};
use crate::convert::{difference, from_library, to_library};
use crate::cuts;
use crate::library;
use crate::random::Random;
use sonde::ffi;
use twin::framing::Room;
use twin::page::LINE_BYTES;
use twin::{Arrival, Port, Sonde};

/// The sonde and the volume, of either implementation.
#[derive(Clone)]
pub struct Both {
    pub twin: Sonde,
    pub library: ffi::Sonde,
    pub twin_volume: Vec<u16>,
    pub library_volume: Vec<u16>,
    /// How many words of the volume the last accepted begin was lent.
    pub lent: usize,
    /// What earlier calls did with the technician's number.
    pub history: History,
}

/// The runs of registers that the map has, as start and count.
const RUNS: [(u16, u16); 17] = [
    (0, 10),
    (100, 8),
    (110, 4),
    (116, 8),
    (130, 24),
    (200, 8),
    (210, 4),
    (216, 8),
    (230, 8),
    (300, 6),
    (307, 1),
    (310, 6),
    (330, 16),
    (400, 8),
    (410, 4),
    (416, 8),
    (430, 8),
];

/// Registers up to the end of the last run.
pub const IMAGE: usize = 438;
pub const REPLY_MOST: usize = 600;
/// Bytes of the longest page that is lent.
pub const PAGE_MOST: usize = 54_000;
/// Bytes behind a page that is lent, which have to stay.
const BEHIND_PAGE: usize = 64;

impl Both {
    /// Fresh sondes of address 1, and a volume of random words.
    pub fn new(words: usize, random: &mut Random) -> Both {
        let twin = Sonde::fresh(1);
        let mut volume = vec![0; words];
        random.fill_words(&mut volume);
        Both {
            twin,
            library: to_library(&twin),
            twin_volume: volume.clone(),
            library_volume: volume,
            lent: 0,
            history: History::of(&twin),
        }
    }

    /// Changes both sondes alike.
    pub fn change_sonde(&mut self, change: impl FnOnce(&mut Sonde)) {
        change(&mut self.twin);
        self.library = to_library(&self.twin);
        self.history = History::of(&self.twin);
    }

    /// Changes both volumes alike.
    pub fn change_volume(&mut self, change: impl FnOnce(&mut [u16])) {
        change(&mut self.twin_volume);
        self.library_volume.copy_from_slice(&self.twin_volume);
    }
}

/// Buffers that are used again, and the registers read back last.
pub struct Comparison {
    twin_reply: Vec<u8>,
    library_reply: Vec<u8>,
    twin_page: Vec<u8>,
    library_page: Vec<u8>,
    poison: Vec<u8>,
    twin_words: Vec<u16>,
    library_words: Vec<u16>,
    pub registers: [u16; IMAGE],
    /// Whether sonde and volume were in agreement, so that registers could be read back.
    pub agreed: bool,
    pub registers_compared: u64,
}

/// The answer, if both are the same.
pub fn agree(twin: Answer, library: Answer) -> Result<Answer, String> {
    if twin == library {
        return Ok(twin);
    }
    Err(format!("the answer differs\n  twin:    {twin:?}\n  library: {library:?}"))
}

fn differ_bytes(what: &str, twin: &[u8], library: &[u8]) -> Result<(), String> {
    if twin == library {
        return Ok(());
    }
    let byte = (0..twin.len()).find(|&byte| twin[byte] != library[byte]).unwrap_or(0);
    Err(format!(
        "{what} differs at byte {byte}\n  twin:    {}\n  library: {}",
        hex(twin),
        hex(library)
    ))
}

/// Shows the line of the first byte that differs.
fn differ_page(twin: &[u8], library: &[u8]) -> Result<(), String> {
    let Some(byte) = (0..twin.len()).find(|&byte| twin[byte] != library[byte]) else {
        return Ok(());
    };
    let line = |page: &[u8]| {
        page.chunks(LINE_BYTES)
            .nth(byte / LINE_BYTES)
            .unwrap_or_default()
            .escape_ascii()
            .to_string()
    };
    Err(format!(
        "the page differs at byte {byte}\n  twin:    \"{}\"\n  library: \"{}\"",
        line(twin),
        line(library)
    ))
}

fn differ_sonde(what: &str, twin: &Sonde, library: &ffi::Sonde) -> Result<(), String> {
    match difference(twin, &from_library(library)) {
        None => Ok(()),
        Some(field) => Err(format!("{what} differs in {field} (twin's and library's)")),
    }
}

pub fn differ_volume(twin: &[u16], library: &[u16]) -> Result<(), String> {
    if twin == library {
        return Ok(());
    }
    let word = (0..twin.len()).find(|&word| twin[word] != library[word]).unwrap_or(0);
    Err(format!(
        "the volume differs at word {word}\n  twin:    {:#06X}\n  library: {:#06X}",
        twin[word], library[word]
    ))
}

impl Comparison {
    pub fn new() -> Comparison {
        Comparison {
            twin_reply: vec![0; REPLY_MOST],
            library_reply: vec![0; REPLY_MOST],
            twin_page: Vec::new(),
            library_page: Vec::new(),
            poison: Vec::new(),
            twin_words: Vec::new(),
            library_words: Vec::new(),
            registers: [0; IMAGE],
            agreed: false,
            registers_compared: 0,
        }
    }

    /// Runs the call on both and compares: answer, whole reply buffer or page, whole volume, every field of the sonde, every register.
    pub fn run(&mut self, both: &mut Both, call: &Call, random: &mut Random) -> Result<Answer, String> {
        let answer = self.run_unread(both, call, random)?;
        self.read_back(both, random)?;
        Ok(answer)
    }

    /// The same without the registers.
    pub fn run_unread(&mut self, both: &mut Both, call: &Call, random: &mut Random) -> Result<Answer, String> {
        let answer = self.execute(both, call, random)?;
        differ_sonde("the sonde", &both.twin, &both.library)?;
        differ_volume(&both.twin_volume, &both.library_volume)?;
        if let (Call::Begin { words }, 0) = (call, answer.number) {
            both.lent = *words;
        }
        Ok(answer)
    }

    /// The answer that both give to the call.
    fn execute(&mut self, both: &mut Both, call: &Call, random: &mut Random) -> Result<Answer, String> {
        let Both { twin, library, .. } = both;
        let (twin_volume, library_volume) = (&mut both.twin_volume, &mut both.library_volume);
        match *call {
            Call::Fresh { address } => make(both, twin::fresh(address), library::fresh(address)),
            Call::PowerUp { address, words } => {
                let twin = twin::power_up(address, &twin_volume[..words]);
                let library = library::power_up(address, &library_volume[..words]);
                make(both, twin, library)
            }
            Call::Begin { words } => {
                let number = twin::begin(twin, &mut twin_volume[..words]);
                let made = library::begin(*library, &mut library_volume[..words]);
                *library = made.sonde;
                agree(Answer::of(number), Answer::of(made.number))
            }
            Call::Measure {
                sensor,
                present,
                first,
                second,
            } => {
                let number = twin::measure(twin, sensor, present, first, second);
                let made = library::measure(*library, sensor, present, first, second);
                *library = made.sonde;
                agree(Answer::of(number), Answer::of(made.number))
            }
            Call::Audit { words } => {
                let (number, entries) = twin::audit(twin, &twin_volume[..words]);
                let library = library::audit(*library, &library_volume[..words]);
                agree(Answer::new(number, entries), Answer::new(library.number, library.entries))
            }
            Call::Frame(ref request) => self.frame(both, request, random),
            Call::Print { words, page } => self.print(both, words, page, random),
            Call::Append { words, ref entry, stores } => cuts::append(both, words, entry, stores),
            Call::Salvage { words } => cuts::salvage(both, words, random),
            Call::Cut(ref cut) => cuts::cut(both, cut),
        }
    }

    fn print(&mut self, both: &Both, words: usize, page: usize, random: &mut Random) -> Result<Answer, String> {
        self.poison.resize(page + BEHIND_PAGE, 0);
        random.fill_bytes(&mut self.poison);
        self.twin_page.clone_from(&self.poison);
        self.library_page.clone_from(&self.poison);
        let (number, length) = twin::print(&both.twin_volume[..words], &mut self.twin_page[..page]);
        let library = library::print(&both.library_volume[..words], &mut self.library_page[..page]);
        let answer = agree(Answer::new(number, length), Answer::new(library.number, library.length))?;
        differ_page(&self.twin_page, &self.library_page)?;
        let past = length as usize;
        if self.twin_page[past..] != self.poison[past..] {
            return Err(format!("both have written past the page's lines ({answer:?})"));
        }
        Ok(answer)
    }

    /// The page that was printed last, by the library.
    pub fn page(&self, answer: Answer) -> &[u8] {
        &self.library_page[..answer.length as usize]
    }

    fn frame(&mut self, both: &mut Both, request: &Request, random: &mut Random) -> Result<Answer, String> {
        self.poison.resize(REPLY_MOST, 0);
        random.fill_bytes(&mut self.poison);
        self.twin_reply.copy_from_slice(&self.poison);
        self.library_reply.copy_from_slice(&self.poison);
        let Request {
            arrival,
            ref bytes,
            reply,
            words,
            ..
        } = *request;
        let volume = &mut both.twin_volume[..words];
        let (number, length) = twin::frame(&mut both.twin, bytes, &mut self.twin_reply[..reply], volume, arrival);
        let volume = &mut both.library_volume[..words];
        let library = library::frame(both.library, bytes, &mut self.library_reply[..reply], volume, arrival);
        both.library = library.sonde;
        let answer = agree(Answer::new(number, length), Answer::new(library.number, library.length))?;
        differ_bytes(&format!("the reply buffer ({answer:?})"), &self.twin_reply, &self.library_reply)?;
        let past = usize::from(length);
        if self.twin_reply[past..] != self.poison[past..] {
            return Err(format!("both have written past the reply ({answer:?})"));
        }
        Ok(answer)
    }

    /// The one fact on framings: sends what a frame carries in either framing to copies of both, on the serial port and each with a reply buffer
    /// that is long enough, and compares number, sonde, volume and the reply's body. Whether the frame is a good one there, so that it carries
    /// something.
    pub fn in_both_framings(&mut self, both: &Both, request: &Request, random: &mut Random) -> Result<bool, String> {
        let (Arrival { clock, framing, .. }, mut room) = (request.arrival, Room::None);
        let Some(body) = framing.body(&request.bytes, Port::Serial, &mut room) else {
            return Ok(false);
        };
        let (mut after_rtu, mut after_ascii) = (both.clone(), both.clone());
        let (rtu_answer, rtu_reply) = self.on_serial(&mut after_rtu, request, body, Arrival::rtu(clock), random)?;
        let (ascii_answer, ascii_reply) = self.on_serial(&mut after_ascii, request, body, Arrival::ascii(clock), random)?;
        let due = rtu_reply
            .split_last_chunk::<2>()
            .map_or(Vec::new(), |(body, _)| breach::ascii(body));
        if rtu_answer.number != ascii_answer.number || ascii_reply != due {
            return Err(format!(
                "the framings' replies differ\n  RTU:   {rtu_answer:?} {}\n  ASCII: {ascii_answer:?} \"{}\"",
                hex(&rtu_reply),
                ascii_reply.escape_ascii()
            ));
        }
        for (twin, library) in [(&after_rtu, &after_rtu), (&after_ascii, &after_ascii), (&after_rtu, &after_ascii)] {
            differ_sonde("after the two framings the sonde", &twin.twin, &library.library)?;
            differ_volume(&twin.twin_volume, &library.library_volume)?;
        }
        Ok(true)
    }

    /// The answer and the reply to a body that comes so.
    fn on_serial(
        &mut self,
        both: &mut Both,
        request: &Request,
        body: &[u8],
        arrival: Arrival,
        random: &mut Random,
    ) -> Result<(Answer, Vec<u8>), String> {
        let framing = arrival.framing;
        let sent = Request {
            arrival,
            bytes: breach::sealed(framing, body),
            reply: random.between(framing.reply_least(), REPLY_MOST),
            ..*request
        };
        let answer = self
            .frame(both, &sent, random)
            .map_err(|difference| format!("in {framing:?}: {difference}"))?;
        Ok((answer, self.library_reply[..answer.length as usize].to_vec()))
    }

    /// Reads every register on copies of both, and compares replies, sondes and volumes after it.
    fn read_back(&mut self, both: &Both, random: &mut Random) -> Result<(), String> {
        let (mut twin, mut library) = (both.twin, both.library);
        self.twin_words.clear();
        self.twin_words.extend(&both.twin_volume);
        self.library_words.clear();
        self.library_words.extend(&both.library_volume);
        let (clock, words) = (random.long(), both.lent);
        for (start, count) in RUNS {
            let (bytes, arrival) = (read_request(twin.address, start, count), Arrival::rtu(clock));
            let volume = &mut self.twin_words[..words];
            let (number, length) = twin::frame(&mut twin, &bytes, &mut self.twin_reply, volume, arrival);
            let volume = &mut self.library_words[..words];
            let answer = library::frame(library, &bytes, &mut self.library_reply, volume, arrival);
            library = answer.sonde;
            let failed = |difference| format!("read back, {count} registers from {start}: {difference}");
            agree(Answer::new(number, length), Answer::new(answer.number, answer.length)).map_err(failed)?;
            differ_bytes("the reply buffer", &self.twin_reply, &self.library_reply).map_err(failed)?;
            self.agreed = number == 0;
            if !self.agreed {
                break;
            }
            self.registers_compared += u64::from(count);
            self.note_registers(start, count);
        }
        differ_sonde("the sonde after reads", &twin, &library)?;
        differ_volume(&self.twin_words, &self.library_words)?;
        differ_volume(&self.twin_words, &both.twin_volume)
    }

    fn note_registers(&mut self, start: u16, count: u16) {
        let data = self.twin_reply[3..].chunks_exact(2).take(usize::from(count));
        for (register, bytes) in self.registers[usize::from(start)..].iter_mut().zip(data) {
            *register = u16::from_be_bytes([bytes[0], bytes[1]]);
        }
    }
}

pub fn read_request(address: u8, start: u16, count: u16) -> [u8; 8] {
    let ([a, b], [c, d]) = (start.to_be_bytes(), count.to_be_bytes());
    let [low, high] = twin::crc(&[address, 3, a, b, c, d]).to_le_bytes();
    [address, 3, a, b, c, d, low, high]
}

/// Takes over the sonde of fresh or power-up: compared even if refused, it goes on only if made.
fn make(both: &mut Both, (number, sonde): (u8, Sonde), library: ffi::Made) -> Result<Answer, String> {
    let answer = agree(Answer::of(number), Answer::of(library.number))?;
    differ_sonde("the sonde handed back", &sonde, &library.sonde)?;
    if number == 0 {
        both.twin = sonde;
        both.library = library.sonde;
    }
    Ok(answer)
}

#[cfg(test)]
mod tests {
    use super::*;

    #[test]
    fn runs_are_the_map() {
        for register in 0..=u16::MAX {
            let read = RUNS
                .iter()
                .filter(|(start, count)| (*start..start + count).contains(&register))
                .count();
            assert_eq!(read, usize::from(twin::map::locate(register).is_some()), "register {register}");
        }
    }
}

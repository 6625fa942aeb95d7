//! The register service of a water-quality sonde, for hosts in Rust: a safe face over the proved library's C interface.
//!
//! The host owns the [`Sonde`] and lends the volume (the words of the calibration journal), the reply buffer and the page that a journal is
//! printed on. No call keeps anything, allocates or blocks.
//!
//! ```
//! use sonde::{Arrival, Sonde, REPLY_BYTES};
//!
//! let mut volume = vec![0; 112]; // a journal of two calibrations
//! let mut sonde = Sonde::fresh(1)?;
//! sonde.begin(&mut volume)?;
//! sonde.measure(1, Some((1000.0, 21.5)))?; // conductivity and temperature
//!
//! // A technician reads the map's version: function 3, register 0, one register.
//! let mut buffer = [0; REPLY_BYTES];
//! let reply = sonde.frame(&[1, 3, 0, 0, 0, 1, 0x84, 0x0A], &mut buffer, &mut volume, Arrival::rtu(0))?;
//! assert_eq!(reply, [1, 3, 2, 0, 3, 0xF8, 0x45]);
//!
//! // After a power cut the journal gives the calibration back.
//! let after = Sonde::power_up(1, &volume)?;
//! assert_eq!(after.audit(&volume), Ok(0));
//! # Ok::<(), sonde::Error>(())
//! ```
//!
//! # Who calibrated
//!
//! A technician writes a number, 0 to 65535, to register 9, where 0 means not given. Each entry of the journal carries the number that stood
//! when its calibration was accepted, in its word 3:
//!
//! ```
//! use sonde::{Arrival, Sonde, ASCII_REPLY_BYTES};
//!
//! let mut volume = [0; 88];
//! let mut sonde = Sonde::fresh(1)?;
//! sonde.begin(&mut volume)?;
//!
//! // Technician 7 calibrates sensor 1 by the coefficients that it has: number, mode on, update.
//! let mut buffer = [0; ASCII_REPLY_BYTES];
//! for request in [":010600090007E9\r\n", ":01060069E000B0\r\n", ":01060069E001AF\r\n"] {
//!     let reply = sonde.frame(request.as_bytes(), &mut buffer, &mut volume, Arrival::ascii(1000))?;
//!     assert_eq!(reply, request.as_bytes());
//! }
//! assert_eq!(volume[64 + 3], 7);
//!
//! // After a power cut no number is given: register 9 reads 0.
//! let mut after = Sonde::power_up(1, &volume)?;
//! let reply = after.frame(b":010300090001F2\r\n", &mut buffer, &mut volume, Arrival::ascii(1001))?;
//! assert_eq!(reply, b":0103020000FA\r\n");
//! # Ok::<(), sonde::Error>(())
//! ```
//!
//! # The radio bridge
//!
//! The bridge carries 64 bytes. On it a longer frame and an ASCII frame count bad and get no reply, and a read of more than 29 registers is
//! exception 3. The buffer for the reply is the same as on the serial line:
//!
//! ```
//! use sonde::{Arrival, Sonde, REPLY_BYTES};
//!
//! let mut volume = [0; 88];
//! let mut sonde = Sonde::fresh(1)?;
//! sonde.begin(&mut volume)?;
//! let mut buffer = [0; REPLY_BYTES];
//!
//! // 30 registers from 130 on, of which the last six aren't in the map: exception 3 on the radio, and 2 on the serial line.
//! let read = [1, 3, 0, 130, 0, 30, 0x65, 0xEA];
//! let reply = sonde.frame(&read, &mut buffer, &mut volume, Arrival::radio(0))?;
//! assert_eq!(reply, [1, 0x83, 3, 0x01, 0x31]);
//! let reply = sonde.frame(&read, &mut buffer, &mut volume, Arrival::rtu(0))?;
//! assert_eq!(reply, [1, 0x83, 2, 0xC0, 0xF1]);
//!
//! // A write to 28 registers has 65 bytes: bad on the radio, and exception 2 on the serial line.
//! let mut write = [0; 65];
//! write[..7].copy_from_slice(&[1, 16, 0, 130, 0, 28, 56]);
//! write[63..].copy_from_slice(&[0x56, 0x65]);
//! assert!(sonde.frame(&write, &mut buffer, &mut volume, Arrival::radio(0))?.is_empty());
//! let reply = sonde.frame(&write, &mut buffer, &mut volume, Arrival::rtu(0))?;
//! assert_eq!(reply, [1, 0x90, 2, 0xCD, 0xC1]);
//!
//! // Both ports count together: 3 good messages, 1 bad one and 3 exceptions.
//! let reply = sonde.frame(&[1, 3, 0, 4, 0, 3, 0x44, 0x0A], &mut buffer, &mut volume, Arrival::radio(0))?;
//! assert_eq!(reply[..9], [1, 3, 6, 0, 3, 0, 1, 0, 3]);
//! # Ok::<(), sonde::Error>(())
//! ```
//!
//! # Linking
//!
//! The library is for x86-64. It is looked for in the folder that the environment variable `SONDE_LIB_DIR` names, by its path from the root
//! (`PREFIX/lib`, where `./install` has put `libsonde.a`), and without that in `target/staticlib` of the repository, where `tests/library`
//! writes it.
//!
//! # Without std
//!
//! The feature `std` is on by default. Without it the crate is `no_std`, has the same calls, and needs no allocator; the library needs `memcpy`:
//!
//! ```toml
//! sonde = { path = "...", default-features = false }
//! ```

#![cfg_attr(not(feature = "std"), no_std)]

use core::fmt;

pub mod ffi;

pub use ffi::{Calibration, Entry, Points};

/// The least reply buffer for an RTU frame, on either port; a reply is never longer.
pub const REPLY_BYTES: usize = 256;
/// The least reply buffer for an ASCII frame; the longest reply has 511 characters.
pub const ASCII_REPLY_BYTES: usize = 513;
/// The least volume: a journal of one calibration.
pub const LEAST_WORDS: usize = 88;
/// Words beyond these are never used: a journal of 1000 calibrations.
pub const MOST_WORDS: usize = 24064;
/// The stores of an append: see [`append`].
pub const APPEND_STORES: usize = 27;
/// The longest page: a journal of 1000 calibrations.
pub const MOST_PAGE_BYTES: usize = page_bytes(1000);

/// The page of a volume with so many entries in use: a line of 53 bytes for the opening of each sensor, and for each entry.
///
/// ```
/// assert_eq!(sonde::page_bytes(1), 265);
/// assert_eq!(sonde::MOST_PAGE_BYTES, 53212);
/// ```
pub const fn page_bytes(entries: u16) -> usize {
    53 * (4 + entries as usize)
}

/// Why a call was refused; the value is the number of documents 01 and 02. A call that is refused changes nothing.
///
/// ```
/// use sonde::{Error, Sonde};
///
/// assert_eq!(Sonde::fresh(248).unwrap_err(), Error::BadAddress);
/// assert_eq!(Error::BadAddress as u8, 1);
/// ```
#[derive(Clone, Copy, Debug, PartialEq, Eq, Hash)]
#[repr(u8)]
pub enum Error {
    /// Fresh, power-up: the address isn't 1..247.
    BadAddress = 1,
    /// Begin: fewer than [`LEAST_WORDS`] words.
    ShortVolume = 2,
    /// Frame: the reply buffer has fewer bytes than [`Framing::reply_bytes`] of its framing.
    ShortReply = 3,
    /// The volume is invalid, or the calibrations in force aren't the volume's, bit for bit.
    Invalid = 4,
    /// Measure: the sensor isn't 1..4.
    NoSensor = 5,
    /// Measure: a raw value that is read isn't finite.
    NotFinite = 6,
    /// Print: the page has fewer than [`page_bytes`] of the entries in use.
    ShortPage = 7,
    /// Salvage: the volume has a fault that no choice of its chain words makes valid.
    BeyondSalvage = 8,
    /// Frame, by the C call alone: the port isn't 1 or 2, as every [`Port`] is.
    NoPort = 9,
}

impl fmt::Display for Error {
    fn fmt(&self, f: &mut fmt::Formatter) -> fmt::Result {
        f.write_str(match self {
            Error::BadAddress => "the address is not 1 to 247",
            Error::ShortVolume => "the volume has fewer than 88 words",
            Error::ShortReply => "the reply buffer has fewer than 256 bytes, or 513 for ASCII",
            Error::Invalid => "the volume is damaged, or is not the one of this sonde",
            Error::NoSensor => "the sensor is not 1 to 4",
            Error::NotFinite => "a raw value is not finite",
            Error::ShortPage => "the page is too short for all lines of the journal",
            Error::BeyondSalvage => "the volume has a fault that no choice of its chain words mends",
            Error::NoPort => "the port is not 1 or 2",
        })
    }
}

impl core::error::Error for Error {}

/// What a number says: done, or why not. The library is proved to give no others.
fn done(number: u8) -> Result<(), Error> {
    match number {
        0 => Ok(()),
        1 => Err(Error::BadAddress),
        2 => Err(Error::ShortVolume),
        3 => Err(Error::ShortReply),
        4 => Err(Error::Invalid),
        5 => Err(Error::NoSensor),
        6 => Err(Error::NotFinite),
        7 => Err(Error::ShortPage),
        8 => Err(Error::BeyondSalvage),
        9 => Err(Error::NoPort),
        _ => panic!("the library gave the number {number}, which this crate doesn't know"),
    }
}

/// How a frame's bytes carry a request.
#[derive(Clone, Copy, Debug, PartialEq, Eq, Hash)]
pub enum Framing {
    /// The request's bytes, then their CRC-16.
    Rtu,
    /// A colon, the request's bytes and their LRC in capital hexadecimal digits, CR, LF.
    Ascii,
}

impl Framing {
    /// The least reply buffer.
    pub const fn reply_bytes(self) -> usize {
        match self {
            Framing::Rtu => REPLY_BYTES,
            Framing::Ascii => ASCII_REPLY_BYTES,
        }
    }
}

/// Where a frame came from, and where its reply goes. Both ports share the sonde, its counters and its volume.
#[derive(Clone, Copy, Debug, PartialEq, Eq, Hash)]
#[repr(u8)]
pub enum Port {
    /// The serial line: frames of either framing, and reads of up to 125 registers.
    Serial = 1,
    /// The radio bridge: RTU frames of up to 64 bytes, and reads of up to 29 registers; no reply has more than 64 bytes. A longer frame and every
    /// ASCII frame counts bad and gets no reply, whatever its address.
    Radio = 2,
}

/// When and how a frame came.
#[derive(Clone, Copy, Debug, PartialEq, Eq, Hash)]
pub struct Arrival {
    /// Whole seconds.
    pub clock: u32,
    pub framing: Framing,
    pub port: Port,
}

impl Arrival {
    /// An RTU frame on the serial line at this clock.
    pub const fn rtu(clock: u32) -> Arrival {
        Arrival {
            clock,
            framing: Framing::Rtu,
            port: Port::Serial,
        }
    }

    /// An ASCII frame on the serial line at this clock.
    pub const fn ascii(clock: u32) -> Arrival {
        Arrival {
            clock,
            framing: Framing::Ascii,
            port: Port::Serial,
        }
    }

    /// An RTU frame on the radio at this clock.
    pub const fn radio(clock: u32) -> Arrival {
        Arrival {
            clock,
            framing: Framing::Rtu,
            port: Port::Radio,
        }
    }
}

/// One sonde: four sensors, their calibration, the technician's number and the message counters.
#[derive(Clone, Debug)]
pub struct Sonde(ffi::Sonde);

impl Sonde {
    /// A sonde as it leaves the works.
    pub fn fresh(address: u8) -> Result<Sonde, Error> {
        // SAFETY: a call by value alone.
        let made = unsafe { ffi::sonde_fresh(address) };
        done(made.number).map(|()| Sonde(made.sonde))
    }

    /// Begins a journal in a volume, with the calibrations in force as its opening. Words from 64 on stay as they are, and so does the sonde:
    /// the library is proved to hand it back unchanged, refused or not.
    ///
    /// ```
    /// use sonde::{Error, Sonde};
    ///
    /// let sonde = Sonde::fresh(1)?;
    /// assert_eq!(sonde.begin(&mut [0; 87]), Err(Error::ShortVolume));
    /// assert_eq!(sonde.begin(&mut [0; 88]), Ok(()));
    /// # Ok::<(), Error>(())
    /// ```
    pub fn begin(&self, volume: &mut [u16]) -> Result<(), Error> {
        // SAFETY: the slice is valid for its length and lent for the call.
        let made = unsafe { ffi::sonde_begin(self.0, volume.as_mut_ptr(), volume.len()) };
        done(made.number)
    }

    /// The sonde after a power cut: the calibrations that the volume's journal gives, all else as fresh, the technician's number too.
    ///
    /// ```
    /// use sonde::{Error, Sonde};
    ///
    /// assert_eq!(Sonde::power_up(1, &[0xFFFF; 88]).unwrap_err(), Error::Invalid);
    /// ```
    pub fn power_up(address: u8, volume: &[u16]) -> Result<Sonde, Error> {
        // SAFETY: the slice is valid for its length and lent for the call.
        let made = unsafe { ffi::sonde_power_up(address, volume.as_ptr(), volume.len()) };
        done(made.number).map(|()| Sonde(made.sonde))
    }

    /// A measurement of sensor 1 to 4: its two raw values, or `None` for a sensor that isn't present. The second is read for sensor 1
    /// alone, as its temperature.
    ///
    /// ```
    /// use sonde::{Error, Sonde};
    ///
    /// let mut sonde = Sonde::fresh(1)?;
    /// assert_eq!(sonde.measure(2, Some((8.1, 0.0))), Ok(()));
    /// assert_eq!(sonde.measure(2, Some((f32::NAN, 0.0))), Err(Error::NotFinite));
    /// assert_eq!(sonde.measure(2, None), Ok(()));
    /// assert_eq!(sonde.measure(5, None), Err(Error::NoSensor));
    /// # Ok::<(), Error>(())
    /// ```
    pub fn measure(&mut self, sensor: u8, raws: Option<(f32, f32)>) -> Result<(), Error> {
        let (raw1, raw2) = raws.unwrap_or_default();
        // SAFETY: a call by value alone.
        let made = unsafe { ffi::sonde_measure(self.0, sensor, raws.is_some(), raw1, raw2) };
        self.0 = made.sonde;
        done(made.number)
    }

    /// One Modbus frame, whole: RTU with its CRC-16, or ASCII from the colon to LF. Hands back the reply to send, in the same framing, empty for
    /// none. The volume changes by an accepted calibration alone: write it to safe storage before the reply is sent. A frame that is answered by
    /// an exception changes the counters and nothing else, but for an update that is refused for its limits alone (0x97): its candidate becomes
    /// the trial coefficients, which the registers show.
    ///
    /// ```
    /// use sonde::{Arrival, Error, Sonde, ASCII_REPLY_BYTES, REPLY_BYTES};
    ///
    /// let mut volume = [0; 88];
    /// let mut sonde = Sonde::fresh(1)?;
    /// sonde.begin(&mut volume)?;
    /// let mut buffer = [0; REPLY_BYTES];
    ///
    /// // A register that isn't in the map is answered by exception 2.
    /// let absent = [1, 3, 0x25, 0, 0, 1, 0x8F, 0x06];
    /// let reply = sonde.frame(&absent, &mut buffer, &mut volume, Arrival::rtu(0))?;
    /// assert_eq!(reply, [1, 0x83, 2, 0xC0, 0xF1]);
    ///
    /// // A frame with a wrong checksum is counted and gets no reply.
    /// assert!(sonde.frame(&[1, 3, 0, 0, 0, 1, 0, 0], &mut buffer, &mut volume, Arrival::rtu(0))?.is_empty());
    ///
    /// let short = sonde.frame(&absent, &mut buffer[1..], &mut volume, Arrival::rtu(0));
    /// assert_eq!(short, Err(Error::ShortReply));
    ///
    /// // The same request in characters.
    /// let mut buffer = [0; ASCII_REPLY_BYTES];
    /// let reply = sonde.frame(b":010325000001D6\r\n", &mut buffer, &mut volume, Arrival::ascii(0))?;
    /// assert_eq!(reply, b":0183027A\r\n");
    ///
    /// // Sensor 2 by one point, 8 in a standard of 10: the slope 1.25 is refused for its limits, and then shown.
    /// for (request, reply) in [
    ///     (":010600CDE0004C\r\n", ":010600CDE0004C\r\n"),
    ///     (":010600CE00012A\r\n", ":010600CE00012A\r\n"),
    ///     (":011000D800020441000000D0\r\n", ":011000D8000215\r\n"),
    ///     (":011000DA00020441200000AE\r\n", ":011000DA000213\r\n"),
    ///     (":010600CDE0014B\r\n", ":018697E2\r\n"),
    ///     (":010300D2000426\r\n", ":010308000000003FA0000015\r\n"),
    /// ] {
    ///     let answer = sonde.frame(request.as_bytes(), &mut buffer, &mut volume, Arrival::ascii(0))?;
    ///     assert_eq!(answer, reply.as_bytes());
    /// }
    /// assert_eq!(sonde.audit(&volume)?, 0);
    /// # Ok::<(), Error>(())
    /// ```
    pub fn frame<'a>(&mut self, frame: &[u8], reply: &'a mut [u8], volume: &mut [u16], arrival: Arrival) -> Result<&'a [u8], Error> {
        // SAFETY: the slices are valid for their lengths, lent for the call, and can't overlap.
        let answer = unsafe {
            ffi::sonde_frame(
                self.0,
                frame.as_ptr(),
                frame.len(),
                reply.as_mut_ptr(),
                reply.len(),
                volume.as_mut_ptr(),
                volume.len(),
                arrival.clock,
                arrival.framing == Framing::Ascii,
                arrival.port as u8,
            )
        };
        self.0 = answer.sonde;
        done(answer.number).map(|()| &reply[..answer.length.into()])
    }

    /// Whether the sonde and its volume are valid and agree: the entries in use.
    ///
    /// ```
    /// use sonde::{Error, Sonde};
    ///
    /// let mut volume = [0; 88];
    /// let sonde = Sonde::fresh(1)?;
    /// sonde.begin(&mut volume)?;
    /// assert_eq!(sonde.audit(&volume), Ok(0));
    /// volume[20] ^= 1; // one bit of the opening
    /// assert_eq!(sonde.audit(&volume), Err(Error::Invalid));
    /// # Ok::<(), Error>(())
    /// ```
    pub fn audit(&self, volume: &[u16]) -> Result<u16, Error> {
        // SAFETY: the slice is valid for its length and lent for the call.
        let audit = unsafe { ffi::sonde_audit(self.0, volume.as_ptr(), volume.len()) };
        done(audit.number).map(|()| audit.entries)
    }
}

/// The journal on paper: a line for the opening of each sensor, 1 to 4, then one for each entry by its index. Hands back the lines, each of 52
/// characters and LF; the bytes of the page past them stay. It takes no sonde, and a valid volume of any length.
///
/// A line has the columns index (4 wide), sensor (1), method (1), technician (5), time (10) and three coefficients (8 each), with one space
/// between. Numbers are right-aligned, and a coefficient is the bits of its float in hexadecimal digits. An opening has index 0, method `-` and
/// technician 0.
///
/// ```
/// use sonde::{page_bytes, print, Arrival, Error, Sonde, ASCII_REPLY_BYTES};
///
/// let mut volume = [0; 88];
/// let mut sonde = Sonde::fresh(1)?;
/// sonde.begin(&mut volume)?;
///
/// // Technician 7 calibrates sensor 1 by one point, 1000 in a standard of 1250.
/// let mut buffer = [0; ASCII_REPLY_BYTES];
/// for request in [
///     ":010600090007E9\r\n",
///     ":01060069E000B0\r\n",
///     ":0106006A00018E\r\n",
///     ":01100074000204447A0000B7\r\n",
///     ":01100076000204449C400053\r\n",
///     ":01060069E001AF\r\n",
/// ] {
///     sonde.frame(request.as_bytes(), &mut buffer, &mut volume, Arrival::ascii(1000))?;
/// }
///
/// let mut page = [0; page_bytes(1)];
/// let lines = print(&volume, &mut page)?;
/// assert_eq!(
///     lines,
///     b"   0 1 -     0          0 00000000 3F800000 00000000\n\
///       \x20  0 2 -     0          0 00000000 3F800000 00000000\n\
///       \x20  0 3 -     0          0 00000000 00000000 00000000\n\
///       \x20  0 4 -     0          0 00000000 3F800000 00000000\n\
///       \x20  1 1 1     7       1000 00000000 3FA00000 00000000\n"
/// );
///
/// assert_eq!(print(&volume, &mut page[1..]), Err(Error::ShortPage));
/// assert_eq!(print(&volume[..87], &mut page), Err(Error::Invalid));
/// # Ok::<(), Error>(())
/// ```
pub fn print<'a>(volume: &[u16], page: &'a mut [u8]) -> Result<&'a [u8], Error> {
    // SAFETY: the slices are valid for their lengths, lent for the call, and can't overlap.
    let printed = unsafe { ffi::sonde_print(volume.as_ptr(), volume.len(), page.as_mut_ptr(), page.len()) };
    done(printed.number).map(|()| &page[..printed.length as usize])
}

/// The first `stores` stores of the append of an entry; [`APPEND_STORES`] and more are all of them. [`Sonde::frame`] appends by it with all: a host
/// has no need of it but to try what a cut in the middle of an append leaves.
///
/// In order, upward: the entry's 24 words; the link to it, which is the next word of the same sensor's previous entry or the chain's first; the
/// chain's last; the entries in use. Nothing is stored unless the entry's sensor is 1 to 4 and an entry is spare. See [`salvage`] for an example.
pub fn append(volume: &mut [u16], entry: Entry, stores: usize) {
    // SAFETY: the slice is valid for its length and lent for the call.
    unsafe { ffi::sonde_append(volume.as_mut_ptr(), volume.len(), entry, stores) }
}

/// A volume after a supply failed in the middle of an append: how many words differ afterwards, 0 for a valid volume. For a host that keeps the
/// volume where [`Sonde::frame`] stores into it and so may find an entry half written, at each start and before [`Sonde::power_up`].
///
/// Wherever the cut fell, the volume is then the one from before the append, or the one from after it where the entries in use were stored, in every
/// word but the free ones. The chain words of the header (4 to 11) and the next words of the entries in use are rewritten, and nothing else. Where no
/// choice of those words makes the volume valid, it stays as it was.
///
/// ```
/// use sonde::{append, salvage, Calibration, Entry, Error, Points, Sonde, APPEND_STORES};
///
/// let mut volume = [0; 112];
/// let sonde = Sonde::fresh(1)?;
/// sonde.begin(&mut volume)?;
/// assert_eq!(salvage(&mut volume), Ok(0));
///
/// // Sensor 1, by its coefficients; the supply fails when the last word but one is stored.
/// let calibration = Calibration { coefficient1: 0.0, coefficient2: 1.25, coefficient3: 0.0, time: 1000 };
/// let entry = Entry { sensor: 1, method: 0, technician: 7, calibration, points: Points::default() };
/// append(&mut volume, entry, APPEND_STORES - 1);
/// assert_eq!(Sonde::power_up(1, &volume).unwrap_err(), Error::Invalid);
///
/// // The volume from before: of the chain of sensor 1 the first and the last are 0 again.
/// assert_eq!(salvage(&mut volume), Ok(2));
/// assert_eq!(sonde.audit(&volume), Ok(0));
///
/// // With all stores it is the volume from after.
/// append(&mut volume, entry, APPEND_STORES);
/// assert_eq!(salvage(&mut volume), Ok(0));
/// assert_eq!(Sonde::power_up(1, &volume)?.audit(&volume), Ok(1));
///
/// volume[64 + 1] = 5; // no sensor
/// assert_eq!(salvage(&mut volume), Err(Error::BeyondSalvage));
/// # Ok::<(), Error>(())
/// ```
pub fn salvage(volume: &mut [u16]) -> Result<u16, Error> {
    // SAFETY: the slice is valid for its length and lent for the call.
    let salvaged = unsafe { ffi::sonde_salvage(volume.as_mut_ptr(), volume.len()) };
    done(salvaged.number).map(|()| salvaged.changed)
}

/// One round of the CRC-16 of Modbus RTU: the running sum after a word, its low byte first and then its high byte.
///
/// A checksum begins at 0xFFFF and takes a round for each two bytes of a frame, the earlier one as the word's low half. An odd last byte goes on
/// its own, by a round too. The checksum stands behind the frame, low byte first.
///
/// ```
/// use sonde::{crc_round, Arrival, Sonde, REPLY_BYTES};
///
/// fn checksum(bytes: &[u8]) -> u16 {
///     bytes.chunks(2).fold(0xFFFF, |sum, bytes| match *bytes {
///         [low, high] => crc_round(sum, u16::from_le_bytes([low, high])),
///         _ => crc_round((sum ^ u16::from(bytes[0])) << 8, 0) ^ sum >> 8,
///     })
/// }
///
/// assert_eq!(checksum(b"123456789"), 0x4B37);
///
/// // A read of register 0, the version of the map, with its checksum.
/// let mut request = vec![1, 3, 0, 0, 0, 1];
/// request.extend(checksum(&request).to_le_bytes());
/// assert_eq!(checksum(&request), 0);
///
/// let mut volume = [0; 88];
/// let mut sonde = Sonde::fresh(1)?;
/// sonde.begin(&mut volume)?;
/// let mut buffer = [0; REPLY_BYTES];
/// let reply = sonde.frame(&request, &mut buffer, &mut volume, Arrival::rtu(0))?;
/// assert_eq!(reply, [1, 3, 2, 0, 3, 0xF8, 0x45]);
/// assert_eq!(checksum(reply), 0);
/// # Ok::<(), sonde::Error>(())
/// ```
pub fn crc_round(sum: u16, word: u16) -> u16 {
    // SAFETY: a call by value alone.
    unsafe { ffi::sonde_crc_round(sum, word) }
}

#[cfg(test)]
mod tests {
    use super::*;

    #[test]
    fn each_number_is_its_error() {
        assert_eq!(done(0), Ok(()));
        for number in 1..=9 {
            assert_eq!(done(number).unwrap_err() as u8, number);
        }
    }
}

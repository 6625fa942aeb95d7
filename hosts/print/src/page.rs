//! The page, read: lines of 52 characters, as docs/ARCHIVE.md describes them.

use std::ops::Range;

const COLUMNS: usize = 52;
/// The blanks between the columns.
const BLANKS: [usize; 7] = [4, 6, 8, 14, 25, 34, 43];
const INDEX: Range<usize> = 0..4;
const SENSOR: Range<usize> = 5..6;
const METHOD: usize = 7;
const TECHNICIAN: Range<usize> = 9..14;
const TIME: Range<usize> = 15..25;
const COEFFICIENTS: [Range<usize>; 3] = [26..34, 35..43, 44..52];

/// How the coefficients of a line came about.
#[derive(Clone, Copy, Debug, PartialEq, Eq)]
pub enum Method {
    Opening,
    Direct,
    OnePoint,
    TwoPoints,
}

/// An opening or an entry.
#[derive(Clone, Debug, PartialEq)]
pub struct Line {
    pub index: u16,
    pub sensor: usize,
    pub method: Method,
    pub technician: u16,
    pub time: u32,
    pub coefficients: [f32; 3],
}

/// The lines of one sensor.
#[derive(Clone, Debug, PartialEq)]
pub struct History {
    pub opening: Line,
    /// In the order of acceptance.
    pub entries: Vec<Line>,
}

/// The page by sensor, from sensor 1 on.
#[derive(Clone, Debug, PartialEq)]
pub struct Page {
    pub histories: Vec<History>,
    /// Lines of methods that have no part in coefficients 1, 2 and 3; they aren't drawn.
    pub others: usize,
}

impl Page {
    pub fn entries(&self) -> usize {
        self.histories.iter().map(|history| history.entries.len()).sum()
    }

    /// The times of all entries.
    pub fn times(&self) -> Vec<u32> {
        let entries = self.histories.iter().flat_map(|history| &history.entries);
        entries.map(|entry| entry.time).collect()
    }
}

/// Reads a page. Lines with index 0 are openings. A line of a method that isn't known here is counted, and otherwise skipped.
pub fn read(text: &str) -> Result<Page, String> {
    let mut lines = Vec::new();
    let mut others = 0;
    for (number, text) in text.split_terminator('\n').enumerate() {
        match line(text).ok_or_else(|| {
            format!(
                "line {} of the page isn't one of {COLUMNS} characters as the printer writes them",
                number + 1
            )
        })? {
            Some(line) => lines.push(line),
            None => others += 1,
        }
    }
    let histories = (1..=4).map(|sensor| history(&lines, sensor)).collect::<Result<_, _>>()?;
    Ok(Page { histories, others })
}

fn history(lines: &[Line], sensor: usize) -> Result<History, String> {
    let (openings, entries): (Vec<Line>, Vec<Line>) = lines
        .iter()
        .filter(|line| line.sensor == sensor)
        .cloned()
        .partition(|line| line.index == 0);
    match <[Line; 1]>::try_from(openings) {
        Ok([opening]) => Ok(History { opening, entries }),
        Err(found) => Err(format!("the page has {} opening lines of sensor {sensor}", found.len())),
    }
}

/// `None` where the text is no line, `Some(None)` where it is one of another method.
fn line(text: &str) -> Option<Option<Line>> {
    if text.len() != COLUMNS || !text.is_ascii() || BLANKS.iter().any(|&at| text.as_bytes()[at] != b' ') {
        return None;
    }
    let index: u16 = number(&text[INDEX])?;
    let sensor: usize = number(&text[SENSOR]).filter(|sensor| (1..=4).contains(sensor))?;
    let technician = number(&text[TECHNICIAN])?;
    let time = number(&text[TIME])?;
    let [c1, c2, c3] = COEFFICIENTS.map(|columns| float(&text[columns]));
    let coefficients = [c1?, c2?, c3?];
    let method = match (text.as_bytes()[METHOD], index) {
        (b'-', 0) => Method::Opening,
        (b'0', 1..) => Method::Direct,
        (b'1', 1..) => Method::OnePoint,
        (b'2', 1..) => Method::TwoPoints,
        _ => return Some(None),
    };
    Some(Some(Line {
        index,
        sensor,
        method,
        technician,
        time,
        coefficients,
    }))
}

/// A decimal number behind blanks.
fn number<T: std::str::FromStr>(text: &str) -> Option<T> {
    let digits = text.trim_start_matches(' ');
    digits.bytes().all(|byte| byte.is_ascii_digit()).then(|| digits.parse().ok())?
}

/// A finite float of 8 capital digits.
fn float(text: &str) -> Option<f32> {
    let capitals = text.bytes().all(|byte| matches!(byte, b'0'..=b'9' | b'A'..=b'F'));
    let bits = capitals.then(|| u32::from_str_radix(text, 16).ok())??;
    Some(f32::from_bits(bits)).filter(|value| value.is_finite())
}

#[cfg(test)]
mod tests {
    use super::*;

    const FRESH: &str = "   0 1 -     0          0 00000000 3F800000 00000000
   0 2 -     0          0 00000000 3F800000 00000000
   0 3 -     0          0 00000000 00000000 00000000
   0 4 -     0          0 00000000 3F800000 00000000
";

    #[test]
    fn a_page_with_one_entry() {
        let page = read(&format!("{FRESH}   1 1 1 65535 4294967295 00000000 3FA00000 00000000\n")).unwrap();
        assert_eq!(page.entries(), 1);
        assert_eq!(page.times(), [u32::MAX]);
        let entry = &page.histories[0].entries[0];
        assert_eq!((entry.index, entry.method, entry.technician), (1, Method::OnePoint, u16::MAX));
        assert_eq!(entry.coefficients, [0.0, 1.25, 0.0]);
        assert_eq!(page.histories[2].opening.coefficients, [0.0; 3]);
    }

    #[test]
    fn lines_of_other_methods_are_counted() {
        let page = read(&format!(
            "   0 1 3     0          0 41C80000 3CA3D70A 3F800000\n{FRESH}   1 1 3     7       1000 41C80000 3CA3D70A 3F800000\n"
        ));
        let page = page.unwrap();
        assert_eq!((page.others, page.entries()), (2, 0));
    }

    #[test]
    fn what_is_no_page_is_refused() {
        let wrong = [
            "UNSOUND\n".to_string(),
            String::new(),
            format!("{FRESH}{FRESH}"),
            format!("{FRESH}   1 1 1     7       1000 00000000 3fa00000 00000000\n"),
            format!("{FRESH}   1 1 1     7       1000 00000000 7F800000 00000000\n"),
            format!("{FRESH}   1 5 1     7       1000 00000000 3FA00000 00000000\n"),
            format!("{FRESH}   1 1 1     7      +1000 00000000 3FA00000 00000000\n"),
            format!("{FRESH}   1 1 1     7       1000 00000000 3FA00000 00000000 \n"),
            format!("{FRESH}   1 1 1 99999       1000 00000000 3FA00000 00000000\n"),
        ];
        for text in wrong {
            assert!(read(&text).is_err(), "{text}");
        }
    }
}

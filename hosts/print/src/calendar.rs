//! Round steps of the calendar, for a clock whose zero is 1970, UTC.

use serve::date::utc;

/// How far a date's text goes.
const YEAR: usize = 4;
const MONTH: usize = 7;
const DAY: usize = 10;
const MINUTE: usize = 16;
const SECOND: usize = 19;

const DAY_SECONDS: i64 = 86400;

enum Unit {
    Seconds,
    Months,
}

/// A step of the calendar, and the length of the dates at its multiples.
pub struct CalendarStep {
    unit: Unit,
    count: i64,
    pub length: usize,
}

const fn seconds(count: i64, length: usize) -> CalendarStep {
    CalendarStep {
        unit: Unit::Seconds,
        count,
        length,
    }
}

const fn months(count: i64, length: usize) -> CalendarStep {
    CalendarStep {
        unit: Unit::Months,
        count,
        length,
    }
}

/// From the shortest on; none is more than three and a half times the one before, so that a round date is in view of every axis.
const STEPS: [CalendarStep; 28] = [
    seconds(1, SECOND),
    seconds(2, SECOND),
    seconds(5, SECOND),
    seconds(10, SECOND),
    seconds(15, SECOND),
    seconds(30, SECOND),
    seconds(60, MINUTE),
    seconds(120, MINUTE),
    seconds(300, MINUTE),
    seconds(600, MINUTE),
    seconds(900, MINUTE),
    seconds(1800, MINUTE),
    seconds(3600, MINUTE),
    seconds(3 * 3600, MINUTE),
    seconds(6 * 3600, MINUTE),
    seconds(12 * 3600, MINUTE),
    seconds(DAY_SECONDS, DAY),
    seconds(2 * DAY_SECONDS, DAY),
    seconds(7 * DAY_SECONDS, DAY),
    seconds(14 * DAY_SECONDS, DAY),
    months(1, MONTH),
    months(3, MONTH),
    months(6, MONTH),
    months(12, YEAR),
    months(24, YEAR),
    months(60, YEAR),
    months(120, YEAR),
    months(240, YEAR),
];

impl CalendarStep {
    /// The first step that is long enough, by a rule on its seconds and its dates' length.
    pub fn fitting(fits: impl Fn(f64, usize) -> bool) -> &'static CalendarStep {
        let found = STEPS.iter().find(|step| fits(step.least_seconds(), step.length));
        found.unwrap_or(&STEPS[STEPS.len() - 1])
    }

    fn least_seconds(&self) -> f64 {
        match self.unit {
            Unit::Seconds => self.count as f64,
            Unit::Months => (self.count * 28 * DAY_SECONDS) as f64,
        }
    }

    /// The multiples from one time to another.
    pub fn multiples(&self, from: u32, to: u32) -> Vec<u32> {
        let (from, to) = (i64::from(from), i64::from(to));
        let all: Vec<i64> = match self.unit {
            Unit::Seconds => ((from + self.count - 1) / self.count..=to / self.count)
                .map(|n| n * self.count)
                .collect(),
            Unit::Months => (0..=(to / (28 * DAY_SECONDS)) / self.count)
                .map(|n| month_begins(n * self.count))
                .collect(),
        };
        all.into_iter()
            .filter(|time| (from..=to).contains(time))
            .filter_map(|time| time.try_into().ok())
            .collect()
    }
}

/// A time as a date of this many characters.
pub fn date(time: u32, length: usize) -> String {
    utc(time).replace('T', " ")[..length].to_string()
}

/// A time to the second.
pub fn moment(time: u32) -> String {
    date(time, SECOND)
}

/// The seconds at which a month begins, counted from January 1970.
fn month_begins(month: i64) -> i64 {
    let (year, month) = (1970 + month / 12, month % 12);
    let is_leap = |year: i64| year % 4 == 0 && (year % 100 != 0 || year % 400 == 0);
    let days: i64 = (1970..year).map(|year| 365 + i64::from(is_leap(year))).sum();
    let lengths = [31, 28 + i64::from(is_leap(year)), 31, 30, 31, 30, 31, 31, 30, 31, 30, 31];
    (days + lengths[..month as usize].iter().sum::<i64>()) * DAY_SECONDS
}

#[cfg(test)]
mod tests {
    use super::*;

    #[test]
    fn multiples_begin_months_and_years() {
        for step in STEPS.iter().filter(|step| matches!(step.unit, Unit::Months)) {
            let times = step.multiples(0, u32::MAX);
            assert!(times.len() >= 6);
            assert!(times.iter().all(|&time| utc(time).ends_with("-01T00:00:00Z")), "{times:?}");
        }
        let years: Vec<String> = months(60, YEAR)
            .multiples(1_000_000_000, 1_500_000_000)
            .iter()
            .map(|&time| date(time, YEAR))
            .collect();
        assert_eq!(years, ["2005", "2010", "2015"]);
    }

    #[test]
    fn multiples_lie_between_both_ends() {
        assert_eq!(seconds(60, MINUTE).multiples(60, 181), [60, 120, 180]);
        assert_eq!(seconds(60, MINUTE).multiples(61, 119), []);
        assert_eq!(moment(1_767_225_600), "2026-01-01 00:00:00");
    }
}

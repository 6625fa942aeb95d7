//! The times of all panels: where each stands. The axis is cut where nothing happened for so long that the rest would be crowded, as where the clock
//! was set; the scale is the same on both sides of a cut.

use crate::calendar::{date, moment, CalendarStep};
use crate::svg::text_width;
use crate::ticks::Step;

/// The axis is cut at a gap that is more than so many times as long as the rest.
const CUT: u64 = 6;
const MOST_CUTS: usize = 3;
/// Pixels between two parts of the axis.
const GAP: f64 = 14.0;
/// Pixels before the first and behind the last time of a part.
const PAD: f64 = 14.0;
/// The same where a date may have to stand at the first time itself: on an axis that is cut, or of so few seconds that no round date need be in view.
const DATE_PAD: f64 = 62.0;
const FEW_SECONDS: f64 = 5.0;
/// The seconds that an axis has in view where all times are the same.
const ONE_TIME_VIEW: f64 = 3600.0;
/// The least pixels between the texts of two ticks.
const TICK_GAP: f64 = 18.0;

/// A part of the axis without a cut.
#[derive(Clone, Copy, Debug)]
pub struct Part {
    pub left: f64,
    pub right: f64,
    pub first: u32,
    pub last: u32,
    /// Where `first` stands.
    pub first_x: f64,
    /// Seconds to a pixel.
    pub scale: f64,
}

pub struct Tick {
    pub x: f64,
    pub text: String,
}

pub struct TimeAxis {
    pub parts: Vec<Part>,
    /// The size of the ticks' texts.
    text_size: f64,
}

impl TimeAxis {
    /// From one place to another; `None` where there is no time.
    pub fn new(mut times: Vec<u32>, left: f64, right: f64, text_size: f64) -> Option<TimeAxis> {
        times.sort_unstable();
        times.dedup();
        let (&first, &last) = (times.first()?, times.last()?);
        let cuts = cuts(&times);
        let mut spans = Vec::new();
        let mut start = first;
        for (before, after) in cuts {
            spans.push((start, before));
            start = after;
        }
        spans.push((start, last));
        Some(TimeAxis {
            parts: parts(&spans, left, right),
            text_size,
        })
    }

    pub fn x(&self, time: u32) -> f64 {
        let part = self.parts.iter().find(|part| time <= part.last);
        part.map_or(f64::NAN, |part| part.x(time))
    }

    /// Round numbers of seconds; the exact first time of a part that has none.
    pub fn seconds(&self) -> Vec<Tick> {
        let width = text_width("4294967295", self.text_size) + TICK_GAP;
        let step = Step::at_least((width * self.scale()).max(1.0));
        let round = |from: u32, to: u32| {
            step.multiples(from.into(), to.into())
                .into_iter()
                .map(|(time, text)| (time as u32, text))
                .collect()
        };
        self.ticks(width, round, |time| time.to_string())
    }

    /// Round dates under the assumption that the clock's zero is 1970, UTC.
    pub fn dates(&self) -> Vec<Tick> {
        let width = |length: usize| text_width("0", self.text_size) * length as f64 + TICK_GAP;
        let step = CalendarStep::fitting(|seconds, length| seconds / self.scale() >= width(length));
        let round = |from, to| {
            step.multiples(from, to)
                .into_iter()
                .map(|time| (time, date(time, step.length)))
                .collect()
        };
        self.ticks(width(step.length), round, moment)
    }

    fn scale(&self) -> f64 {
        self.parts[0].scale
    }

    fn ticks(&self, width: f64, round: impl Fn(u32, u32) -> Vec<(u32, String)>, exact: impl Fn(u32) -> String) -> Vec<Tick> {
        let mut ticks = Vec::new();
        for part in &self.parts {
            let (from, to) = part.view(width / 2.0);
            let mut found = if part.first == part.last { Vec::new() } else { round(from, to) };
            if found.is_empty() {
                found.push((part.first, exact(part.first)));
            }
            ticks.extend(found.into_iter().map(|(time, text)| Tick { x: part.x(time), text }));
        }
        ticks
    }
}

impl Part {
    pub fn x(&self, time: u32) -> f64 {
        self.first_x + (f64::from(time) - f64::from(self.first)) / self.scale
    }

    /// The first and last time whose tick has room.
    fn view(&self, room: f64) -> (u32, u32) {
        let time = |x: f64| f64::from(self.first) + (x - self.first_x) * self.scale;
        (time(self.left + room).ceil() as u32, time(self.right - room).floor() as u32)
    }
}

/// The times before and after each cut, in order.
fn cuts(times: &[u32]) -> Vec<(u32, u32)> {
    let mut gaps: Vec<(u32, u32)> = times.windows(2).map(|pair| (pair[0], pair[1])).collect();
    gaps.sort_by_key(|(before, after)| std::cmp::Reverse(after - before));
    let length = |gap: &(u32, u32)| u64::from(gap.1 - gap.0);
    let mut rest: u64 = gaps.iter().map(length).sum();
    let mut cuts = Vec::new();
    for gap in gaps.iter().take(MOST_CUTS) {
        rest -= length(gap);
        if rest == 0 || length(gap) <= CUT * rest {
            break;
        }
        cuts.push(*gap);
    }
    cuts.sort_unstable();
    cuts
}

/// Each part has the width of its seconds and a pad on both sides.
fn parts(spans: &[(u32, u32)], left: f64, right: f64) -> Vec<Part> {
    let seconds: f64 = spans.iter().map(|(first, last)| f64::from(last - first)).sum();
    let pad = if spans.len() > 1 || seconds < FEW_SECONDS { DATE_PAD } else { PAD };
    let pads = 2.0 * pad * spans.len() as f64 + GAP * (spans.len() - 1) as f64;
    if seconds == 0.0 {
        let (first, last) = spans[0];
        let scale = ONE_TIME_VIEW / (right - left);
        return vec![Part {
            left,
            right,
            first,
            last,
            first_x: (left + right) / 2.0,
            scale,
        }];
    }
    let scale = seconds / (right - left - pads);
    let mut at = left;
    let mut parts = Vec::new();
    for &(first, last) in spans {
        let end = at + 2.0 * pad + f64::from(last - first) / scale;
        parts.push(Part {
            left: at,
            right: end,
            first,
            last,
            first_x: at + pad,
            scale,
        });
        at = end + GAP;
    }
    parts
}

#[cfg(test)]
mod tests {
    use super::*;

    fn axis(times: &[u32]) -> TimeAxis {
        TimeAxis::new(times.to_vec(), 200.0, 1000.0, 10.0).unwrap()
    }

    #[test]
    fn no_time_has_no_axis() {
        assert!(TimeAxis::new(Vec::new(), 200.0, 1000.0, 10.0).is_none());
    }

    #[test]
    fn one_time_stands_in_the_middle_with_its_exact_ticks() {
        for time in [0, 1000, u32::MAX] {
            let axis = axis(&[time, time]);
            assert_eq!(axis.x(time), 600.0);
            assert_eq!(
                axis.seconds().iter().map(|tick| &tick.text).collect::<Vec<_>>(),
                [&time.to_string()]
            );
            assert_eq!(axis.dates().len(), 1);
        }
    }

    #[test]
    fn a_clock_that_was_set_cuts_the_axis() {
        let axis = axis(&[1000, 1_767_225_600, 1_767_312_000]);
        assert_eq!(axis.parts.len(), 2);
        assert!(axis.x(1_767_312_000) - axis.x(1_767_225_600) > 400.0);
        assert_eq!(axis.seconds()[0].text, "1000");
    }

    #[test]
    fn what_is_spread_is_not_cut() {
        for times in [&[0, u32::MAX][..], &[0, 100, 200, 1000], &[5, 5, 6]] {
            assert_eq!(axis(times).parts.len(), 1, "{times:?}");
        }
    }

    #[test]
    fn ticks_keep_their_distance_and_stay_inside() {
        for times in [
            &[0, u32::MAX][..],
            &[1_767_225_600, 1_767_225_601],
            &[7, 90_000],
            &[0, 1, 4_000_000_000, 4_000_000_100],
            &[5, 7],
            &[1000, 1005],
            &[0, 40_000_000],
        ] {
            let axis = axis(times);
            for ticks in [axis.seconds(), axis.dates()] {
                assert!(!ticks.is_empty());
                for tick in &ticks {
                    let half = text_width(&tick.text, 10.0) / 2.0;
                    let fits = |part: &Part| part.left <= tick.x - half && tick.x + half <= part.right;
                    assert!(axis.parts.iter().any(fits), "{times:?}: {} at {}", tick.text, tick.x);
                }
                for pair in ticks.windows(2) {
                    let room = (text_width(&pair[0].text, 10.0) + text_width(&pair[1].text, 10.0)) / 2.0;
                    assert!(pair[1].x - pair[0].x > room, "{times:?}: {} {}", pair[0].text, pair[1].text);
                }
            }
        }
    }
}

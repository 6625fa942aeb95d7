//! The values of one panel: what is in view, and where each value stands. The axis is cut where the opening, say, lies so far from the entries that these
//! couldn't be told apart; the scale is the same on both sides of a cut.

use crate::ticks::Step;

/// The axis is cut at a gap that is more than so many times as long as the rest, and less than so many times: binary32 beside each other that are far from
/// 0 differ by more, and others would leave a scale too fine for the far side of the cut.
const CUT: f64 = 6.0;
const MOST_CUT: f64 = 1e9;
/// Pixels between two parts of the axis.
const GAP: f64 = 10.0;
/// Pixels above and below the values of a part: room for a label. Labels of a single value can stand beside it.
const PAD: f64 = 18.0;
const ONE_VALUE_PAD: f64 = 9.0;
/// The least pixels between two ticks.
const SPACING: f64 = 26.0;

/// A part of the axis without a cut.
#[derive(Clone, Copy, Debug)]
pub struct ValuePart {
    pub low: f64,
    pub high: f64,
    pub top: f64,
    pub bottom: f64,
}

pub struct ValueAxis {
    /// From the lowest on.
    pub parts: Vec<ValuePart>,
    pub top: f64,
    pub bottom: f64,
}

pub struct Tick {
    pub y: f64,
    pub text: String,
}

impl ValueAxis {
    /// As large as the values allow. Where they don't differ, a tenth of what the limits allow is in view.
    pub fn new(values: &[f32], limits: [f32; 2], top: f64, bottom: f64) -> ValueAxis {
        let mut values: Vec<f64> = values.iter().copied().map(f64::from).collect();
        values.sort_by(f64::total_cmp);
        let (least, greatest) = (values[0], values[values.len() - 1]);
        let parts = match cut(&values) {
            Some((below, above)) => parts(&[(least, below), (above, greatest)], top, bottom),
            None if greatest > least => parts(&[(least, greatest)], top, bottom),
            None => {
                let margin = 0.05 * (f64::from(limits[1]) - f64::from(limits[0]));
                let (low, high) = (least - margin, least + margin);
                vec![ValuePart { low, high, top, bottom }]
            }
        };
        ValueAxis { parts, top, bottom }
    }

    /// Where a value that is in view stands.
    pub fn y(&self, value: f64) -> f64 {
        let part = self.parts.iter().find(|part| value <= part.high);
        part.map_or(f64::NAN, |part| part.y(value))
    }

    /// Round values; in a part that is too small for that, one that is as round as there is.
    pub fn ticks(&self) -> Vec<Tick> {
        self.parts.iter().flat_map(ValuePart::ticks).collect()
    }
}

impl ValuePart {
    pub fn y(&self, value: f64) -> f64 {
        self.bottom - (value - self.low) / (self.high - self.low) * (self.bottom - self.top)
    }

    /// Where a value stands, or the edge that it lies behind.
    pub fn y_in_view(&self, value: f64) -> f64 {
        self.y(value.clamp(self.low, self.high))
    }

    pub fn shows(&self, value: f64) -> bool {
        (self.low..=self.high).contains(&value)
    }

    fn ticks(&self) -> Vec<Tick> {
        let mut least = SPACING * (self.high - self.low) / (self.bottom - self.top);
        let mut round = Step::at_least(least).multiples(self.low, self.high);
        while round.is_empty() {
            least /= 2.0;
            round = Step::at_least(least).multiples(self.low, self.high);
            round.truncate(1);
        }
        round.into_iter().map(|(value, text)| Tick { y: self.y(value), text }).collect()
    }
}

/// The values below and above the cut, if there is one.
fn cut(sorted: &[f64]) -> Option<(f64, f64)> {
    let gaps = sorted.windows(2).map(|pair| (pair[0], pair[1]));
    let (below, above) = gaps.max_by(|a, b| (a.1 - a.0).total_cmp(&(b.1 - b.0)))?;
    let rest = (below - sorted[0]) + (sorted[sorted.len() - 1] - above);
    let gap = above - below;
    (CUT * rest < gap && gap < MOST_CUT * rest).then_some((below, above))
}

/// Each part has the height of its values and a pad above and below.
fn parts(spans: &[(f64, f64)], top: f64, bottom: f64) -> Vec<ValuePart> {
    let pad = |(low, high): (f64, f64)| if high > low { PAD } else { ONE_VALUE_PAD };
    let pads: f64 = spans.iter().map(|&span| 2.0 * pad(span)).sum();
    let room = bottom - top - pads - GAP * (spans.len() - 1) as f64;
    let scale = spans.iter().map(|(low, high)| high - low).sum::<f64>() / room;
    let mut at = bottom;
    let mut parts = Vec::new();
    for &(low, high) in spans {
        let pad = pad((low, high));
        let end = at - 2.0 * pad - (high - low) / scale;
        let (low, high) = (low - pad * scale, high + pad * scale);
        parts.push(ValuePart {
            low,
            high,
            top: end,
            bottom: at,
        });
        at = end - GAP;
    }
    parts
}

#[cfg(test)]
mod tests {
    use super::*;

    fn axis(values: &[f32]) -> ValueAxis {
        ValueAxis::new(values, [0.25, 4.0], 0.0, 130.0)
    }

    #[test]
    fn values_that_differ_by_the_least_bit_are_apart() {
        let next = f32::from_bits(1.0f32.to_bits() + 1);
        let axis = axis(&[1.0, next]);
        assert!(axis.y(1.0) - axis.y(next.into()) > 85.0);
        assert!(axis.ticks().len() >= 3);
    }

    #[test]
    fn one_value_has_a_view() {
        let axis = axis(&[1.0]);
        assert!((axis.y(1.0) - 65.0).abs() < 1e-9);
        assert!(axis.parts[0].shows(0.85) && !axis.parts[0].shows(0.25));
    }

    #[test]
    fn an_opening_far_from_the_entries_is_cut_off() {
        for values in [[1.0f32, 2.5, 2.501, 2.502], [3.0, 2.5, 2.501, 2.502]] {
            let axis = axis(&values);
            assert_eq!(axis.parts.len(), 2);
            assert!(axis.y(2.5) - axis.y(2.502f32.into()) > 50.0);
            for part in &axis.parts {
                assert!(axis.ticks().iter().any(|tick| (part.top..=part.bottom).contains(&tick.y)));
            }
            assert!((axis.parts[1].top, axis.parts[0].bottom) == (0.0, 130.0) && axis.parts[1].bottom + GAP == axis.parts[0].top);
        }
        assert_eq!(axis(&[1.0, 2.5, 2.5]).parts.len(), 1);
        assert_eq!(axis(&[1.0, 2.0, 3.0]).parts.len(), 1);
        assert_eq!(axis(&[0.0, 1e-30, 3.0]).parts.len(), 1);
    }
}

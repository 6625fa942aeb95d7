//! Round steps of a scale: 1, 2 or 5 times a power of ten.

/// A step of `digit` × 10^`exponent`.
#[derive(Clone, Copy, Debug, PartialEq, Eq)]
pub struct Step {
    digit: i64,
    exponent: i32,
}

impl Step {
    /// The least round step that isn't smaller than a size above 0.
    pub fn at_least(size: f64) -> Step {
        let mut exponent = size.log10().floor() as i32 - 1;
        loop {
            for digit in [1, 2, 5] {
                let step = Step { digit, exponent };
                if step.size() >= size {
                    return step;
                }
            }
            exponent += 1;
        }
    }

    pub fn size(self) -> f64 {
        power(self.digit, self.exponent)
    }

    /// The multiples from one value to another, each with its text.
    pub fn multiples(self, from: f64, to: f64) -> Vec<(f64, String)> {
        let first = (from / self.size()).ceil() as i64;
        let last = (to / self.size()).floor() as i64;
        let multiple = |count: i64| (power(count * self.digit, self.exponent), self.text(count * self.digit));
        (first..=last).map(multiple).collect()
    }

    /// Of a number that counts the step's last place.
    fn text(self, count: i64) -> String {
        match self.exponent {
            0.. => power(count, self.exponent).to_string(),
            -9..0 => format!("{:.*}", -self.exponent as usize, power(count, self.exponent)),
            _ if count == 0 => "0".to_string(),
            _ => format!("{:e}", power(count, self.exponent)),
        }
    }
}

/// The float nearest to count × 10^exponent.
fn power(count: i64, exponent: i32) -> f64 {
    format!("{count}e{exponent}").parse().unwrap_or(f64::NAN)
}

#[cfg(test)]
mod tests {
    use super::*;

    fn texts(size: f64, from: f64, to: f64) -> Vec<String> {
        Step::at_least(size).multiples(from, to).into_iter().map(|(_, text)| text).collect()
    }

    #[test]
    fn steps_are_round() {
        for (size, step) in [
            (1.0, 1.0),
            (1.1, 2.0),
            (2.5, 5.0),
            (5.1, 10.0),
            (0.011, 0.02),
            (3e-45, 5e-45),
            (86400.0, 1e5),
        ] {
            assert_eq!(Step::at_least(size).size(), step, "{size}");
        }
    }

    #[test]
    fn multiples_have_texts() {
        assert_eq!(texts(0.05, 0.9, 1.06), ["0.90", "0.95", "1.00", "1.05"]);
        assert_eq!(texts(3000.0, -10000.0, 100.0), ["-10000", "-5000", "0"]);
        assert_eq!(texts(2e-20, 0.0, 5e-20), ["0", "2e-20", "4e-20"]);
        assert_eq!(texts(1e-8, 1.0, 1.000_000_02), ["1.00000000", "1.00000001", "1.00000002"]);
    }
}

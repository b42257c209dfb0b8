//! Round numbers, 1, 2 or 5 times a power of ten, for scale bars and for the marks of axes.

use std::ops::RangeInclusive;

/// `digit` × 10^`power`.
#[derive(Clone, Copy, Debug, PartialEq)]
pub struct Round {
    digit: i64,
    power: i32,
}

/// Between these powers lies every length of a table: a tick is nearly 10^-3 mm, the longest span 2048 mm.
const POWERS: RangeInclusive<i32> = -6..=6;

impl Round {
    /// The greatest that is at most numerator / denominator, both above 0.
    pub fn at_most(numerator: i64, denominator: i64) -> Self {
        let fits = |round: &Round| {
            let [up, down] = round.fraction();
            up * i128::from(denominator) <= i128::from(numerator) * down
        };
        let all = POWERS.rev().flat_map(|power| [5, 2, 1].map(|digit| Round { digit, power }));
        all.into_iter().find(fits).unwrap_or(Round { digit: 1, power: *POWERS.start() })
    }

    /// Numerator and denominator.
    fn fraction(&self) -> [i128; 2] {
        let [up, down] = [self.power, -self.power].map(|power| 10_i128.pow(power.max(0) as u32));
        [i128::from(self.digit) * up, down]
    }

    /// How many times the number may be taken to lie between low / denominator and high / denominator, ends included.
    pub fn multiples(&self, low: i64, high: i64, denominator: i64) -> RangeInclusive<i64> {
        let [up, down] = self.fraction();
        let whole = up * i128::from(denominator);
        let floor = |end: i64| (i128::from(end) * down).div_euclid(whole) as i64;
        -floor(-low)..=floor(high)
    }

    /// So many times the number, to be drawn.
    pub fn times(&self, count: i64) -> f64 {
        // A power of ten below 1 is no double; one above it is, and is divided by.
        let number = (count * self.digit) as f64;
        if self.power < 0 { number / 10_f64.powi(-self.power) } else { number * 10_f64.powi(self.power) }
    }

    /// So many times the number, to be read: exactly.
    pub fn text(&self, count: i64) -> String {
        let number = count * self.digit;
        let places = (-self.power).max(0) as usize;
        if places == 0 {
            return (number * 10_i64.pow(self.power as u32)).to_string();
        }
        let digits = format!("{:0width$}", number.unsigned_abs(), width = places + 1);
        let (whole, part) = digits.split_at(digits.len() - places);
        let text = format!("{}{whole}.{part}", if number < 0 { "-" } else { "" });
        text.trim_end_matches('0').trim_end_matches('.').into()
    }
}

#[cfg(test)]
mod tests {
    use super::*;

    #[test]
    fn the_greatest_below_a_length() {
        let text = |numerator, denominator| Round::at_most(numerator, denominator).text(1);
        assert_eq!([text(6, 1), text(5, 1), text(49, 10), text(1, 1), text(999, 1000)], ["5", "5", "2", "1", "0.5"]);
        assert_eq!([text(2048, 1), text(614, 1), text(3, 10240)], ["2000", "500", "0.0002"]);
    }

    #[test]
    fn multiples_between_two_ends() {
        let fifth = Round { digit: 2, power: -1 };
        assert_eq!(fifth.multiples(0, 1024, 1024), 0..=5);
        assert_eq!(fifth.multiples(-1, 1023, 1024), 0..=4);
        assert_eq!(fifth.multiples(-1025, -1, 1024), -5..=-1);
        assert!(fifth.multiples(1, 100, 1024).is_empty());
        assert_eq!(Round { digit: 5, power: 2 }.multiples(-600_000, 600_000, 1024), -1..=1);
    }

    #[test]
    fn multiples_are_exact() {
        let (fifth, two) = (Round { digit: 2, power: -1 }, Round { digit: 2, power: 2 });
        assert_eq!([0, 3, 5, 50, -1, -7].map(|n| fifth.text(n)), ["0", "0.6", "1", "10", "-0.2", "-1.4"]);
        assert_eq!([0, 3, -1].map(|n| two.text(n)), ["0", "600", "-200"]);
        assert_eq!((fifth.times(3), two.times(-1), Round { digit: 5, power: -3 }.times(2)), (0.6, -200.0, 0.01));
    }
}

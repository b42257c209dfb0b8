//! Document 01's fraction: exact, reduced, over 128 bits. A number that does not fit is a panic of its own kind, so that it is not
//! taken for one of the original's.

use std::cmp::Ordering;
use std::fmt;
use std::ops::{Add, Div, Mul, Neg, Sub};
use std::panic::panic_any;

use crate::Sign;

/// The panic of a fraction that does not fit 128 bits.
pub struct Overflow;

#[derive(Clone, Debug, PartialEq, Eq)]
pub struct Rational {
    numerator: i128,
    /// Above 0, and without a common divisor.
    denominator: i128,
}

fn fits(number: Option<i128>) -> i128 {
    number.unwrap_or_else(|| panic_any(Overflow))
}

fn times(a: i128, b: i128) -> i128 {
    fits(a.checked_mul(b))
}

/// The greatest common divisor; above 0 where one of the two is.
fn common(a: i128, b: i128) -> i128 {
    let (mut a, mut b) = (a.unsigned_abs(), b.unsigned_abs());
    while b != 0 {
        // Most numbers are short, and short divisions are quicker.
        if let (Ok(x), Ok(y)) = (u64::try_from(a), u64::try_from(b)) {
            (a, b) = (b, u128::from(x % y));
        } else {
            (a, b) = (b, a % b);
        }
    }
    fits(i128::try_from(a).ok())
}

impl Rational {
    /// The fraction, or nothing where the denominator is 0.
    fn new(numerator: i128, denominator: i128) -> Option<Self> {
        if denominator == 0 {
            return None;
        }
        let divisor = common(numerator, denominator) * denominator.signum();
        Some(Self { numerator: numerator / divisor, denominator: denominator / divisor })
    }

    pub fn from_ratio(numerator: i64, denominator: i64) -> Option<Self> {
        Self::new(numerator.into(), denominator.into())
    }

    pub fn from_i64(n: i64) -> Self {
        Self { numerator: n.into(), denominator: 1 }
    }

    pub fn zero() -> Self {
        Self::from_i64(0)
    }

    pub fn one() -> Self {
        Self::from_i64(1)
    }

    pub fn parts(&self) -> (i128, i128) {
        (self.numerator, self.denominator)
    }

    pub fn is_zero(&self) -> bool {
        self.numerator == 0
    }

    pub fn sign(&self) -> Sign {
        match self.numerator.cmp(&0) {
            Ordering::Less => Sign::Negative,
            Ordering::Equal => Sign::Zero,
            Ordering::Greater => Sign::Positive,
        }
    }

    pub fn abs(&self) -> Self {
        Self { numerator: fits(self.numerator.checked_abs()), denominator: self.denominator }
    }

    pub fn checked_div(&self, b: &Self) -> Option<Self> {
        Some(self * &Self::new(b.denominator, b.numerator)?)
    }

    /// The nearest double, ties to even, by one rounding. Neither an overflow nor a denormal is within 128 bits' reach.
    pub fn to_f64_nearest(&self) -> f64 {
        if self.is_zero() {
            return 0.0;
        }
        let over = self.denominator.unsigned_abs();
        let size = self.numerator.unsigned_abs();
        let (mut quotient, mut rest) = (size / over, size % over);
        let mut halvings = 0;
        // Long division, bit by bit, until the quotient has 55 bits: two more than a double.
        while quotient < 1 << 54 {
            rest <<= 1;
            let bit = rest >= over;
            quotient = quotient << 1 | u128::from(bit);
            rest -= if bit { over } else { 0 };
            halvings += 1;
        }
        // What is left only says whether a tie is one. The cast is the one rounding; the halvings are exact.
        let nearest = (quotient | u128::from(rest != 0)) as f64 * 0.5_f64.powi(halvings);
        if self.numerator < 0 { -nearest } else { nearest }
    }
}

impl Add for &Rational {
    type Output = Rational;
    fn add(self, b: Self) -> Rational {
        let shared = common(self.denominator, b.denominator);
        let (left, right) = (b.denominator / shared, self.denominator / shared);
        let sum = times(self.numerator, left).checked_add(times(b.numerator, right));
        Rational::new(fits(sum), times(self.denominator, left)).expect("denominators are above 0")
    }
}

impl Neg for &Rational {
    type Output = Rational;
    fn neg(self) -> Rational {
        Rational { numerator: fits(self.numerator.checked_neg()), denominator: self.denominator }
    }
}

impl Sub for &Rational {
    type Output = Rational;
    fn sub(self, b: Self) -> Rational {
        self + &-b
    }
}

impl Mul for &Rational {
    type Output = Rational;
    fn mul(self, b: Self) -> Rational {
        // Reduced crosswise first, so that no product is longer than it must be.
        let left = common(self.numerator, b.denominator);
        let right = common(b.numerator, self.denominator);
        Rational {
            numerator: times(self.numerator / left, b.numerator / right),
            denominator: times(self.denominator / right, b.denominator / left),
        }
    }
}

impl Div for &Rational {
    type Output = Rational;
    fn div(self, b: Self) -> Rational {
        self.checked_div(b).expect("a divisor that is not 0")
    }
}

impl Ord for Rational {
    fn cmp(&self, b: &Self) -> Ordering {
        times(self.numerator, b.denominator).cmp(&times(b.numerator, self.denominator))
    }
}

impl PartialOrd for Rational {
    fn partial_cmp(&self, b: &Self) -> Option<Ordering> {
        Some(self.cmp(b))
    }
}

impl fmt::Display for Rational {
    fn fmt(&self, f: &mut fmt::Formatter<'_>) -> fmt::Result {
        write!(f, "{}/{}", self.numerator, self.denominator)
    }
}

#[cfg(test)]
mod tests {
    use super::*;

    fn of(n: i64, d: i64) -> Rational {
        Rational::from_ratio(n, d).unwrap()
    }

    #[test]
    fn arithmetic_is_exact_and_reduced() {
        assert_eq!((&of(1, 6) + &of(1, 10)).parts(), (4, 15));
        assert_eq!((&of(1, 6) - &of(1, 6)).parts(), (0, 1));
        assert_eq!((&of(-2, 3) * &of(9, 4)).parts(), (-3, 2));
        assert_eq!((&of(2, 3) / &of(-4, 9)).parts(), (-3, 2));
        assert_eq!(of(6, -4).parts(), (-3, 2));
        assert_eq!(of(0, -4).parts(), (0, 1));
        assert!(Rational::from_ratio(1, 0).is_none());
        assert!(of(1, 3).checked_div(&Rational::zero()).is_none());
        assert!(of(-1, 3) < of(1, 1024));
        assert_eq!(of(-1, 3).abs(), of(1, 3));
        assert_eq!(of(-1, 3).sign(), Sign::Negative);
    }

    #[test]
    fn nearest_as_decimal_text_is_read() {
        // The library's reading of decimal text is one correct rounding too.
        let mut state = 1_u64;
        for _ in 0..20_000 {
            state = state.wrapping_mul(6364136223846793005).wrapping_add(1442695040888963407);
            let digits = (state >> 1) as i64 >> (state % 60);
            let places = (state >> 32) % 19;
            let fraction = of(-digits, 10_i64.pow(places as u32));
            let read: f64 = format!("-{digits}e-{places}").parse().unwrap();
            assert_eq!(fraction.to_f64_nearest(), read, "{fraction}");
        }
    }

    #[test]
    fn ties_go_to_even() {
        let two = 1_i64 << 53;
        assert_eq!(of(two + 1, 1).to_f64_nearest(), two as f64);
        assert_eq!(of(two + 3, 1).to_f64_nearest(), (two + 4) as f64);
        assert_eq!(of(two + 1, 1 << 60).to_f64_nearest(), 1.0 / 128.0);
        // A hair above the tie, too small for 128 bits of quotient to show.
        let above = Rational::new(((1_i128 << 53) + 1) * ((1 << 62) + 1), 1 << 62).unwrap();
        assert_eq!(above.to_f64_nearest(), (two + 2) as f64);
        assert_eq!(Rational::new(i128::MAX, 1).unwrap().to_f64_nearest(), 2.0_f64.powi(127));
        assert_eq!(Rational::new(1, i128::MAX).unwrap().to_f64_nearest(), 0.5_f64.powi(127));
    }

    #[test]
    fn what_does_not_fit_is_an_overflow() {
        let large = of(i64::MAX, 1);
        let cube = std::panic::catch_unwind(|| &(&large * &large) * &large);
        assert!(cube.unwrap_err().is::<Overflow>());
    }
}

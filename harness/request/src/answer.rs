//! An answer, its text, and when two answers are the same.

use crate::{Reported, Walked};
use std::fmt;

/// One value of an answer.
#[derive(Clone, Copy, Debug)]
pub enum Value {
    Double(f64),
    Number(i64),
    /// A numerator over a denominator above 0, reduced or not.
    Fraction(i128, i128),
}

/// What a side says to a request.
#[derive(Clone, Debug)]
pub enum Answer {
    Found(Vec<Value>),
    /// What a walk leaves, refused or not.
    Walked(Walked),
    /// What a layer report leaves, refused or not.
    Reported(Reported),
    None,
    Refused(u32),
    /// The original panicked.
    Panicked,
    /// The input cannot be made into the original's types.
    Unmade,
    /// The original is not at hand.
    Unavailable,
}

impl Value {
    /// Equal by bits, but for a zero's sign and for which NaN it is; fractions by value.
    fn same(&self, other: &Self) -> bool {
        match (*self, *other) {
            (Value::Double(a), Value::Double(b)) => a == b || a.is_nan() && b.is_nan(),
            (Value::Number(a), Value::Number(b)) => a == b,
            (Value::Fraction(a, b), Value::Fraction(c, d)) => {
                matches!((a.checked_mul(d), c.checked_mul(b)), (Some(x), Some(y)) if x == y)
            }
            _ => false,
        }
    }
}

impl Answer {
    pub fn number(n: i64) -> Self {
        Answer::Found(vec![Value::Number(n)])
    }

    pub fn doubles(row: impl IntoIterator<Item = f64>) -> Self {
        Answer::Found(row.into_iter().map(Value::Double).collect())
    }

    pub fn same(&self, other: &Self) -> bool {
        match (self, other) {
            (Answer::Found(a), Answer::Found(b)) => a.len() == b.len() && a.iter().zip(b).all(|(a, b)| a.same(b)),
            (Answer::Walked(a), Answer::Walked(b)) => a == b,
            (Answer::Reported(a), Answer::Reported(b)) => a == b,
            (Answer::Refused(a), Answer::Refused(b)) => a == b,
            (Answer::None, Answer::None) => true,
            _ => false,
        }
    }

    /// The number by which it is refused.
    pub fn refused(&self) -> Option<u32> {
        match self {
            Answer::Refused(n) => Some(*n),
            Answer::Walked(walked) => walked.refused(),
            Answer::Reported(reported) => reported.refused(),
            _ => None,
        }
    }

    /// The answer's case, and its number where it is refused: two answers that differ in their values alone are of one kind.
    pub fn kind(&self) -> (u8, u32) {
        if let Some(number) = self.refused() {
            return (2, number);
        }
        let case = match self {
            Answer::Found(_) | Answer::Walked(_) | Answer::Reported(_) => 0,
            Answer::None => 1,
            Answer::Refused(_) => 2,
            Answer::Panicked => 3,
            Answer::Unmade => 4,
            Answer::Unavailable => 5,
        };
        (case, 0)
    }
}

impl fmt::Display for Value {
    fn fmt(&self, f: &mut fmt::Formatter<'_>) -> fmt::Result {
        match *self {
            Value::Double(v) if v.is_nan() => write!(f, "7FF8000000000000"),
            Value::Double(v) => write!(f, "{:016X}", v.to_bits()),
            Value::Number(n) => write!(f, "{n}"),
            Value::Fraction(n, d) => write!(f, "{n}/{d}"),
        }
    }
}

impl fmt::Display for Answer {
    fn fmt(&self, f: &mut fmt::Formatter<'_>) -> fmt::Result {
        match self {
            Answer::Found(values) => {
                for (i, value) in values.iter().enumerate() {
                    let space = if i == 0 { "" } else { " " };
                    write!(f, "{space}{value}")?;
                }
                Ok(())
            }
            Answer::Walked(walked) => write!(f, "{walked}"),
            Answer::Reported(reported) => write!(f, "{reported}"),
            Answer::None => write!(f, "none"),
            Answer::Refused(n) => write!(f, "refused {n}"),
            Answer::Panicked => write!(f, "panicked"),
            Answer::Unmade => write!(f, "unmade"),
            Answer::Unavailable => write!(f, "unavailable"),
        }
    }
}

#[cfg(test)]
mod tests {
    use super::*;

    #[test]
    fn text() {
        assert_eq!(Answer::doubles([1.0, -0.0]).to_string(), "3FF0000000000000 8000000000000000");
        assert_eq!(Answer::doubles([-f64::NAN]).to_string(), "7FF8000000000000");
        assert_eq!(Answer::Refused(10).to_string(), "refused 10");
        assert_eq!(Answer::None.to_string(), "none");
        let planes = vec![Value::Number(2), Value::Fraction(-5, 1), Value::Fraction(7, 1)];
        assert_eq!(Answer::Found(planes).to_string(), "2 -5/1 7/1");
    }

    #[test]
    fn same_but_for_a_zeros_sign_and_unreduced() {
        assert!(Answer::doubles([0.0, f64::NAN]).same(&Answer::doubles([-0.0, -f64::NAN])));
        assert!(!Answer::doubles([1.0]).same(&Answer::doubles([1.0_f64.next_up()])));
        assert!(!Answer::doubles([1.0]).same(&Answer::doubles([1.0, 1.0])));
        let fraction = |n, d| Answer::Found(vec![Value::Fraction(n, d)]);
        assert!(fraction(-4, 4).same(&fraction(-1, 1)));
        assert!(!fraction(4, 3).same(&fraction(1, 1)));
        assert!(!Answer::Refused(2).same(&Answer::Refused(3)));
        assert!(!Answer::Unmade.same(&Answer::Unmade));
    }
}

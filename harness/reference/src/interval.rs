//! Document 01's interval stand-in with document 02's L2: two doubles, and operations that step their ends outward. An end of a sum
//! or a difference stays where it is exact, and the rounding error says so; every other operation steps always.

use crate::Rational;
use std::ops::{Add, Div, Mul, Neg, Sub};

#[derive(Clone, Copy, Debug)]
pub struct Interval {
    lo: f64,
    hi: f64,
}

/// Of a product, a quotient or a fraction: "the least is stepped to the next double below and the greatest to the next above, always".
fn outward<const N: usize>(candidates: [f64; N]) -> Interval {
    assert!(candidates.iter().all(|v| !v.is_nan()), "a candidate is a NaN");
    let least = candidates.into_iter().fold(f64::INFINITY, f64::min);
    let greatest = candidates.into_iter().fold(f64::NEG_INFINITY, f64::max);
    Interval { lo: least.next_down(), hi: greatest.next_up() }
}

/// The exact a + b less the rounded one, by Knuth's two-sum. It is zero for an exact sum and for no other. In an exact sum no
/// operation here is rounded; in another the error is itself a double, and is found exactly, unless an operation overflows or an
/// end is infinite, and then the answer is infinite or a NaN.
fn rounding_error(a: f64, b: f64) -> f64 {
    let rounded = a + b;
    let a_part = rounded - b;
    let b_part = rounded - a_part;
    (a - a_part) + (b - b_part)
}

/// Document 02, L2: "A sum or difference whose rounded end equals the exact end is no longer stepped at that end."
fn end_of_sum(a: f64, b: f64, stepped: fn(f64) -> f64) -> f64 {
    let rounded = a + b;
    assert!(!rounded.is_nan(), "a candidate is a NaN");
    if rounding_error(a, b) == 0.0 { rounded } else { stepped(rounded) }
}

impl Interval {
    /// No interval has a NaN, or a low end above its high end.
    pub fn new(lo: f64, hi: f64) -> Option<Self> {
        (lo <= hi).then_some(Self { lo, hi })
    }

    pub fn point(v: f64) -> Option<Self> {
        Self::new(v, v)
    }

    /// The fraction's nearest double, stepped both ways.
    pub fn from_rational(r: &Rational) -> Self {
        outward([r.to_f64_nearest()])
    }

    pub fn lo(&self) -> f64 {
        self.lo
    }

    pub fn hi(&self) -> f64 {
        self.hi
    }

    pub fn mid(&self) -> f64 {
        self.lo * 0.5 + self.hi * 0.5
    }

    /// "The product with itself."
    pub fn square(self) -> Self {
        self * self
    }
}

macro_rules! operations {
    ($($operation:ident $name:ident |$a:ident, $b:ident| $candidates:expr;)*) => {
        $(impl $operation for Interval {
            type Output = Self;
            fn $name(self, $b: Self) -> Self {
                let $a = self;
                outward($candidates)
            }
        })*
    };
}

operations! {
    Mul mul |a, b| [a.lo * b.lo, a.lo * b.hi, a.hi * b.lo, a.hi * b.hi];
    Div div |a, b| [a.lo / b.lo, a.lo / b.hi, a.hi / b.lo, a.hi / b.hi];
}

impl Add for Interval {
    type Output = Self;
    fn add(self, o: Self) -> Self {
        Self { lo: end_of_sum(self.lo, o.lo, f64::next_down), hi: end_of_sum(self.hi, o.hi, f64::next_up) }
    }
}

impl Sub for Interval {
    type Output = Self;
    fn sub(self, o: Self) -> Self {
        Self { lo: end_of_sum(self.lo, -o.hi, f64::next_down), hi: end_of_sum(self.hi, -o.lo, f64::next_up) }
    }
}

/// Swaps the ends; exact.
impl Neg for Interval {
    type Output = Self;
    fn neg(self) -> Self {
        Self { lo: -self.hi, hi: -self.lo }
    }
}

#[cfg(test)]
mod tests {
    use super::*;

    const LEAST: f64 = f64::from_bits(1);

    /// The pairs of doubles by chance.
    const PAIRS: u32 = 200_000;

    fn of(lo: f64, hi: f64) -> Interval {
        Interval::new(lo, hi).unwrap()
    }

    fn ends(i: Interval) -> (f64, f64) {
        (i.lo, i.hi)
    }

    #[test]
    fn refused() {
        assert!(Interval::new(1.0, 0.0).is_none());
        assert!(Interval::new(f64::NAN, 0.0).is_none());
        assert!(Interval::new(0.0, f64::NAN).is_none());
        assert!(Interval::point(f64::NAN).is_none());
        assert!(Interval::new(0.0, -0.0).is_some());
        assert!(Interval::new(f64::NEG_INFINITY, f64::INFINITY).is_some());
    }

    #[test]
    fn steps_at_special_doubles() {
        let stepped = |v| ends(outward([v]));
        assert_eq!(stepped(0.0), (-LEAST, LEAST));
        assert_eq!(stepped(-0.0), (-LEAST, LEAST));
        assert_eq!(stepped(LEAST), (0.0, 2.0 * LEAST));
        assert_eq!(stepped(-LEAST), (-2.0 * LEAST, 0.0));
        let normal = f64::MIN_POSITIVE;
        assert_eq!(stepped(normal), (normal - LEAST, normal + LEAST));
        assert_eq!(stepped(1.0), (1.0 - f64::EPSILON / 2.0, 1.0 + f64::EPSILON));
        assert_eq!(stepped(f64::MAX).1, f64::INFINITY);
        assert_eq!(stepped(f64::INFINITY), (f64::MAX, f64::INFINITY));
        assert_eq!(stepped(f64::NEG_INFINITY), (f64::NEG_INFINITY, f64::MIN));
    }

    fn point(v: f64) -> Interval {
        of(v, v)
    }

    #[test]
    fn exact_ends_of_sums_stay() {
        assert_eq!(ends(point(1.0) + point(2.0)), (3.0, 3.0));
        assert_eq!(ends(of(1.0, 2.0) - of(3.0, 5.0)), (-4.0, -1.0));
        let third = point(1.0 / 3.0);
        assert_eq!(ends(third + point(0.0)), ends(third));
        assert_eq!(ends(point(0.0) - third), ends(-third));
        assert_eq!(ends(third - third), (0.0, 0.0));
        assert_eq!(ends(point(LEAST) + of(-LEAST, LEAST)), (0.0, 2.0 * LEAST));
        let last = f64::MAX - f64::MAX.next_down();
        assert_eq!(ends(point(f64::MAX.next_down()) + point(last)), (f64::MAX, f64::MAX));
    }

    #[test]
    fn rounded_ends_of_sums_are_stepped() {
        let tenths: f64 = 0.1 + 0.2;
        assert_eq!(ends(point(0.1) + point(0.2)), (tenths.next_down(), tenths.next_up()));
        assert_eq!(ends(point(0.1) - point(-0.2)), (tenths.next_down(), tenths.next_up()));
        // Each end by itself, and one that was rounded outward already.
        assert_eq!(ends(of(-LEAST, 1.0) + point(1.0)), (1.0_f64.next_down(), 2.0));
        assert_eq!(ends(of(LEAST, 1.0) + point(1.0)), (1.0_f64.next_down(), 2.0));
        assert_eq!(ends(point(1.0) - of(-LEAST, 0.0)), (1.0, 1.0_f64.next_up()));
    }

    #[test]
    fn infinite_ends_of_sums_are_stepped() {
        const INFINITE: f64 = f64::INFINITY;
        let [largest, infinite] = [f64::MAX, INFINITE].map(point);
        assert_eq!(ends(largest + largest), (f64::MAX, INFINITE));
        assert_eq!(ends(-largest - largest), (-INFINITE, f64::MIN));
        assert_eq!(ends(of(1.0, INFINITE) + point(2.0)), (3.0, INFINITE));
        assert_eq!(ends(infinite + point(2.0)), (f64::MAX, INFINITE));
        assert_eq!(ends(-infinite - of(2.0, INFINITE)), (-INFINITE, f64::MIN));
    }

    #[test]
    fn all_else_is_always_stepped() {
        assert_eq!(ends(point(1.0) * point(3.0)), (3.0_f64.next_down(), 3.0_f64.next_up()));
        assert_eq!(ends(point(6.0) / point(2.0)), (3.0_f64.next_down(), 3.0_f64.next_up()));
        assert_eq!(ends(Interval::from_rational(&Rational::zero())), (-LEAST, LEAST));
    }

    /// A finite double as a whole number of least doubles, in two's complement from the lowest word up.
    fn counted(v: f64) -> [u64; 34] {
        let exponent = (v.to_bits() >> 52) as usize & 0x7FF;
        let fraction = v.to_bits() & ((1 << 52) - 1);
        let (digits, shift) = if exponent == 0 { (fraction, 0) } else { (fraction | 1 << 52, exponent - 1) };
        let shifted = u128::from(digits) << (shift % 64);
        let mut out = [0; 34];
        out[shift / 64] = shifted as u64;
        out[shift / 64 + 1] = (shifted >> 64) as u64;
        if v.is_sign_negative() { total(out.map(|word| !word), counted(LEAST)) } else { out }
    }

    fn total(a: [u64; 34], b: [u64; 34]) -> [u64; 34] {
        let mut carry = 0;
        std::array::from_fn(|i| {
            let sum = u128::from(a[i]) + u128::from(b[i]) + carry;
            carry = sum >> 64;
            sum as u64
        })
    }

    fn is_exact(a: f64, b: f64) -> bool {
        let rounded = a + b;
        rounded.is_finite() && counted(rounded) == total(counted(a), counted(b))
    }

    fn check(a: f64, b: f64) -> bool {
        let exact = is_exact(a, b);
        assert_eq!(rounding_error(a, b) == 0.0, exact, "{:016X} {:016X}", a.to_bits(), b.to_bits());
        exact
    }

    #[test]
    fn counted_doubles() {
        let [one, none] = [counted(LEAST), counted(0.0)];
        assert_eq!(none, [0; 34]);
        assert_eq!(counted(-0.0), none);
        assert_eq!(one[0], 1);
        assert_eq!(counted(-LEAST), [u64::MAX; 34]);
        assert_eq!(total(one, counted(-LEAST)), none);
        assert_eq!(counted(f64::MIN_POSITIVE)[0], 1 << 52);
        assert_eq!(counted(1.0), std::array::from_fn(|i| if i == 1074 / 64 { 1 << (1074 % 64) } else { 0 }));
        assert_eq!(counted(f64::MAX)[31..], [0b111 << 61, (1 << 50) - 1, 0]);
    }

    #[test]
    fn the_error_tells_exact_sums_at_every_edge() {
        let sizes = (0..2047).step_by(93).chain([1, 2, 52, 53, 54, 1022, 1023, 1024, 2044, 2045, 2046]);
        let fractions = [0, 1, 2, 3, 1 << 51, (1 << 51) + 1, (1 << 52) - 3, (1 << 52) - 2, (1 << 52) - 1];
        let mut edges: Vec<f64> = sizes.flat_map(|e| fractions.map(|f| f64::from_bits(e << 52 | f))).collect();
        edges.push(f64::INFINITY);
        for a in &edges {
            for b in &edges {
                check(*a, *b);
                check(*a, -b);
                check(-a, *b);
                check(-a, -b);
            }
        }
        assert!([f64::NAN, 1.0, f64::INFINITY].iter().all(|v| rounding_error(f64::NAN, *v).is_nan()));
    }

    #[test]
    fn the_error_tells_exact_sums_by_chance() {
        let mut state = 1_u64;
        let mut bits = || {
            state = state.wrapping_mul(6364136223846793005).wrapping_add(1442695040888963407);
            (state ^ state >> 32).wrapping_mul(0x9E3779B97F4A7C15) >> 11
        };
        let mut exact = 0;
        for _ in 0..PAIRS {
            // Digits of any length, and exponents near each other.
            let mut digits = || (bits() >> 1 & ((1 << 52) - 1)) >> (bits() % 53) << (bits() % 53) & ((1 << 52) - 1);
            let [a, b] = [digits(), digits()];
            let first = bits() % 2047;
            let second = (first + bits() % 121).saturating_sub(60).min(2046);
            let sign = (bits() % 2) << 63;
            exact += u32::from(check(f64::from_bits(first << 52 | a), f64::from_bits(sign | second << 52 | b)));
        }
        assert!((PAIRS / 8..PAIRS / 8 * 7).contains(&exact), "{exact} of {PAIRS} are exact");
    }

    #[test]
    fn operations() {
        let square = of(-1.0, 1.0).square();
        assert_eq!(ends(square), ((-1.0_f64).next_down(), 1.0_f64.next_up()));
        let product = of(-2.0, 3.0) * of(-5.0, 7.0);
        assert_eq!(ends(product), ((-15.0_f64).next_down(), 21.0_f64.next_up()));
        let quotient = of(1.0, 4.0) / of(-2.0, -1.0);
        assert_eq!(ends(quotient), ((-4.0_f64).next_down(), (-0.5_f64).next_up()));
        assert_eq!(ends(-of(-1.0, 2.0)), (-2.0, 1.0));
    }

    #[test]
    #[should_panic(expected = "a candidate is a NaN")]
    fn a_nan_candidate() {
        let _ = of(0.0, f64::INFINITY) * of(0.0, 1.0);
    }

    #[test]
    #[should_panic(expected = "a candidate is a NaN")]
    fn a_nan_end_of_a_sum() {
        let _ = point(f64::INFINITY) - point(f64::INFINITY);
    }
}

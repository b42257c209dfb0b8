//! What the original takes from its metric: a precision, which the stand-ins do not need, and two operations on doubles by name.

pub const PRECISION: u32 = 192;

pub trait Scalar {
    fn add(&self, b: &Self) -> Self;
    fn mul(&self, b: &Self) -> Self;
}

impl Scalar for f64 {
    fn add(&self, b: &Self) -> Self {
        self + b
    }

    fn mul(&self, b: &Self) -> Self {
        self * b
    }
}

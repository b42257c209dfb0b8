//! What document 01 leaves of the original's balls: π, doubled to `two_pi`, which is given by its bits, and `wave`, the product of
//! `two_pi` and `turns` as intervals.

use crate::{Interval, Rational};
use std::ops::{Add, Mul};

#[derive(Clone, Copy, Debug)]
pub enum Ball {
    /// π itself, which no call asks for but to double it.
    Pi,
    Enclosed(Interval),
}

/// The doubles on either side of 2π.
pub const TWO_PI: [u64; 2] = [0x401921FB54442D18, 0x401921FB54442D19];

impl Ball {
    pub fn pi(_precision: u32) -> Self {
        Ball::Pi
    }

    pub fn from_rational(r: &Rational, _precision: u32) -> Self {
        Ball::Enclosed(Interval::from_rational(r))
    }

    pub fn to_interval(&self) -> Interval {
        match self {
            Ball::Enclosed(interval) => *interval,
            Ball::Pi => unreachable!("π alone is out of scope"),
        }
    }
}

impl Add for &Ball {
    type Output = Ball;
    fn add(self, b: Self) -> Ball {
        match (self, b) {
            (Ball::Pi, Ball::Pi) => {
                let [lo, hi] = TWO_PI.map(f64::from_bits);
                Ball::Enclosed(Interval::new(lo, hi).expect("the bits are in order"))
            }
            _ => unreachable!("no other sum of balls is in scope"),
        }
    }
}

impl Mul for &Ball {
    type Output = Ball;
    fn mul(self, b: Self) -> Ball {
        Ball::Enclosed(self.to_interval() * b.to_interval())
    }
}

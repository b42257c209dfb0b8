//! What only the original's functions outside document 01's scope need. They are compiled and never run.

use crate::{Ball, Decider, Rational, Refusal, Sign};
use std::ops::{Add, Mul, Sub};

#[derive(Clone, Debug)]
pub struct Real;

pub struct Isometry;

pub struct RPoint3 {
    pub x: Rational,
    pub y: Rational,
    pub z: Rational,
}

pub struct Vector3 {
    pub x: Real,
    pub y: Real,
    pub z: Real,
}

/// Functions that are never run.
macro_rules! never {
    ($($name:ident($($argument:ty),*) -> $out:ty;)*) => {
        $(pub fn $name($(_: $argument),*) -> $out {
            unreachable!("out of document 01's scope")
        })*
    };
}

/// Operations that are never run.
macro_rules! never_operations {
    ($($operation:ident $name:ident $kind:ty;)*) => {
        $(impl $operation for &$kind {
            type Output = $kind;
            fn $name(self, _: Self) -> $kind {
                unreachable!("out of document 01's scope")
            }
        })*
    };
}

never! { sin_cos_degrees(&Rational, &mut Decider) -> Result<[Real; 2], Refusal>; }

pub mod geometry {
    use super::*;

    never! { sign(&Real, &mut Decider) -> Result<Sign, Refusal>; }
}

impl Real {
    never! { zero() -> Self; }
}

impl From<Rational> for Real {
    fn from(_: Rational) -> Self {
        unreachable!("out of document 01's scope")
    }
}

never_operations! {
    Add add Real;
    Sub sub Real;
    Mul mul Real;
    Sub sub Ball;
}

/// Methods, written on a reference in place of `self`.
macro_rules! never_methods {
    ($kind:ty: $($name:ident($($argument:ty),*) -> $out:ty;)*) => {
        impl $kind {
            $(pub fn $name(&self, $(_: $argument),*) -> $out {
                unreachable!("out of document 01's scope")
            })*
        }
    };
}

never_methods! { Ball:
    sin() -> Self;
    cos() -> Self;
    sqrt() -> Option<Self>;
    checked_div(&Self) -> Option<Self>;
    lo() -> Rational;
    hi() -> Rational;
}

never_methods! { Decider: enclose(&Real, &Rational) -> Result<Ball, Refusal>; }

never_methods! { Rational: mul_pow2(i64) -> Self; }

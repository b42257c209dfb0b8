//! Plain records: a description's entries as the original takes them, and a refusal, which is its code.

use crate::Rational;

/// An entry.
#[derive(Clone, Debug, PartialEq, Eq)]
pub struct Number(pub Rational);

impl Number {
    pub fn value(&self) -> &Rational {
        &self.0
    }
}

#[derive(Clone, Debug, PartialEq, Eq)]
pub struct Triple(pub [Number; 3]);

/// By value, as the original matches it.
#[allow(clippy::large_enum_variant)]
#[derive(Clone, Debug)]
pub enum Grade {
    Constant(Number),
    Linear { from: Triple, to: Triple, start: Number, end: Number },
    Distance {},
}

#[derive(Clone, Copy, Debug, PartialEq, Eq)]
pub enum GyroidKind {
    Network,
    Sheet,
}

/// The frame.
#[derive(Clone, Debug)]
pub struct Pose {
    /// w, x, y, z.
    pub rotation: [Number; 4],
    pub translation: Triple,
}

#[derive(Clone, Copy, Debug, PartialEq, Eq)]
pub enum Sign {
    Negative,
    Zero,
    Positive,
}

#[derive(Clone, Copy, Debug, PartialEq, Eq)]
pub enum Location {
    Inside,
    Boundary,
    Outside,
    Indeterminate,
}

#[derive(Clone, Debug)]
pub struct Refusal {
    pub code: &'static str,
}

impl Refusal {
    pub fn new(code: &'static str, _text: impl AsRef<str>) -> Self {
        Self { code }
    }

    pub fn with_code(self, code: &'static str) -> Self {
        Self { code }
    }
}

/// "Deadline checks are left out": there is time without end.
pub struct Decider;

impl Decider {
    pub fn check_deadline(&mut self) -> Result<(), Refusal> {
        Ok(())
    }
}

//! The original Rust, compiled whole and unchanged over stand-ins that are written from document 01's words, the sums of intervals
//! from document 02's, and asked by request. Beside it stands the primitive surface, a port of document 02's lines over the
//! original's `turn` and levels.
//!
//! Its two files are fetched when this crate is built; they are no part of this repository. Where they are missing the crate still
//! builds, and every answer is `Unavailable`.

// The names under which the original imports what it rests on.
extern crate self as catallax_numbers;
extern crate self as catallax_recipe;
extern crate self as catallax_shapes;

mod ball;
mod interval;
pub mod lattice;
pub mod metric;
mod out_of_scope;
#[cfg(original)]
mod quiet;
mod rational;
mod records;

pub use ball::Ball;
pub use interval::Interval;
pub use out_of_scope::{Isometry, RPoint3, Real, Vector3, geometry, sin_cos_degrees};
pub use rational::{Overflow, Rational};
pub use records::{Decider, Grade, GyroidKind, Location, Number, Pose, Refusal, Sign, Triple};

use request::{Answer, Request};

/// Only the functions that document 01 names are asked; the others are compiled with them.
#[cfg(original)]
#[allow(dead_code)]
mod grade {
    include!(concat!(env!("OUT_DIR"), "/grade.rs"));
}

#[cfg(original)]
#[allow(dead_code)]
mod gyroid {
    include!(concat!(env!("OUT_DIR"), "/gyroid.rs"));

    pub(crate) mod access;
    mod field;
    mod ported;
    mod surfaces;
}

/// Whether the original is compiled in.
pub const AT_HAND: bool = cfg!(original);

/// Where the original's files were looked for, in words.
pub const MISSING: &str = "crates/catallax-field/src/{gyroid,grade}.rs.txt are neither in ../shared/docs/src \
     nor in the directory that GYROID_ORIGINAL names";

#[cfg(original)]
pub use gyroid::access::Leaf;

/// There is no leaf where the original is not at hand.
#[cfg(not(original))]
pub enum Leaf {}

#[cfg(not(original))]
impl Leaf {
    pub fn new(_: &request::Description) -> Option<Self> {
        None
    }

    pub fn state(&self, _: &[i64; 6]) -> u32 {
        match *self {}
    }
}

#[cfg(original)]
fn caught(request: &Request, ask: fn(&Request) -> Answer) -> Answer {
    match quiet::caught(|| ask(request)) {
        Ok(answer) => answer,
        Err(payload) if payload.is::<Overflow>() => Answer::Unmade,
        Err(_) => Answer::Panicked,
    }
}

/// The original's own answer to a request; about the primitive surface document 02's. It has no walk.
#[cfg(original)]
pub fn answer(request: &Request) -> Answer {
    caught(request, gyroid::access::answer)
}

/// The answer about the network by the code that answers for the primitive surface, to hold that against the original.
#[cfg(original)]
pub fn ported(request: &Request) -> Answer {
    caught(request, gyroid::access::ported)
}

/// The original is not at hand.
#[cfg(not(original))]
pub fn answer(_: &Request) -> Answer {
    Answer::Unavailable
}

/// The original is not at hand.
#[cfg(not(original))]
pub fn ported(_: &Request) -> Answer {
    Answer::Unavailable
}

#[cfg(test)]
mod tests;

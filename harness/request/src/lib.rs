//! What both sides of the comparison speak: a request to one of the public calls, and its answer, each a line of text.
//! A request is about a description, or, for a layer report, about a table.

mod answer;
mod call;
mod layers;
mod line;
mod walked;

pub use answer::{Answer, Value};
pub use call::{Call, Shape};
pub use layers::{LAYER, LayerRequest, Reported};
pub use walked::{SLOT, Walked, unwritten};

/// The entries of a description, in document 01's order.
pub type Description = [i64; 18];

/// A call on a description and all that it takes. Entries that the call does not take are zero.
#[derive(Clone, Copy, Debug, PartialEq)]
pub struct Request {
    pub call: Call,
    pub description: Description,
    /// A box of whole ticks: three lows, then three highs.
    pub whole: [i64; 6],
    /// A box (low and high end of x, of y, of z), three corners (each as a box), or a point.
    pub doubles: [f64; 18],
    pub piece: u32,
    pub depth: i64,
    /// The tie rule of a walk: 0 the default, ties to the grade axis; 1 the lowest axis. Any other is refused.
    pub rule: u32,
    /// The length of the table that a walk is lent, in bytes.
    pub table: usize,
}

impl Request {
    pub fn new(call: Call, description: Description) -> Self {
        Self { call, description, whole: [0; 6], doubles: [0.0; 18], piece: 0, depth: 0, rule: 0, table: 0 }
    }

    /// The doubles that the call takes.
    pub fn doubles(&self) -> &[f64] {
        &self.doubles[..self.call.shape().doubles()]
    }

    /// The whole numbers of the box that the call takes.
    pub fn whole(&self) -> &[i64] {
        &self.whole[..self.call.shape().whole()]
    }
}

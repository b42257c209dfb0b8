//! A box in parts that can be walked apart. A box of the tree is halved by walking it one step deep, so that the library
//! alone says whether and where; "Each half is walked as a box of its own, with one depth fewer" (document 01).

use crate::order::Order;
use gyroid_cells::{Bounds, Cell, Refusal, SLOT, State, walk};

/// A place of the tree, in walk order: a cell, or a box that is still to be walked.
#[derive(Clone, Copy)]
pub enum Part {
    Cell(Cell),
    Unwalked { bounds: Bounds, depth: u8 },
}

/// The parts of a box in walk order, and how many boxes were halved to make them.
pub struct Parts {
    pub parts: Vec<Part>,
    pub halved: u32,
}

/// How many parts to be walked are enough to keep so many threads busy to the end. Each part costs a little: what the library
/// remembers of the sides of boxes, it remembers for one call.
fn enough(threads: usize) -> usize {
    (16 * threads).max(64)
}

/// Whether the library accepts an order. In a table without a slot any walk that it accepts is refused by 13, at its
/// first cell.
fn accepted(order: &Order) -> Result<(), Refusal> {
    match walk(&order.description, order.bounds, order.depth, order.rule, &mut []) {
        Err(refusal) if refusal.number() != 13 => Err(refusal),
        _ => Ok(()),
    }
}

impl Parts {
    pub fn of(order: &Order, threads: usize) -> Result<Self, Refusal> {
        accepted(order)?;
        let root = Part::Unwalked { bounds: order.bounds, depth: 0 };
        let mut parts = Self { parts: vec![root], halved: 0 };
        // Every round is one halving further down, so that each has one left.
        for _ in 0..order.depth {
            if !(1..enough(threads)).contains(&parts.unwalked()) {
                break;
            }
            parts = parts.stepped(order)?;
        }
        Ok(parts)
    }

    fn unwalked(&self) -> usize {
        self.parts.iter().filter(|part| matches!(part, Part::Unwalked { .. })).count()
    }

    /// Each part that is not walked by its halves, or by itself where it is a cell.
    fn stepped(self, order: &Order) -> Result<Self, Refusal> {
        let mut next = Self { parts: Vec::with_capacity(2 * self.parts.len()), halved: self.halved };
        for part in self.parts {
            match part {
                Part::Cell(_) => next.parts.push(part),
                Part::Unwalked { bounds, depth } => next.step(order, bounds, depth)?,
            }
        }
        Ok(next)
    }

    fn step(&mut self, order: &Order, bounds: Bounds, depth: u8) -> Result<(), Refusal> {
        let left = order.depth - i64::from(depth);
        let mut bytes = [0; 3 * SLOT];
        let table = walk(&order.description, bounds, 1, order.rule, &mut bytes)?;
        self.halved += u32::from(table.len() == 2);
        for cell in &table {
            let depth = depth + cell.depth;
            let whole = cell.state != State::Unsettled || cell.depth == 0 || left == 1;
            self.parts.push(match whole {
                true => Part::Cell(Cell { depth, ..cell }),
                false => Part::Unwalked { bounds: cell.bounds, depth },
            });
        }
        Ok(())
    }
}

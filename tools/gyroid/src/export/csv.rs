//! Cells as lines of text with commas: slot, state in words, depth, and the box in ticks.

use super::chosen::Chosen;
use crate::kept::Kept;
use gyroid_cells::{Cell, SLOT};
use std::io::{self, Write};
use std::iter::successors;

const HEAD: &str = "slot,state,depth,low_x,low_y,low_z,high_x,high_y,high_z";

/// The chosen cells in the chain's order, a line each.
pub fn write(kept: &Kept, chosen: &Chosen, to: &mut dyn Write) -> io::Result<()> {
    writeln!(to, "{HEAD}")?;
    for (slot, cell) in slots(kept).zip(kept.cells()).filter(|(_, cell)| chosen.has(cell)) {
        let Cell { state, depth, bounds } = cell;
        let ([lx, ly, lz], [hx, hy, hz]) = (bounds.low, bounds.high);
        writeln!(to, "{slot},{state},{depth},{lx},{ly},{lz},{hx},{hy},{hz}")?;
    }
    Ok(())
}

/// The slots along the chain. A slot begins with the number of the next one; 0 ends the chain.
fn slots(kept: &Kept) -> impl Iterator<Item = u32> {
    let linked = |slot: u32| Some(slot).filter(|slot| *slot != 0);
    let next = move |slot: &u32| {
        let link = kept.bytes().get(*slot as usize * SLOT..)?.first_chunk()?;
        linked(u32::from_le_bytes(*link))
    };
    successors(linked(kept.table().head().first), next)
}

//! Parts that were walked apart, joined to one table: the cells in walk order, in slots 1, 2, .., each naming the next,
//! with the halvings that led to the part added to their depths; the head has the sums.

use super::parts::Part;
use gyroid_cells::{Cell, Head, SLOT, State};
use std::thread;

/// The cells of a part as their records stand in a table, and what its head says.
pub struct WalkedPart {
    depth: u8,
    records: Vec<u8>,
    cells: usize,
    evaluated: u32,
    solid: u64,
    open: u64,
}

impl WalkedPart {
    /// A cell is walked as it is; a part that is to be walked has no cells until then.
    pub fn of(part: &Part) -> Self {
        match part {
            Part::Cell(cell) => Self::cell(cell),
            Part::Unwalked { .. } => Self { depth: 0, records: Vec::new(), cells: 0, evaluated: 0, solid: 0, open: 0 },
        }
    }

    fn cell(cell: &Cell) -> Self {
        let volume = cell.bounds.volume().expect("a cell's spans are 1 or more");
        let (solid, open) = if cell.state == State::Inside { (volume, 0) } else { (0, volume) };
        Self { depth: 0, records: record(cell).into(), cells: 1, evaluated: 1, solid, open }
    }

    /// A part at a depth, by its table's head and the records of its cells.
    pub fn new(head: Head, depth: u8, records: &[u8]) -> Self {
        let Head { cells, evaluated, solid, open, .. } = head;
        Self { depth, records: records.into(), cells: cells as usize, evaluated, solid, open }
    }

    pub fn cells(&self) -> usize {
        self.cells
    }

    /// In tick cubes.
    pub fn volume(&self) -> u64 {
        self.solid + self.open
    }

    /// Writes the cells' records; the first stands in the slot `first`.
    fn put(&self, slots: &mut [u8], first: usize) {
        slots.copy_from_slice(&self.records);
        for (i, slot) in slots.chunks_exact_mut(SLOT).enumerate() {
            slot[..4].copy_from_slice(&((first + i + 1) as u32).to_le_bytes());
            slot[5] += self.depth;
        }
    }
}

/// A cell's record, but for the slot of the next cell.
fn record(cell: &Cell) -> [u8; SLOT] {
    let mut record = [0; SLOT];
    record[4] = cell.state as u8;
    record[5] = cell.depth;
    for (i, end) in cell.bounds.low.into_iter().chain(cell.bounds.high).enumerate() {
        record[8 + 4 * i..][..4].copy_from_slice(&(end as i32).to_le_bytes());
    }
    record
}

/// The table of the parts, which so many boxes were halved to make.
pub fn joined(walked: &[WalkedPart], halved: u32, threads: usize) -> Vec<u8> {
    let cells: usize = walked.iter().map(WalkedPart::cells).sum();
    let mut table = vec![0; (cells + 1) * SLOT];
    let (head, slots) = table.split_at_mut(SLOT);
    let evaluated = halved + walked.iter().map(|part| part.evaluated).sum::<u32>();
    head[0] = 1;
    head[4..8].copy_from_slice(&(cells as u32).to_le_bytes());
    head[8..12].copy_from_slice(&evaluated.to_le_bytes());
    head[12..20].copy_from_slice(&walked.iter().map(|part| part.solid).sum::<u64>().to_le_bytes());
    head[20..28].copy_from_slice(&walked.iter().map(|part| part.open).sum::<u64>().to_le_bytes());
    put_all(walked, slots, cells.div_ceil(threads));
    // The last cell ends the chain.
    table[cells * SLOT..][..4].fill(0);
    table
}

/// Each thread writes a run of parts.
fn put_all(walked: &[WalkedPart], slots: &mut [u8], share: usize) {
    thread::scope(|scope| {
        let (mut slots, mut first) = (slots, 1);
        for run in runs(walked, share) {
            let cells: usize = run.iter().map(WalkedPart::cells).sum();
            let (here, behind) = slots.split_at_mut(cells * SLOT);
            scope.spawn(move || put_run(run, here, first));
            (slots, first) = (behind, first + cells);
        }
    });
}

/// The parts in runs of so many cells or, but for the last, more.
fn runs(walked: &[WalkedPart], share: usize) -> Vec<&[WalkedPart]> {
    let (mut runs, mut start, mut cells) = (Vec::new(), 0, 0);
    for (place, part) in walked.iter().enumerate() {
        cells += part.cells;
        if cells >= share || place + 1 == walked.len() {
            runs.push(&walked[start..=place]);
            (start, cells) = (place + 1, 0);
        }
    }
    runs
}

/// Parts one after the other; the first cell stands in the slot `first`.
fn put_run(walked: &[WalkedPart], slots: &mut [u8], first: usize) {
    let (mut slots, mut first) = (slots, first);
    for part in walked {
        let (here, behind) = slots.split_at_mut(part.records.len());
        part.put(here, first);
        (slots, first) = (behind, first + part.cells);
    }
}

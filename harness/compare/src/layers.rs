//! The layer report of document 02 in plain Rust, from its words: a table is read whole, and every layer is added up for
//! itself.

use crate::entries::TICKS;
use crate::walk::{Bounds, spans, volume};
use request::{Answer, LAYER, LayerRequest, Reported, SLOT, unwritten};
use std::collections::BTreeSet;

/// What a cell's slot says.
pub struct Cell {
    pub next: u32,
    pub state: u8,
    depth: u8,
    pub bounds: Bounds,
}

/// The slot of this number, where it is inside the buffer.
fn slot(table: &[u8], number: u32) -> Option<&[u8]> {
    table.chunks_exact(SLOT).nth(number as usize)
}

fn word(slot: &[u8], at: usize) -> [u8; 4] {
    slot[at..][..4].try_into().expect("4 bytes")
}

/// The first cell's slot and the recorded number of cells.
pub fn head(table: &[u8]) -> Option<[u32; 2]> {
    let head = slot(table, 0)?;
    Some([0, 4].map(|at| u32::from_le_bytes(word(head, at))))
}

impl Cell {
    /// The cell in a slot.
    pub fn at(table: &[u8], number: u32) -> Option<Self> {
        let slot = slot(table, number)?;
        let [state, depth, ..] = word(slot, 4);
        let end = |i: usize| i32::from_le_bytes(word(slot, 8 + 4 * i)).into();
        Some(Self { next: u32::from_le_bytes(word(slot, 0)), state, depth, bounds: std::array::from_fn(end) })
    }

    /// "States are 1 to 3, depths are at most 24, boxes keep the coordinate limits with spans of 1 or more".
    pub fn keeps_the_limits(&self) -> bool {
        let kept = self.bounds.iter().all(|end| (-TICKS..=TICKS).contains(end));
        (1..=3).contains(&self.state) && self.depth <= 24 && kept && spans(&self.bounds).iter().all(|span| *span >= 1)
    }

    /// The tick squares of a layer that the cell crosses, where it keeps the limits.
    pub fn area(&self) -> u64 {
        let [x, y, _] = spans(&self.bounds).map(i64::unsigned_abs);
        x * y
    }

    fn crosses(&self, z: i64) -> bool {
        let [_, _, low, _, _, high] = self.bounds;
        low <= z && z < high
    }
}

/// "Its chain from slot 0 visits exactly the slots 1 to the recorded number of cells, each once and inside the buffer, the
/// last with next zero": the cells along it, or nothing.
fn chain(table: &[u8]) -> Option<Vec<Cell>> {
    let [mut number, recorded] = head(table)?;
    let (mut cells, mut visited) = (Vec::new(), BTreeSet::new());
    while number != 0 {
        if !visited.insert(number) {
            return None;
        }
        let cell = Cell::at(table, number)?;
        number = cell.next;
        cells.push(cell);
    }
    let exactly = visited.len() == recorded as usize && visited.iter().all(|number| *number <= recorded);
    exactly.then_some(cells)
}

/// The cells of a sound table: one at least, each within its limits, with volumes that "add up to at most 2^63".
fn sound(table: &[u8]) -> Option<Vec<Cell>> {
    let cells = chain(table)?;
    let volumes = || cells.iter().map(|cell| u128::from(volume(&cell.bounds))).sum::<u128>();
    let sound = !cells.is_empty() && cells.iter().all(Cell::keeps_the_limits) && volumes() <= 1 << 63;
    sound.then_some(cells)
}

/// The tick squares of a layer in cells of a state. "Overlapping cells each count in full."
fn area(cells: &[Cell], z: i64, state: u8) -> u64 {
    let crossing = cells.iter().filter(|cell| cell.state == state && cell.crosses(z));
    let area: u128 = crossing.map(|cell| u128::from(cell.area())).sum();
    u64::try_from(area).expect("no more than the volumes of a sound table")
}

/// Leaves the report; the status: 0, or the refusal's number. "They are tested in this order, and the report buffer is then
/// unchanged."
fn fill(request: &LayerRequest, report: &mut [u8]) -> u32 {
    let Some(cells) = sound(&request.table) else { return 15 };
    if request.low >= request.high || request.low < -TICKS || request.high > TICKS {
        return 16;
    }
    if report.len() < LAYER * request.layers() {
        return 17;
    }
    for (layer, z) in report.chunks_exact_mut(LAYER).zip(request.low..request.high) {
        for (bytes, state) in layer.chunks_exact_mut(8).zip(1..) {
            bytes.copy_from_slice(&area(&cells, z, state).to_le_bytes());
        }
    }
    0
}

pub fn answer(request: &LayerRequest) -> Answer {
    let mut report = unwritten(request.report);
    let status = fill(request, &mut report);
    Answer::Reported(Reported { status, layers: request.layers(), report, table: request.table.clone() })
}

#[cfg(test)]
mod tests {
    use super::*;
    use crate::tables::{self, Slot, chained};

    /// What a report of exactly its bytes says.
    fn said(slots: &[Slot], low: i64, high: i64) -> String {
        let layers = usize::try_from(high - low).unwrap_or(0);
        answer(&LayerRequest { low, high, report: LAYER * layers, table: tables::bytes(slots) }).to_string()
    }

    fn with(mut slots: Vec<Slot>, slot: usize, place: usize, number: i32) -> Vec<Slot> {
        slots[slot][place] = number;
        slots
    }

    /// Two halves of a cube of 4 ticks, the lower inside and the upper unsettled, across its x.
    fn halves() -> Vec<Slot> {
        chained(&[(1 + 256, [0, 0, 0, 2, 4, 4]), (3 + 256, [2, 0, 0, 4, 4, 4])])
    }

    #[test]
    fn a_layer_lies_between_its_tick_and_the_next() {
        assert_eq!(said(&halves(), -1, 2), "0 0 0 8 0 8 8 0 8");
        assert_eq!(said(&halves(), 3, 5), "8 0 8 0 0 0");
    }

    #[test]
    fn overlapping_cells_each_count_in_full() {
        let same = [0, 0, -1, 3, 5, 1];
        assert_eq!(said(&chained(&[(1, same), (2, same), (2, same)]), -1, 1), "15 30 0 15 30 0");
    }

    #[test]
    fn what_is_not_sound() {
        assert_eq!(said(&[], 0, 1), "refused 15");
        assert_eq!(said(&[[0; 8]; 3], 0, 1), "refused 15");
        assert_eq!(said(&halves()[..2], 0, 1), "refused 15");
        for (slot, place, number) in
            [(0, 0, 0), (0, 0, 2), (0, 1, 1), (0, 1, 3), (1, 0, 0), (1, 0, 1), (2, 0, 1), (2, 0, 3), (2, 0, -1)]
        {
            let chain = with([halves(), vec![[0, 1, 0, 0, 0, 1, 1, 1]]].concat(), slot, place, number);
            assert_eq!(said(&chain, 0, 1), "refused 15", "{slot} {place} {number}");
        }
        for (place, number) in [(1, 0), (1, 4), (1, 1 + 256 * 25), (2, 4), (4, 5), (5, (1 << 20) + 1), (7, i32::MAX)] {
            assert_eq!(said(&with(halves(), 2, place, number), 0, 1), "refused 15", "{place} {number}");
        }
    }

    #[test]
    fn volumes_add_up_to_2_to_the_63() {
        let end = 1 << 20;
        let whole = (1, [-end, -end, -end, end, end, end]);
        assert_eq!(said(&chained(&[whole]), 0, 1), "4398046511104 0 0");
        assert_eq!(said(&chained(&[whole, (2, [0, 0, 0, 1, 1, 1])]), 0, 1), "refused 15");
        assert_eq!(said(&chained(&[whole, whole]), 0, 1), "refused 15");
    }

    #[test]
    fn runs_and_reports() {
        let end = 1 << 20;
        assert_eq!(said(&halves(), end - 1, end), "0 0 0");
        assert_eq!(said(&halves(), -end, 1 - end), "0 0 0");
        for (low, high) in [(0, 0), (1, 0), (-end - 1, -end), (end, end + 1), (i64::MIN, i64::MIN)] {
            assert_eq!(said(&halves(), low, high), "refused 16", "{low} {high}");
        }
        let asked = |report| answer(&LayerRequest { low: 3, high: 5, report, table: tables::bytes(&halves()) });
        assert_eq!((asked(47).refused(), asked(48).refused(), asked(55).refused()), (Some(17), None, None));
        let Answer::Reported(reported) = asked(55) else { unreachable!("a layer report") };
        assert_eq!(reported.report[48..], unwritten(55)[48..]);
    }
}

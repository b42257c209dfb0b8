//! The layer report as a Rust program would have it that links no library: the chain is followed once to see that the table
//! is sound, and once more to add each cell to the layers that it crosses. `bench` times ours beside it.

use crate::entries::TICKS;
use crate::layers::{Cell, head};
use crate::walk::volume;
use request::LAYER;

/// Slots, a bit for each.
struct Slots(Vec<u64>);

impl Slots {
    /// None of so many.
    fn none(count: usize) -> Self {
        Self(vec![0; count.div_ceil(64)])
    }

    /// Adds a slot; false where it was there.
    fn insert(&mut self, slot: usize) -> bool {
        let (word, bit) = (&mut self.0[slot / 64], 1 << (slot % 64));
        let absent = *word & bit == 0;
        *word |= bit;
        absent
    }
}

/// Whether a table is sound.
fn is_sound(table: &[u8]) -> bool {
    let Some([mut slot, count]) = head(table) else { return false };
    // With a slot for the last cell there are no more bits than the table has bytes.
    if count == 0 || Cell::at(table, count).is_none() {
        return false;
    }
    let mut visited = Slots::none(count as usize + 1);
    let mut volumes = 0_u64;
    for _ in 0..count {
        if slot == 0 || slot > count || !visited.insert(slot as usize) {
            return false;
        }
        let Some(cell) = Cell::at(table, slot).filter(Cell::keeps_the_limits) else { return false };
        let Some(sum) = volumes.checked_add(volume(&cell.bounds)) else { return false };
        volumes = sum;
        slot = cell.next;
    }
    slot == 0 && volumes <= 1 << 63
}

/// Adds an area to the number at a place of each of these layers.
fn add(layers: &mut [u8], place: usize, area: u64) {
    for layer in layers.chunks_exact_mut(LAYER) {
        let number = &mut layer[place..][..8];
        let sum = area + u64::from_le_bytes((&*number).try_into().expect("8 bytes"));
        number.copy_from_slice(&sum.to_le_bytes());
    }
}

/// Adds every cell of a sound table to the layers from `low` on that it crosses.
fn add_cells(table: &[u8], low: i64, high: i64, layers: &mut [u8]) {
    let at = |z: i64| LAYER * (z.clamp(low, high) - low) as usize;
    let mut slot = head(table).map_or(0, |[first, _]| first);
    while slot != 0 {
        let Some(cell) = Cell::at(table, slot) else { return };
        let crossed = at(cell.bounds[2])..at(cell.bounds[5]);
        add(&mut layers[crossed], 8 * (usize::from(cell.state) - 1), cell.area());
        slot = cell.next;
    }
}

/// Leaves the report; the status: 0, or the refusal's number.
pub fn layers(table: &[u8], low: i64, high: i64, report: &mut [u8]) -> u32 {
    if !is_sound(table) {
        return 15;
    }
    if low >= high || low < -TICKS || high > TICKS {
        return 16;
    }
    let Some(layers) = report.get_mut(..LAYER * (high - low) as usize) else { return 17 };
    layers.fill(0);
    add_cells(table, low, high, layers);
    0
}

#[cfg(test)]
mod tests {
    use super::*;
    use crate::{layer_cases, layer_chances};
    use request::{Answer, unwritten};

    #[test]
    fn leaves_what_the_plain_report_leaves() {
        for request in layer_cases::named().into_iter().chain((0..500).map(|index| layer_chances::by_chance(2, index)))
        {
            let mut report = unwritten(request.report);
            let status = layers(&request.table, request.low, request.high, &mut report);
            let Answer::Reported(plain) = crate::layers::answer(&request) else { unreachable!("a layer report") };
            assert!((status, report) == (plain.status, plain.report), "{request}");
        }
    }
}

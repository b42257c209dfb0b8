//! Tables made by hand, by the 32-bit numbers of their slots.

/// A slot's numbers. Slot 0: the first cell's slot, the number of cells, and what a layer report does not look at. A cell:
/// the next slot, the word of its state, its lows and its highs.
pub type Slot = [i32; 8];

/// Where the numbers of a slot stand.
pub const NEXT: usize = 0;
pub const COUNT: usize = 1;
pub const STATE: usize = 1;
pub const LOW: usize = 2;
pub const HIGH: usize = 5;

/// A cell by the word of its state and by its box. The word is the state, and 256 times the depth.
pub type Cell = (i32, [i32; 6]);

pub fn bytes(slots: &[Slot]) -> Vec<u8> {
    slots.as_flattened().iter().flat_map(|number| number.to_le_bytes()).collect()
}

/// Cells in a chain that visits the slots in this order: a permutation of 1, 2, .. Slot 0 and what is between the cells'
/// numbers is zero.
pub fn placed(cells: &[Cell], order: &[usize]) -> Vec<Slot> {
    let mut slots = vec![[0; 8]; cells.len() + 1];
    (slots[0][NEXT], slots[0][COUNT]) = (order[0] as i32, cells.len() as i32);
    let nexts = order[1..].iter().chain([&0]);
    for (((word, ends), slot), next) in cells.iter().zip(order).zip(nexts) {
        (slots[*slot][NEXT], slots[*slot][STATE]) = (*next as i32, *word);
        slots[*slot][LOW..].copy_from_slice(ends);
    }
    slots
}

/// Cells in slots 1, 2, .. in their order.
pub fn chained(cells: &[Cell]) -> Vec<Slot> {
    let order: Vec<usize> = (1..=cells.len()).collect();
    placed(cells, &order)
}

#[cfg(test)]
mod tests {
    use super::*;

    #[test]
    fn cells_stand_in_the_slots_of_their_order() {
        let [first, second] = [(1, [0, 1, 2, 3, 4, 5]), (515, [-6, -5, -4, -3, -2, -1])];
        let head = |slot| [slot, 2, 0, 0, 0, 0, 0, 0];
        let cells = [[2, 1, 0, 1, 2, 3, 4, 5], [0, 515, -6, -5, -4, -3, -2, -1]];
        assert_eq!(chained(&[first, second]), [head(1), cells[0], cells[1]]);
        let swapped = [head(2), cells[1], [1, 1, 0, 1, 2, 3, 4, 5]];
        assert_eq!(placed(&[first, second], &[2, 1]), swapped);
        assert_eq!(bytes(&[head(258)])[..5], [2, 1, 0, 0, 2]);
    }
}

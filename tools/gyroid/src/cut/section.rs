//! The cells that cross one tick layer, as rectangles in its plane, and the layer's areas.

use super::colours::Colouring;
use crate::kept::Kept;
use gyroid_cells::{Bounds, Cell, LAYER, Layer, Refusal, SLOT, State, layers};

pub const AXES: [&str; 3] = ["x", "y", "z"];

/// A cell where it crosses the layer, in ticks: first the axis to the right, then the one upwards.
#[derive(Clone, Copy, Debug, PartialEq)]
pub struct Rectangle {
    pub state: State,
    pub depth: u8,
    pub low: [i64; 2],
    pub high: [i64; 2],
}

pub struct Section {
    /// The axis that the layer lies across: its place in `AXES`.
    pub axis: usize,
    /// The layer lies between this tick and the next.
    pub layer: i64,
    /// The table's bounds in the plane.
    pub low: [i64; 2],
    pub high: [i64; 2],
    pub cells: Vec<Rectangle>,
    pub areas: Layer,
    /// What colours by depth go by: the whole table, so that pictures of its layers can be compared.
    pub depths: Colouring,
}

/// The axes of the plane across an axis: the one to the right, and the one upwards.
pub fn plane(axis: usize) -> [usize; 2] {
    match axis {
        0 => [1, 2],
        1 => [0, 2],
        _ => [0, 1],
    }
}

impl Section {
    pub fn new(kept: &Kept, bounds: Bounds, axis: usize, layer: i64) -> Result<Self, Refusal> {
        let plane = plane(axis);
        let (mut cells, mut depths) = (Vec::new(), (u8::MAX, 0));
        for cell in kept.cells() {
            depths = (depths.0.min(cell.depth), depths.1.max(cell.depth));
            if cell.bounds.low[axis] <= layer && layer < cell.bounds.high[axis] {
                cells.push(rectangle(&cell, plane));
            }
        }
        Ok(Self {
            axis,
            layer,
            low: plane.map(|i| bounds.low[i]),
            high: plane.map(|i| bounds.high[i]),
            cells,
            areas: areas(kept.bytes(), axis, layer)?,
            depths: Colouring::Depth { least: depths.0, greatest: depths.1 },
        })
    }

    pub fn spans(&self) -> [i64; 2] {
        [0, 1].map(|i| self.high[i] - self.low[i])
    }

    /// Whether the areas of the cells tell that they do not just fill the bounds.
    pub fn has_gaps(&self) -> bool {
        let [width, height] = self.spans();
        self.areas.area() != width.unsigned_abs() * height.unsigned_abs()
    }

    /// The areas of the states, in the states' order.
    pub fn shares(&self) -> [(State, u64); 3] {
        let Layer { inside, outside, unsettled, .. } = self.areas;
        [(State::Inside, inside), (State::Outside, outside), (State::Unsettled, unsettled)]
    }
}

fn rectangle(cell: &Cell, plane: [usize; 2]) -> Rectangle {
    let Cell { state, depth, bounds } = cell;
    Rectangle { state: *state, depth: *depth, low: plane.map(|i| bounds.low[i]), high: plane.map(|i| bounds.high[i]) }
}

/// The areas of a layer by the library. It reports on layers in z; for another axis it is lent the table with that axis
/// and z exchanged, which is as sound as the table.
fn areas(table: &[u8], axis: usize, layer: i64) -> Result<Layer, Refusal> {
    let mut report = [0; LAYER];
    let found = match axis {
        2 => layers(table, layer, layer + 1, &mut report),
        _ => layers(&exchanged(table, axis), layer, layer + 1, &mut report),
    };
    Ok(found?.next().expect("a report of one layer"))
}

/// A table with an axis and z exchanged in the lows and highs of every slot but the head.
fn exchanged(table: &[u8], axis: usize) -> Vec<u8> {
    let mut bytes = table.to_vec();
    for slot in bytes.chunks_exact_mut(SLOT).skip(1) {
        for corner in [8, 20] {
            (0..4).for_each(|byte| slot.swap(corner + 4 * axis + byte, corner + 8 + byte));
        }
    }
    bytes
}

/// A section across z at layer 0 of a box from (0, 0), for tests: state, depth, lows and highs of its cells.
#[cfg(test)]
pub fn made(high: [i64; 2], cells: &[(State, u8, [i64; 2], [i64; 2])]) -> Section {
    let cells: Vec<Rectangle> =
        cells.iter().map(|&(state, depth, low, high)| Rectangle { state, depth, low, high }).collect();
    let area = |state| {
        let those = cells.iter().filter(|cell| cell.state == state);
        those.map(|cell| ((cell.high[0] - cell.low[0]) * (cell.high[1] - cell.low[1])) as u64).sum()
    };
    let (inside, outside, unsettled) = (area(State::Inside), area(State::Outside), area(State::Unsettled));
    Section {
        axis: 2,
        layer: 0,
        low: [0, 0],
        high,
        areas: Layer { z: 0, inside, outside, unsettled },
        depths: Colouring::Depth { least: 0, greatest: 24 },
        cells,
    }
}

#[cfg(test)]
mod tests {
    use super::*;

    #[test]
    fn areas_across_each_axis() {
        // One outside cell of 2 by 3 by 5 ticks at (-1, 7, 20).
        let numbers = [1, 1, 1, 0, 0, 30, 0, 0, 0, 2, -1, 7, 20, 1, 10, 25];
        let table: Vec<u8> = numbers.iter().flat_map(|n: &i32| n.to_le_bytes()).collect();
        let outside = |axis, layer| areas(&table, axis, layer).map(|layer| layer.outside);
        assert_eq!([outside(0, -2), outside(0, -1), outside(0, 0), outside(0, 1)], [Ok(0), Ok(15), Ok(15), Ok(0)]);
        assert_eq!([outside(1, 7), outside(1, 9), outside(1, 10)], [Ok(10), Ok(10), Ok(0)]);
        assert_eq!([outside(2, 19), outside(2, 20), outside(2, 24), outside(2, 25)], [Ok(0), Ok(6), Ok(6), Ok(0)]);
    }
}

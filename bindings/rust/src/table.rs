//! The table that a walk leaves, for reading: a head, then a chain of cells, in slots of 32 bytes, little endian.

use crate::{Bounds, Layers, Refusal, State};

/// The bytes of a slot: a walk of n cells wants a table of n + 1 slots.
///
/// ```
/// use gyroid_cells::{Bounds, Description, SLOT, TieRule, walk};
///
/// let part = Bounds { low: [0; 3], high: [1024; 3] };
/// let mut bytes = [0; (1 + 1) * SLOT];
/// assert_eq!(walk(&Description::constant(10240, 2048), part, 0, TieRule::default(), &mut bytes)?.len(), 1);
/// # Ok::<(), gyroid_cells::Refusal>(())
/// ```
pub const SLOT: usize = 32;

/// A walk's table. [`walk`](crate::walk) answers one; [`Table::read`] makes one of bytes that were kept. A reference to
/// it iterates over the cells.
///
/// ```
/// use gyroid_cells::{Bounds, Description, State, TieRule, walk};
///
/// let core = Description::constant(10240, 2048);
/// let part = Bounds { low: [0; 3], high: [1024; 3] };
/// let mut bytes = [0; 64 * 32];
/// let table = walk(&core, part, 1, TieRule::default(), &mut bytes)?;
///
/// let mut solid = 0;
/// for cell in &table {
///     if cell.state == State::Inside {
///         solid += cell.bounds.volume().unwrap();
///     }
/// }
/// assert_eq!(solid, table.head().solid);
/// # Ok::<(), gyroid_cells::Refusal>(())
/// ```
#[derive(Clone, Copy, Debug)]
pub struct Table<'a> {
    /// A slot at least.
    bytes: &'a [u8],
}

/// What slot 0 says.
///
/// ```
/// use gyroid_cells::{Bounds, Description, Head, TieRule, walk};
///
/// let part = Bounds { low: [0; 3], high: [1024; 3] };
/// let mut bytes = [0; 96];
/// let Head { cells, evaluated, solid, open, .. } =
///     walk(&Description::constant(10240, 2048), part, 1, TieRule::default(), &mut bytes)?.head();
/// assert_eq!((cells, evaluated), (2, 3));
/// assert_eq!(Some(solid + open), part.volume());
/// # Ok::<(), gyroid_cells::Refusal>(())
/// ```
#[derive(Clone, Copy, Debug, PartialEq, Eq, Hash)]
pub struct Head {
    /// The slot of the first cell.
    pub first: u32,
    /// The number of cells.
    pub cells: u32,
    /// The number of boxes that were evaluated: the cells, and every box that was halved.
    pub evaluated: u32,
    /// The volume of the cells inside, in tick cubes.
    pub solid: u64,
    /// The volume of the rest of the box, in tick cubes.
    pub open: u64,
}

/// A box that the walk did not halve, its mark, and how deep in the walk it stands.
///
/// ```
/// use gyroid_cells::{Bounds, Cell, Description, State, TieRule, walk};
///
/// let part = Bounds { low: [0; 3], high: [512, 1024, 1024] };
/// let mut bytes = [0; 64];
/// let table = walk(&Description::constant(10240, 2048), part, 24, TieRule::default(), &mut bytes)?;
/// assert_eq!(table.cells().next(), Some(Cell { state: State::Inside, depth: 0, bounds: part }));
/// # Ok::<(), gyroid_cells::Refusal>(())
/// ```
#[derive(Clone, Copy, Debug, PartialEq, Eq, Hash)]
pub struct Cell {
    /// The mark.
    pub state: State,
    /// The halvings that led to it: 0 where the walk's box is one cell, 24 at most.
    ///
    /// ```
    /// use gyroid_cells::{Bounds, Description, TieRule, walk};
    ///
    /// let core = Description::constant(10240, -128);
    /// let mut bytes = [0; 5 * 32];
    /// let table = walk(&core, Bounds { low: [0; 3], high: [1024; 3] }, 3, TieRule::default(), &mut bytes)?;
    ///
    /// let lines: Vec<String> = table.cells().map(|cell| format!("{} {}", cell.depth, cell.state)).collect();
    /// println!("{}", lines.join("\n"));
    /// assert_eq!(lines, ["3 unsettled", "3 outside", "2 outside", "1 outside"]);
    /// # Ok::<(), gyroid_cells::Refusal>(())
    /// ```
    pub depth: u8,
    /// The box, in ticks.
    pub bounds: Bounds,
}

/// The cells along a table's chain.
///
/// ```
/// use gyroid_cells::{Bounds, Cells, Description, TieRule, walk};
///
/// let part = Bounds { low: [0; 3], high: [1024; 3] };
/// let mut bytes = [0; 96];
/// let cells: Cells = walk(&Description::constant(10240, 2048), part, 1, TieRule::default(), &mut bytes)?.cells();
/// let volumes: Option<u64> = cells.map(|cell| cell.bounds.volume()).sum();
/// assert_eq!(volumes, part.volume());
/// # Ok::<(), gyroid_cells::Refusal>(())
/// ```
#[derive(Clone, Debug)]
pub struct Cells<'a> {
    table: Table<'a>,
    /// Zero ends the chain.
    slot: u32,
}

impl<'a> Table<'a> {
    /// A table that a walk has just filled.
    pub(crate) fn filled(bytes: &'a [u8]) -> Self {
        Self { bytes }
    }

    /// The table in these bytes, or `None` where they hold no chain of as many cells as the head says. Bytes that are
    /// all zero, as a walk refused by 13 leaves them, are a table without cells.
    ///
    /// ```
    /// use gyroid_cells::{Bounds, Description, Table, TieRule, walk};
    ///
    /// let core = Description::constant(10240, 2048);
    /// let mut bytes = [0; 96];
    /// walk(&core, Bounds { low: [0; 3], high: [1024; 3] }, 1, TieRule::default(), &mut bytes)?;
    ///
    /// assert_eq!(Table::read(&bytes).unwrap().len(), 2);
    /// assert!(Table::read(&bytes[..64]).is_none());
    /// # Ok::<(), gyroid_cells::Refusal>(())
    /// ```
    pub fn read(bytes: &'a [u8]) -> Option<Self> {
        let slots = bytes.len() / SLOT;
        if slots == 0 {
            return None;
        }
        let table = Self { bytes };
        let count = table.head().cells as usize;
        let mut cells = table.cells();
        // A chain of more cells than slots runs in a circle.
        let whole = count < slots && cells.by_ref().take(count).count() == count && cells.slot == 0;
        whole.then_some(table)
    }

    /// Slot 0.
    ///
    /// ```
    /// let head = gyroid_cells::Table::read(&[0; 32]).unwrap().head();
    /// assert_eq!((head.cells, head.evaluated, head.solid, head.open), (0, 0, 0, 0));
    /// ```
    pub fn head(&self) -> Head {
        Head {
            first: self.u32_at(0),
            cells: self.u32_at(4),
            evaluated: self.u32_at(8),
            solid: u64::from_le_bytes(self.at(12)),
            open: u64::from_le_bytes(self.at(20)),
        }
    }

    /// The number of cells.
    ///
    /// ```
    /// assert_eq!(gyroid_cells::Table::read(&[0; 32]).unwrap().len(), 0);
    /// ```
    pub fn len(&self) -> usize {
        self.head().cells as usize
    }

    /// Whether there is no cell. A walk that was not refused leaves one at least.
    ///
    /// ```
    /// assert!(gyroid_cells::Table::read(&[0; 32]).unwrap().is_empty());
    /// ```
    pub fn is_empty(&self) -> bool {
        self.len() == 0
    }

    /// The cells in the chain's order, which is the walk's.
    ///
    /// ```
    /// use gyroid_cells::{Bounds, Description, State, TieRule, walk};
    ///
    /// let core = Description::constant(10240, 2048);
    /// let mut bytes = [0; 96];
    /// let table = walk(&core, Bounds { low: [0; 3], high: [1024; 3] }, 1, TieRule::default(), &mut bytes)?;
    ///
    /// let unsettled: Vec<_> = table.cells().filter(|cell| cell.state == State::Unsettled).collect();
    /// assert_eq!(unsettled[0].bounds, Bounds { low: [512, 0, 0], high: [1024, 1024, 1024] });
    /// # Ok::<(), gyroid_cells::Refusal>(())
    /// ```
    pub fn cells(&self) -> Cells<'a> {
        Cells { table: *self, slot: self.u32_at(0) }
    }

    /// The areas of the cells in each tick layer from `low` to `high` − 1: the call [`layers`](crate::layers). The table
    /// of a walk is sound; one that was read need not be, and is then refused by 15.
    ///
    /// ```
    /// use gyroid_cells::{Bounds, Description, TieRule, walk};
    ///
    /// let core = Description::constant(10240, 2048);
    /// let (mut bytes, mut report) = ([0; 96], [0; 1024 * 24]);
    /// let table = walk(&core, Bounds { low: [0; 3], high: [1024; 3] }, 1, TieRule::default(), &mut bytes)?;
    ///
    /// for layer in table.layers(0, 1024, &mut report)? {
    ///     assert_eq!((layer.inside, layer.area()), (512 * 1024, 1024 * 1024));
    /// }
    /// assert_eq!(table.layers(0, 1025, &mut report).unwrap_err().number(), 17);
    /// # Ok::<(), gyroid_cells::Refusal>(())
    /// ```
    pub fn layers<'b>(&self, low: i64, high: i64, report: &'b mut [u8]) -> Result<Layers<'b>, Refusal> {
        crate::layers(self.bytes, low, high, report)
    }

    /// The bytes at a place, of a slot that is there.
    fn at<const N: usize>(&self, place: usize) -> [u8; N] {
        *self.bytes[place..].first_chunk().expect("the slot is there")
    }

    fn u32_at(&self, place: usize) -> u32 {
        u32::from_le_bytes(self.at(place))
    }

    fn corner(&self, place: usize) -> [i64; 3] {
        [0, 4, 8].map(|offset| i32::from_le_bytes(self.at(place + offset)).into())
    }

    /// The next slot and the cell in a slot; nothing where there is no such slot or no such state.
    fn cell(&self, slot: u32) -> Option<(u32, Cell)> {
        if slot as usize >= self.bytes.len() / SLOT {
            return None;
        }
        let place = slot as usize * SLOT;
        let [state, depth] = self.at(place + 4);
        let state = State::try_from(u32::from(state)).ok()?;
        let bounds = Bounds { low: self.corner(place + 8), high: self.corner(place + 20) };
        Some((self.u32_at(place), Cell { state, depth, bounds }))
    }
}

impl<'a> IntoIterator for &Table<'a> {
    type Item = Cell;
    type IntoIter = Cells<'a>;

    fn into_iter(self) -> Cells<'a> {
        self.cells()
    }
}

impl Iterator for Cells<'_> {
    type Item = Cell;

    fn next(&mut self) -> Option<Cell> {
        if self.slot == 0 {
            return None;
        }
        let (next, cell) = self.table.cell(self.slot)?;
        self.slot = next;
        Some(cell)
    }
}

#[cfg(test)]
mod tests {
    extern crate std;

    use super::*;
    use std::vec::Vec;

    const HEAD: [i32; 8] = [2, 2, 3, 7, 0, -1, -1, 0];
    const INSIDE: [i32; 8] = [1, 1 + 256 * 24, -1, 0, 0, 1, 1, 1];
    const UNSETTLED: [i32; 8] = [0, 3, 1, 0, 0, 2, 1, 1];

    fn bytes(slots: &[[i32; 8]]) -> Vec<u8> {
        slots.as_flattened().iter().flat_map(|n| n.to_le_bytes()).collect()
    }

    fn with(slot: [i32; 8], place: usize, number: i32) -> [i32; 8] {
        let mut slot = slot;
        slot[place] = number;
        slot
    }

    #[test]
    fn head_and_cells_along_the_chain() {
        let bytes = bytes(&[HEAD, UNSETTLED, INSIDE, [0; 8]]);
        let table = Table::read(&bytes).unwrap();
        assert_eq!(table.head(), Head { first: 2, cells: 2, evaluated: 3, solid: 7, open: u64::MAX });
        let cells: Vec<Cell> = table.cells().collect();
        assert_eq!((table.len(), table.is_empty()), (2, false));
        assert!((&table).into_iter().eq(cells.iter().copied()));
        let cell = |state, depth, low, high| Cell { state, depth, bounds: Bounds { low, high } };
        let along = [cell(State::Inside, 24, [-1, 0, 0], [1, 1, 1]), cell(State::Unsettled, 0, [1, 0, 0], [2, 1, 1])];
        assert_eq!(cells, along);
    }

    #[test]
    fn all_zero_is_a_table_without_cells() {
        let table = Table::read(&[0; 33]).unwrap();
        assert_eq!((table.cells().next(), table.len(), table.is_empty()), (None, 0, true));
        assert!(Table::read(&[0; 31]).is_none());
    }

    #[test]
    fn a_broken_chain_is_no_table() {
        let broken = |slots: &[[i32; 8]]| Table::read(&bytes(slots)).is_none();
        assert!(!broken(&[HEAD, UNSETTLED, INSIDE]));
        assert!(broken(&[HEAD, UNSETTLED]));
        assert!(broken(&[with(HEAD, 0, 3), UNSETTLED, INSIDE]));
        assert!(broken(&[with(HEAD, 0, -1), UNSETTLED, INSIDE]));
        assert!(broken(&[with(HEAD, 1, 1), UNSETTLED, INSIDE]));
        assert!(broken(&[with(HEAD, 1, 3), UNSETTLED, INSIDE, [0; 8]]));
        assert!(broken(&[with(HEAD, 1, -1), with(UNSETTLED, 0, 2), INSIDE]));
        assert!(broken(&[HEAD, with(UNSETTLED, 0, 2), INSIDE]));
        assert!(broken(&[HEAD, with(UNSETTLED, 1, 4), INSIDE]));
        assert!(broken(&[HEAD, with(UNSETTLED, 1, 256 * 3), INSIDE]));
    }
}

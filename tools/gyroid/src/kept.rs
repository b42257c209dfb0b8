//! A table that is kept in a file.

use crate::trouble::Trouble;
use gyroid_cells::{Bounds, Cell, LAYER, Table, layers};
use std::fs;
use std::path::Path;

/// The bytes of a sound table.
pub struct Kept {
    bytes: Vec<u8>,
}

impl Kept {
    /// The table in a file. Bytes that are no sound table are refused by 15.
    pub fn open(path: &Path) -> Result<Self, Trouble> {
        let bytes = fs::read(path).map_err(|error| Trouble::file("read", path, error))?;
        // The library tests soundness before all else; one layer asks least of it besides.
        match layers(&bytes, 0, 1, &mut [0; LAYER]) {
            Ok(_) => Ok(Self { bytes }),
            Err(refusal) => Err(Trouble::refused(format!(
                "{} is no sound table (refused {}): {}",
                path.display(),
                refusal.number(),
                crate::refusals::unsound(&bytes)
            ))),
        }
    }

    pub fn bytes(&self) -> &[u8] {
        &self.bytes
    }

    pub fn table(&self) -> Table<'_> {
        Table::read(&self.bytes).expect("a sound table has a chain of as many cells as its head says")
    }

    pub fn cells(&self) -> impl Iterator<Item = Cell> {
        self.table().cells()
    }

    /// The least box that holds all cells: of a walk's table the box that was walked.
    pub fn bounds(&self) -> Bounds {
        let boxes = self.cells().map(|cell| cell.bounds);
        let both = |a: Bounds, b: Bounds| Bounds {
            low: [0, 1, 2].map(|i| a.low[i].min(b.low[i])),
            high: [0, 1, 2].map(|i| a.high[i].max(b.high[i])),
        };
        boxes.reduce(both).expect("a sound table has a cell")
    }
}

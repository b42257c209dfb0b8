//! The layer report, for reading: the areas of each tick layer in z, 24 bytes a layer, little endian.

use core::slice::ChunksExact;

/// The bytes of a layer: a report of n layers wants n times as many.
///
/// ```
/// use gyroid_cells::{Bounds, Description, LAYER, TieRule, walk};
///
/// let part = Bounds { low: [0; 3], high: [1024; 3] };
/// let (mut bytes, mut report) = ([0; 96], [0; 1024 * LAYER]);
/// let table = walk(&Description::constant(10240, 2048), part, 1, TieRule::default(), &mut bytes)?;
/// assert_eq!(table.layers(0, 1024, &mut report)?.len(), 1024);
/// # Ok::<(), gyroid_cells::Refusal>(())
/// ```
pub const LAYER: usize = 24;

/// The tick squares of one layer that lie in cells of each state.
///
/// ```
/// use gyroid_cells::{Bounds, Description, Layer, TieRule, walk};
///
/// let part = Bounds { low: [0; 3], high: [1024; 3] };
/// let (mut bytes, mut report) = ([0; 96], [0; 24]);
/// let table = walk(&Description::constant(10240, 2048), part, 1, TieRule::default(), &mut bytes)?;
/// let lowest = table.layers(0, 1, &mut report)?.next();
/// assert_eq!(lowest, Some(Layer { z: 0, inside: 524288, outside: 0, unsettled: 524288 }));
/// # Ok::<(), gyroid_cells::Refusal>(())
/// ```
#[derive(Clone, Copy, Debug, PartialEq, Eq, Hash)]
pub struct Layer {
    /// The layer lies between z and z + 1, in ticks.
    pub z: i64,
    /// The tick squares in inside cells.
    pub inside: u64,
    /// The tick squares in outside cells.
    pub outside: u64,
    /// The tick squares in unsettled cells.
    pub unsettled: u64,
}

impl Layer {
    /// The area of the cells that cross the layer, in tick squares: 2^63 at most.
    ///
    /// ```
    /// use gyroid_cells::Layer;
    ///
    /// assert_eq!(Layer { z: -1, inside: 1, outside: 2, unsettled: 3 }.area(), 6);
    /// ```
    pub fn area(&self) -> u64 {
        self.inside + self.outside + self.unsettled
    }
}

/// The layers of a report, the lowest first.
///
/// ```
/// use gyroid_cells::{Bounds, Description, Layers, TieRule, walk};
///
/// let part = Bounds { low: [0; 3], high: [1024; 3] };
/// let (mut bytes, mut report) = ([0; 96], [0; 1024 * 24]);
/// let table = walk(&Description::constant(10240, 2048), part, 1, TieRule::default(), &mut bytes)?;
/// let layers: Layers = table.layers(0, 1024, &mut report)?;
/// let solid: u64 = layers.map(|layer| layer.inside).sum();
/// assert_eq!(solid, table.head().solid);
/// # Ok::<(), gyroid_cells::Refusal>(())
/// ```
#[derive(Clone, Debug)]
pub struct Layers<'a> {
    z: i64,
    left: ChunksExact<'a, u8>,
}

impl<'a> Layers<'a> {
    /// The layers from `low` up in bytes that a call has just filled.
    pub(crate) fn filled(low: i64, bytes: &'a [u8]) -> Self {
        Self { z: low, left: bytes.chunks_exact(LAYER) }
    }
}

impl Iterator for Layers<'_> {
    type Item = Layer;

    fn next(&mut self) -> Option<Layer> {
        let bytes = self.left.next()?;
        let area = |place: usize| u64::from_le_bytes(core::array::from_fn(|i| bytes[place + i]));
        let layer = Layer { z: self.z, inside: area(0), outside: area(8), unsettled: area(16) };
        self.z += 1;
        Some(layer)
    }

    fn size_hint(&self) -> (usize, Option<usize>) {
        self.left.size_hint()
    }
}

impl ExactSizeIterator for Layers<'_> {}

//! Whether cells overlap. Those of a walk never do; of a sound table that was made otherwise they may.

use gyroid_cells::Cell;

/// So many cells, or fewer, are compared each with each.
const FEW: usize = 16;

/// The first two cells that have a tick cube in common: of all such pairs the one whose later cell comes first, and of
/// those the one whose earlier cell does.
pub fn first(cells: &[Cell]) -> Option<(Cell, Cell)> {
    let mut search = Search { cells, found: None };
    search.among((0..cells.len()).collect());
    search.found.map(|(later, earlier)| (cells[earlier], cells[later]))
}

fn overlap(a: &Cell, b: &Cell) -> bool {
    let (a, b) = (a.bounds, b.bounds);
    (0..3).all(|axis| a.low[axis] < b.high[axis] && b.low[axis] < a.high[axis])
}

/// A plane across an axis: what lies below it is looked through apart from what lies above it.
struct Cut {
    axis: usize,
    at: i64,
}

impl Cut {
    fn has_below(&self, cell: &Cell) -> bool {
        cell.bounds.low[self.axis] < self.at
    }

    fn has_above(&self, cell: &Cell) -> bool {
        cell.bounds.high[self.axis] > self.at
    }
}

struct Search<'a> {
    cells: &'a [Cell],
    /// The places of the later and of the earlier cell of the first pair so far.
    found: Option<(usize, usize)>,
}

impl Search<'_> {
    /// Looks among the cells at these places, which ascend.
    fn among(&mut self, mut places: Vec<usize>) {
        if let Some((later, _)) = self.found {
            places.retain(|place| *place <= later);
        }
        let Some(cut) = self.cut(&places) else { return self.each_with_each(&places) };
        // A cell that the plane crosses is on both sides: a common tick cube is found on the side where it lies.
        let below = places.iter().copied().filter(|place| cut.has_below(&self.cells[*place])).collect();
        places.retain(|place| cut.has_above(&self.cells[*place]));
        self.among(below);
        self.among(places);
    }

    /// Of three planes, each at the middle one of the cells' lows, the one that leaves the fewest cells on its fuller
    /// side. None where they are few, or that side has more than three quarters of them: so the depth is bounded.
    fn cut(&self, places: &[usize]) -> Option<Cut> {
        if places.len() <= FEW {
            return None;
        }
        let cuts = [0, 1, 2].map(|axis| {
            let mut lows: Vec<i64> = places.iter().map(|place| self.cells[*place].bounds.low[axis]).collect();
            let middle = lows.len() / 2;
            Cut { axis, at: *lows.select_nth_unstable(middle).1 }
        });
        let fuller = |cut: &Cut| {
            let below = places.iter().filter(|place| cut.has_below(&self.cells[**place])).count();
            let above = places.iter().filter(|place| cut.has_above(&self.cells[**place])).count();
            below.max(above)
        };
        let (fewest, cut) = cuts.into_iter().map(|cut| (fuller(&cut), cut)).min_by_key(|(count, _)| *count)?;
        (fewest <= places.len() / 4 * 3).then_some(cut)
    }

    fn each_with_each(&mut self, places: &[usize]) {
        for (count, later) in places.iter().enumerate() {
            let meets = |earlier: &&usize| overlap(&self.cells[**earlier], &self.cells[*later]);
            if let Some(earlier) = places[..count].iter().find(meets) {
                let pair = (*later, *earlier);
                self.found = Some(self.found.map_or(pair, |found| found.min(pair)));
                return;
            }
        }
    }
}

#[cfg(test)]
mod tests {
    use super::*;
    use gyroid_cells::{Bounds, State};

    fn cell(low: [i64; 3], high: [i64; 3]) -> Cell {
        Cell { state: State::Inside, depth: 0, bounds: Bounds { low, high } }
    }

    /// A number below `limit`, another one each time (a linear congruence).
    fn chance(seed: &mut u64, limit: u64) -> i64 {
        *seed = seed.wrapping_mul(6364136223846793005).wrapping_add(1442695040888963407);
        ((*seed >> 33) % limit) as i64
    }

    /// Each cell with each before it, in the cells' order.
    fn plainly(cells: &[Cell]) -> Option<(Cell, Cell)> {
        let pairs = (0..cells.len()).flat_map(|later| (0..later).map(move |earlier| (cells[earlier], cells[later])));
        pairs.into_iter().find(|(a, b)| overlap(a, b))
    }

    #[test]
    fn cells_that_touch_do_not_overlap() {
        let grid = (0..512).map(|n| [n % 8, n / 8 % 8, n / 64]);
        let cells: Vec<Cell> = grid.map(|low| cell(low, low.map(|n| n + 1))).collect();
        assert_eq!(first(&cells), None);
        assert_eq!(first(&[]), None);
    }

    #[test]
    fn the_first_pair_is_the_one_that_comparing_each_with_each_finds() {
        let mut seed = 1;
        let mut both = [0; 2];
        for case in 0..300 {
            let wide = 30 + case;
            let cells: Vec<Cell> = (0..60)
                .map(|_| {
                    let low = [0; 3].map(|_: i64| chance(&mut seed, wide));
                    cell(low, low.map(|n| n + 1 + chance(&mut seed, 1 + wide / 15)))
                })
                .collect();
            assert_eq!(first(&cells), plainly(&cells), "case {case}");
            both[usize::from(plainly(&cells).is_some())] += 1;
        }
        assert!(both.iter().all(|count| *count > 10), "{both:?}");
    }

    #[test]
    fn many_times_the_same_box() {
        let cells = vec![cell([0; 3], [1024; 3]); 100_000];
        assert_eq!(first(&cells), Some((cells[0], cells[1])));
    }

    /// Rods along x below, rods along y above: each crosses every plane across its own axis.
    #[test]
    fn rods() {
        let lying = |n: i64| cell([0, n, n], [4000, n + 1, n + 1]);
        let across = |n: i64| cell([n, 0, 4000 + n], [n + 1, 4000, 4001 + n]);
        let mut cells: Vec<Cell> = (0..4000).map(lying).chain((0..4000).map(across)).collect();
        assert_eq!(first(&cells), None);
        cells.push(cell([7, 7, 4006], [8, 8, 4008]));
        assert_eq!(first(&cells), Some((cells[4007], cells[8000])));
    }
}

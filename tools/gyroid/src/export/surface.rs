//! The surface of cells as triangles, closed and turned outward, in half ticks: all is exact until a file is written.

use super::corners::Corners;
use super::faces::{Face, bare};
use gyroid_cells::Cell;

/// A closed surface: every edge is run through by as many triangles one way as the other, also where a face lies beside
/// many smaller ones.
///
/// Where two cells touch along an edge alone, four triangles meet at it, and this is right. The triangles stand cell by
/// cell, so that the two of each cell come together there: a reader that joins triangles as they come, two and two, as
/// admesh does, joins those of one cell, which run through the edge in opposite ways.
#[derive(Debug, PartialEq)]
pub struct Surface {
    /// In half ticks, each once.
    pub points: Vec<[i32; 3]>,
    /// The numbers of three points, counterclockwise as seen from outside the cells.
    pub triangles: Vec<[usize; 3]>,
}

impl Surface {
    /// The surface of cells that do not overlap.
    pub fn of(cells: &[Cell]) -> Self {
        let faces = bare(cells);
        let corners = Corners::of(&faces);
        let points = corners.points.iter().map(|corner| corner.map(|n| 2 * n)).collect();
        let mut surface = Self { points, triangles: Vec::new() };
        for face in &faces {
            let mut ring = corners.around(face);
            if !face.up {
                ring.reverse();
            }
            surface.fill(face, &ring);
        }
        surface
    }

    /// Adds a face's triangles: two, or where other corners lie on its edges as many as there are corners, all with the
    /// face's centre. So each piece of an edge between neighbouring corners is the side of one triangle of the face.
    fn fill(&mut self, face: &Face, ring: &[usize]) {
        if let [a, b, c, d] = *ring {
            self.triangles.extend([[a, b, c], [a, c, d]]);
            return;
        }
        let centre = self.points.len();
        let [p, _, r, _] = face.corners();
        self.points.push([0, 1, 2].map(|i| p[i] + r[i]));
        let next = ring.iter().cycle().skip(1);
        self.triangles.extend(ring.iter().zip(next).map(|(a, b)| [centre, *a, *b]));
    }

    /// The points of the triangles.
    pub fn corners(&self) -> impl Iterator<Item = [[i32; 3]; 3]> {
        self.triangles.iter().map(|triangle| triangle.map(|number| self.points[number]))
    }
}

#[cfg(test)]
mod tests {
    use super::*;
    use gyroid_cells::{Bounds, Description, SLOT, State, TieRule, walk};
    use std::collections::HashMap;

    fn cell(low: [i64; 3], high: [i64; 3]) -> Cell {
        Cell { state: State::Inside, depth: 0, bounds: Bounds { low, high } }
    }

    fn cross(a: [i64; 3], b: [i64; 3]) -> [i64; 3] {
        [a[1] * b[2] - a[2] * b[1], a[2] * b[0] - a[0] * b[2], a[0] * b[1] - a[1] * b[0]]
    }

    fn wide(points: [[i32; 3]; 3]) -> [[i64; 3]; 3] {
        points.map(|point| point.map(i64::from))
    }

    /// Six times the volume in half-tick cubes, of tetrahedra from the origin to the triangles.
    fn six_volumes(surface: &Surface) -> i128 {
        let six = |points| {
            let [a, b, c] = wide(points);
            let across = cross(b, c);
            (0..3).map(|i| i128::from(a[i]) * i128::from(across[i])).sum::<i128>()
        };
        surface.corners().map(six).sum()
    }

    /// Of each edge the ways in which triangles run through it, up or down in the numbers of its ends, as they come.
    fn edges(surface: &Surface) -> HashMap<[usize; 2], Vec<bool>> {
        let mut edges: HashMap<_, Vec<bool>> = HashMap::new();
        for [a, b, c] in &surface.triangles {
            for [from, to] in [[*a, *b], [*b, *c], [*c, *a]] {
                edges.entry([from.min(to), from.max(to)]).or_default().push(from < to);
            }
        }
        edges
    }

    /// Asks all that a surface promises, and answers it.
    fn checked(cells: &[Cell]) -> Surface {
        let surface = Surface::of(cells);
        let mut points = surface.points.clone();
        points.sort_unstable();
        points.dedup();
        assert_eq!(points.len(), surface.points.len(), "a point stands twice");
        for points in surface.corners() {
            let [a, b, c] = wide(points);
            let normal = cross([0, 1, 2].map(|i| b[i] - a[i]), [0, 1, 2].map(|i| c[i] - a[i]));
            assert_eq!(normal.iter().filter(|n| **n != 0).count(), 1, "{points:?} is flat or aslant");
        }
        for (edge, ways) in edges(&surface) {
            let paired = ways.chunks(2).all(|pair| matches!(pair, [a, b] if a != b));
            assert!(paired, "{:?}: {ways:?}", edge.map(|number| surface.points[number]));
        }
        let volume: u64 = cells.iter().filter_map(|cell| cell.bounds.volume()).sum();
        assert_eq!(six_volumes(&surface), 6 * 8 * i128::from(volume));
        surface
    }

    fn marked(cells: &[Cell], state: State) -> Vec<Cell> {
        cells.iter().copied().filter(|cell| cell.state == state).collect()
    }

    fn walked(core: Description, high: [i64; 3], depth: i64, rule: TieRule) -> Vec<Cell> {
        let mut bytes = vec![0; 20_000 * SLOT];
        let table = walk(&core, Bounds { low: [0; 3], high }, depth, rule, &mut bytes);
        table.expect("the table has room").cells().collect()
    }

    /// How many triangles meet at each edge where there are more than two.
    fn crowded(surface: &Surface) -> Vec<usize> {
        edges(surface).into_values().map(|ways| ways.len()).filter(|count| *count > 2).collect()
    }

    #[test]
    fn one_cell_is_twelve_triangles() {
        let surface = checked(&[cell([-3, 0, 5], [4, 1, 7])]);
        assert_eq!((surface.points.len(), surface.triangles.len()), (8, 12));
    }

    #[test]
    fn at_the_limits() {
        checked(&[cell([-1 << 20; 3], [1 << 20; 3])]);
        checked(&[cell([(1 << 20) - 1; 3], [1 << 20; 3]), cell([-1 << 20; 3], [1 - (1 << 20); 3])]);
    }

    #[test]
    fn side_by_side() {
        let equal = checked(&[cell([0; 3], [2; 3]), cell([2, 0, 0], [4, 2, 2])]);
        assert_eq!((equal.points.len(), equal.triangles.len()), (12, 20));
        checked(&[cell([0; 3], [4; 3]), cell([4, 1, 1], [5, 2, 3])]);
        checked(&[cell([0; 3], [4; 3]), cell([4, 0, 0], [6, 2, 2]), cell([4, 2, 0], [5, 4, 4])]);
    }

    #[test]
    fn faces_that_cross() {
        checked(&[cell([0, 0, 1], [1, 4, 2]), cell([1, 1, 0], [2, 2, 4])]);
    }

    #[test]
    fn at_an_edge_alone_four_faces_meet() {
        let surface = checked(&[cell([0; 3], [2; 3]), cell([2, 2, 0], [4, 4, 2])]);
        assert_eq!(crowded(&surface), [4]);
        // Of unequal cells the edge is in two pieces, and one of them has the larger cell alone.
        assert_eq!(crowded(&checked(&[cell([0; 3], [2; 3]), cell([2, 2, 0], [4, 4, 1])])), [4]);
    }

    #[test]
    fn at_a_corner_alone_no_edge_is_shared() {
        let surface = checked(&[cell([0; 3], [1; 3]), cell([1; 3], [2; 3])]);
        assert_eq!((surface.points.len(), surface.triangles.len(), crowded(&surface)), (15, 24, vec![]));
    }

    #[test]
    fn a_hollow_is_turned_inward() {
        let cube = (0..27).map(|n| [n % 3, n / 3 % 3, n / 9]).filter(|low| *low != [1; 3]);
        let cells: Vec<Cell> = cube.map(|low| cell(low, low.map(|n| n + 1))).collect();
        assert_eq!(checked(&cells).triangles.len(), 2 * (6 * 9 + 6));
    }

    #[test]
    fn of_walks_by_either_surface_and_rule() {
        let network = Description::linear(10240, [0; 3], [0, 0, 10240], -256, 256);
        let primitive = network.with_surface(gyroid_cells::Surface::Primitive);
        for core in [network, primitive] {
            for rule in [TieRule::GradeAxis, TieRule::LowestAxis] {
                let cells = walked(core, [10240, 9000, 7777], 14, rule);
                assert!(cells.len() > 2000, "{} cells", cells.len());
                for state in [State::Inside, State::Outside, State::Unsettled] {
                    checked(&marked(&cells, state));
                }
            }
        }
    }

    #[test]
    fn all_cells_of_a_walk_are_a_box() {
        let surface = checked(&walked(Description::constant(10240, 0), [10240; 3], 11, TieRule::default()));
        let on_box = |points: &[[i32; 3]; 3]| {
            (0..3).any(|axis| [0, 20480].into_iter().any(|end| points.iter().all(|point| point[axis] == end)))
        };
        assert!(surface.corners().all(|points| on_box(&points)));
    }

    #[test]
    fn a_walk_that_is_inside_all_over() {
        let cells = walked(Description::constant(10240, 2048), [1000, 2000, 3000], 24, TieRule::default());
        assert!(cells.len() > 1 && cells.iter().all(|cell| cell.state == State::Inside));
        checked(&cells);
    }
}

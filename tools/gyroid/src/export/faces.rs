//! The faces of cells towards all that is none of them. Cells are boxes of different sizes, so a face may lie against a
//! part of another, or against parts of several: what lies against another cell's face is cut out of it.

use super::gaps::cut_out;
use gyroid_cells::{Bounds, Cell};
use std::collections::BTreeMap;

/// A face of a cell, or a rectangle of it: across an axis, with whole ticks as corners.
#[derive(Clone, Copy, Debug, PartialEq, Eq, PartialOrd, Ord)]
pub struct Face {
    pub axis: usize,
    /// Where it stands on the axis.
    pub place: i32,
    /// On the two axes that follow, in the order x, y, z, x, y.
    pub low: [i32; 2],
    pub high: [i32; 2],
    /// Whether its cell lies below it, so that the axis points away from the cell.
    pub up: bool,
    /// The number of its cell.
    pub cell: usize,
}

impl Face {
    /// The two axes that a face across this axis lies along.
    pub fn along(axis: usize) -> [usize; 2] {
        [(axis + 1) % 3, (axis + 2) % 3]
    }

    /// The six faces of a cell.
    fn six(cell: usize, bounds: Bounds) -> impl Iterator<Item = Self> {
        // A sound table's coordinates are within 2^20 either way.
        let [low, high] = [bounds.low, bounds.high].map(|corner| corner.map(|n| n as i32));
        let across = move |axis: usize| {
            let flat = |corner: [i32; 3]| Self::along(axis).map(|axis| corner[axis]);
            let face = |place, up| Self { axis, place, low: flat(low), high: flat(high), up, cell };
            [face(low[axis], false), face(high[axis], true)]
        };
        (0..3).flat_map(across)
    }

    /// The corners, counterclockwise as seen from where the axis points.
    pub fn corners(&self) -> [[i32; 3]; 4] {
        let ([u0, v0], [u1, v1]) = (self.low, self.high);
        [[u0, v0], [u1, v0], [u1, v1], [u0, v1]].map(|place| self.at(place))
    }

    /// The point of the face's plane at a place on its two axes.
    fn at(&self, place: [i32; 2]) -> [i32; 3] {
        let mut point = [self.place; 3];
        for (axis, n) in Self::along(self.axis).into_iter().zip(place) {
            point[axis] = n;
        }
        point
    }
}

/// The faces of cells that do not overlap, less all that lies against another of these cells. What is left are
/// rectangles that do not overlap, cell by cell.
pub fn bare(cells: &[Cell]) -> Vec<Face> {
    let mut left = Vec::new();
    for plane in unequal(cells).chunk_by(|a, b| (a.axis, a.place) == (b.axis, b.place)) {
        for (face, covers) in plane.iter().zip(covers(plane)) {
            cut_out(face, &covers, &mut left);
        }
    }
    left.sort_by_key(|face| face.cell);
    left
}

/// The cells' faces, plane by plane, but those that lie against an equal one, as most do.
fn unequal(cells: &[Cell]) -> Vec<Face> {
    let six = |(number, cell): (usize, &Cell)| Face::six(number, cell.bounds);
    let mut faces: Vec<Face> = cells.iter().enumerate().flat_map(six).collect();
    faces.sort_unstable();
    let equal = |a: &Face, b: &Face| (a.axis, a.place, a.low, a.high) == (b.axis, b.place, b.low, b.high);
    faces.chunk_by(equal).filter(|equal| equal.len() == 1).flatten().copied().collect()
}

/// Where rectangles begin and end on their second axis, in order: the place, whether one begins there, and its number.
/// At one place ends come before beginnings.
pub fn ends(faces: &[Face]) -> Vec<(i32, bool, usize)> {
    let both = |(number, face): (usize, &Face)| [(face.low[1], true, number), (face.high[1], false, number)];
    let mut ends: Vec<_> = faces.iter().enumerate().flat_map(both).collect();
    ends.sort_unstable();
    ends
}

/// Of each face of a plane, the parts of faces that it lies against: these look the other way and overlap it.
fn covers(plane: &[Face]) -> Vec<Vec<Face>> {
    let mut covers = vec![Vec::new(); plane.len()];
    // The faces that a line across the second axis meets, by their lows on the first, for either way that they look.
    // The cells do not overlap, so neither do the faces that look one way: on the line they stand in a row.
    let mut rows: [BTreeMap<i32, usize>; 2] = Default::default();
    for (_, begins, number) in ends(plane) {
        let face = &plane[number];
        let (low, high) = (face.low[0], face.high[0]);
        if !begins {
            rows[usize::from(face.up)].remove(&low);
            continue;
        }
        let others = &rows[usize::from(!face.up)];
        let over_low = others.range(..=low).next_back().filter(|(_, other)| plane[**other].high[0] > low);
        for (_, other) in over_low.into_iter().chain(others.range(low + 1..high)) {
            let common = common(face, &plane[*other]);
            covers[number].push(common);
            covers[*other].push(common);
        }
        rows[usize::from(face.up)].insert(low, number);
    }
    covers
}

/// The rectangle that two faces of one plane have in common.
fn common(a: &Face, b: &Face) -> Face {
    let low = [0, 1].map(|i| a.low[i].max(b.low[i]));
    let high = [0, 1].map(|i| a.high[i].min(b.high[i]));
    Face { low, high, ..*a }
}

#[cfg(test)]
mod tests {
    use super::*;
    use gyroid_cells::State;

    fn cell(low: [i64; 3], high: [i64; 3]) -> Cell {
        Cell { state: State::Inside, depth: 0, bounds: Bounds { low, high } }
    }

    /// What is left at a plane: whether up, lows and highs.
    fn at(cells: &[Cell], axis: usize, place: i32) -> Vec<(bool, [i32; 2], [i32; 2])> {
        let faces = bare(cells).into_iter().filter(|face| (face.axis, face.place) == (axis, place));
        faces.map(|face| (face.up, face.low, face.high)).collect()
    }

    #[test]
    fn one_cell_has_six_faces() {
        let cells = [cell([-1, 2, 4], [1, 3, 7])];
        assert_eq!(bare(&cells).len(), 6);
        // Across y a face lies along z, x.
        assert_eq!(at(&cells, 1, 2), [(false, [4, -1], [7, 1])]);
        assert_eq!(at(&cells, 1, 3), [(true, [4, -1], [7, 1])]);
    }

    #[test]
    fn corners_turn_about_the_axis() {
        let cells = [cell([-1, 2, 4], [1, 3, 7])];
        let across_y = bare(&cells).into_iter().find(|face| face.axis == 1 && face.up);
        assert_eq!(across_y.map(|face| face.corners()), Some([[-1, 3, 4], [-1, 3, 7], [1, 3, 7], [1, 3, 4]]));
    }

    #[test]
    fn equal_faces_cancel() {
        let cells = [cell([0; 3], [2; 3]), cell([2, 0, 0], [5, 2, 2])];
        assert_eq!(at(&cells, 0, 2), []);
        assert_eq!(bare(&cells).len(), 10);
    }

    #[test]
    fn of_a_larger_face_the_rest_is_left() {
        let cells = [cell([0; 3], [4; 3]), cell([4, 1, 2], [5, 2, 3])];
        let left = [(true, [0, 0], [4, 2]), (true, [0, 2], [1, 3]), (true, [2, 2], [4, 3]), (true, [0, 3], [4, 4])];
        assert_eq!(at(&cells, 0, 4), left);
    }

    #[test]
    fn where_faces_cross_the_middle_is_cut_out_of_both() {
        let cells = [cell([0, 0, 1], [1, 4, 2]), cell([1, 1, 0], [2, 2, 4])];
        let left = [(true, [0, 1], [1, 2]), (true, [2, 1], [4, 2]), (false, [1, 0], [2, 1]), (false, [1, 2], [2, 4])];
        assert_eq!(at(&cells, 0, 1), left);
    }

    /// Each tick square of a plane by itself: the cells below it and above it.
    #[test]
    fn what_is_left_is_each_tick_square_with_a_cell_on_one_side() {
        let boards = |n: i64| cell([0, n, 0], [1, n + 1 + n % 2, 12 - n]);
        let posts = |n: i64| cell([1, 0, n], [3, 2 + n, n + 2]);
        let cells: Vec<Cell> = [0, 1, 3, 5, 7].map(boards).into_iter().chain([0, 2, 5, 7, 9].map(posts)).collect();
        let meets = |side: i64, [y, z]: [i64; 2]| {
            let has = |cell: &&Cell| {
                let Bounds { low, high } = cell.bounds;
                low[0] == side && low[1] <= y && y < high[1] && low[2] <= z && z < high[2]
            };
            cells.iter().any(|cell| has(&cell))
        };
        let faces = at(&cells, 0, 1);
        for square in (0..16).flat_map(|y| (0..16).map(move |z| [y, z])) {
            let on = |looks: bool| {
                let holds = |(up, low, high): &&(bool, [i32; 2], [i32; 2])| {
                    let inside = |i: usize| i64::from(low[i]) <= square[i] && square[i] < i64::from(high[i]);
                    *up == looks && inside(0) && inside(1)
                };
                faces.iter().filter(holds).count()
            };
            let (below, above) = (meets(0, square), meets(1, square));
            assert_eq!(
                (on(true), on(false)),
                (usize::from(below && !above), usize::from(above && !below)),
                "{square:?}"
            );
        }
    }
}

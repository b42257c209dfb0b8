//! The corners of a surface's rectangles, each once, and which of them lie on an edge.

use super::faces::Face;

/// Corners in ticks, numbered.
pub struct Corners {
    /// Sorted: a corner's number is its place here.
    pub points: Vec<[i32; 3]>,
    /// For each axis the corners, each with its number, sorted so that those on one line along the axis stand together.
    lines: [Vec<([i32; 3], usize)>; 3],
}

/// A corner with its place on the axis last, so that corners on one line along it differ in the last entry alone.
fn turned([x, y, z]: [i32; 3], axis: usize) -> [i32; 3] {
    match axis {
        0 => [y, z, x],
        1 => [z, x, y],
        _ => [x, y, z],
    }
}

impl Corners {
    pub fn of(faces: &[Face]) -> Self {
        let mut points: Vec<[i32; 3]> = faces.iter().flat_map(Face::corners).collect();
        points.sort_unstable();
        points.dedup();
        let lines = [0, 1, 2].map(|axis| {
            let mut line: Vec<_> = points.iter().enumerate().map(|(number, p)| (turned(*p, axis), number)).collect();
            line.sort_unstable();
            line
        });
        Self { points, lines }
    }

    /// The numbers of the corners from one to another that lies above it on an axis, both among them, in order.
    fn on_edge(&self, axis: usize, low: [i32; 3], high: [i32; 3]) -> impl DoubleEndedIterator<Item = usize> {
        let (low, high) = (turned(low, axis), turned(high, axis));
        let line = &self.lines[axis];
        let first = line.partition_point(|(corner, _)| *corner < low);
        let count = line[first..].iter().take_while(|(corner, _)| *corner <= high).count();
        line[first..first + count].iter().map(|(_, number)| *number)
    }

    /// The numbers of all corners on the four edges of a face, in turn, counterclockwise as seen from where its axis
    /// points.
    pub fn around(&self, face: &Face) -> Vec<usize> {
        let [p, q, r, s] = face.corners();
        let [u, v] = Face::along(face.axis);
        let mut ring: Vec<usize> = self.on_edge(u, p, q).chain(self.on_edge(v, q, r)).collect();
        ring.extend(self.on_edge(u, s, r).rev().chain(self.on_edge(v, p, s).rev()));
        // Each of the four is the last of an edge and the first of the next one; the first of all is the last as well.
        ring.dedup();
        ring.pop();
        ring
    }
}

#[cfg(test)]
mod tests {
    use super::*;

    fn face(axis: usize, place: i32, low: [i32; 2], high: [i32; 2]) -> Face {
        Face { axis, place, low, high, up: true, cell: 0 }
    }

    fn around(faces: &[Face]) -> Vec<[i32; 3]> {
        let corners = Corners::of(faces);
        corners.around(&faces[0]).into_iter().map(|number| corners.points[number]).collect()
    }

    #[test]
    fn of_one_face_its_own() {
        for axis in 0..3 {
            let one = face(axis, 5, [0, 1], [2, 3]);
            assert_eq!(around(&[one]), one.corners());
        }
    }

    /// One on the upper edge of the same plane, one on the left edge of a plane across it, and one off the edges.
    #[test]
    fn others_on_the_edges() {
        let faces = [
            face(2, 0, [0, 0], [4, 4]),
            face(2, 0, [1, 4], [6, 5]),
            face(0, 0, [2, 0], [6, 1]),
            face(2, 3, [1, 0], [2, 4]),
        ];
        let ring = [[0, 0, 0], [4, 0, 0], [4, 4, 0], [1, 4, 0], [0, 4, 0], [0, 2, 0]];
        assert_eq!(around(&faces), ring);
    }

    #[test]
    fn a_corner_has_one_number() {
        let corners = Corners::of(&[face(2, 0, [0, 0], [1, 1]), face(2, 0, [1, 0], [2, 1])]);
        assert_eq!(corners.points.len(), 6);
    }
}

//! What is left of a rectangle when others, its covers, are cut out of it. A line goes up the second axis; the covers
//! that it meets leave gaps between them, and each gap is one rectangle for as long as it stays the same.

use super::faces::{Face, ends};
use std::collections::BTreeMap;

/// Appends the rectangles that are left of a face. The covers lie in the face and do not overlap, so a gap changes only
/// where one of them begins in it or ends beside it: n covers leave 3n + 1 rectangles at most.
pub fn cut_out(face: &Face, covers: &[Face], left: &mut Vec<Face>) {
    let mut gaps = Gaps { face, open: BTreeMap::new(), left };
    gaps.begin(face.low[0], face.high[0], face.low[1]);
    for (at, begins, number) in ends(covers) {
        let (low, high) = (covers[number].low[0], covers[number].high[0]);
        if begins {
            gaps.part(low, high, at);
        } else {
            gaps.join(low, high, at);
        }
    }
    gaps.end_all();
}

struct Gaps<'a> {
    face: &'a Face,
    /// By its low on the first axis, a gap's high there and where on the second axis it began.
    open: BTreeMap<i32, (i32, i32)>,
    left: &'a mut Vec<Face>,
}

impl Gaps<'_> {
    fn begin(&mut self, low: i32, high: i32, at: i32) {
        if low < high {
            self.open.insert(low, (high, at));
        }
    }

    /// Ends the gap with this low, where there is one, and answers its high.
    fn end(&mut self, low: i32, at: i32) -> Option<i32> {
        let (high, since) = self.open.remove(&low)?;
        if since < at {
            self.left.push(Face { low: [low, since], high: [high, at], ..*self.face });
        }
        Some(high)
    }

    /// The low of the last gap that begins at a place of the first axis or before it, and its high.
    fn before(&self, place: i32) -> Option<(i32, i32)> {
        self.open.range(..=place).next_back().map(|(low, (high, _))| (*low, *high))
    }

    /// A cover begins: it lies in one gap, of which two may be left.
    fn part(&mut self, low: i32, high: i32, at: i32) {
        if let Some((first, last)) = self.before(low) {
            self.end(first, at);
            self.begin(first, low, at);
            self.begin(high, last, at);
        }
    }

    /// A cover ends: its place and the gaps on both sides of it are one gap.
    fn join(&mut self, low: i32, high: i32, at: i32) {
        let first = self.before(low).filter(|(_, last)| *last == low).map_or(low, |(first, _)| first);
        self.end(first, at);
        let last = self.end(high, at).unwrap_or(high);
        self.begin(first, last, at);
    }

    fn end_all(mut self) {
        while let Some((low, _)) = self.open.first_key_value() {
            self.end(*low, self.face.high[1]);
        }
    }
}

#[cfg(test)]
mod tests {
    use super::*;

    fn face(low: [i32; 2], high: [i32; 2]) -> Face {
        Face { axis: 2, place: 7, low, high, up: true, cell: 0 }
    }

    fn left(covers: &[Face]) -> Vec<Face> {
        let mut left = Vec::new();
        cut_out(&face([0, 0], [8, 8]), covers, &mut left);
        left
    }

    #[test]
    fn all_is_left_or_nothing() {
        assert_eq!(left(&[]), [face([0, 0], [8, 8])]);
        assert_eq!(left(&[face([0, 0], [8, 8])]), []);
        let quarters = [[0, 0], [4, 0], [0, 4], [4, 4]].map(|[u, v]| face([u, v], [u + 4, v + 4]));
        assert_eq!(left(&quarters), []);
    }

    #[test]
    fn in_the_middle() {
        let around = [face([0, 0], [8, 3]), face([0, 3], [2, 5]), face([4, 3], [8, 5]), face([0, 5], [8, 8])];
        assert_eq!(left(&[face([2, 3], [4, 5])]), around);
    }

    /// The first ends where the second, beside it, goes on.
    #[test]
    fn side_by_side() {
        let covers = [face([0, 0], [4, 2]), face([4, 0], [8, 6])];
        assert_eq!(left(&covers), [face([0, 2], [4, 6]), face([0, 6], [8, 8])]);
    }

    #[test]
    fn each_tick_square_is_left_once_or_cut_out() {
        let covers = [
            face([0, 1], [2, 3]),
            face([2, 0], [5, 4]),
            face([6, 2], [8, 8]),
            face([1, 4], [3, 5]),
            face([3, 4], [6, 7]),
            face([0, 7], [2, 8]),
        ];
        let left = left(&covers);
        assert!(left.len() <= 3 * covers.len() + 1);
        let holds = |face: &&Face, u, v| face.low[0] <= u && u < face.high[0] && face.low[1] <= v && v < face.high[1];
        for (u, v) in (0..8).flat_map(|u| (0..8).map(move |v| (u, v))) {
            let count = left.iter().chain(&covers).filter(|face| holds(face, u, v)).count();
            assert_eq!(count, 1, "{u} {v}");
        }
    }
}

//! Walks on which the tie rule tells: boxes whose longest spans tie, or miss it by a tick, at levels with a grade axis
//! and without one.

use crate::entries::*;
use crate::walk::{self, Bounds};
use request::{Call, Description, Request};

/// A quarter of the period along each axis, where both surfaces come to 0.
const MIDDLE: i64 = PLAIN[PERIOD] / 4;
/// The longest span, or one tick less or more.
const SPAN: i64 = 1024;
/// Deep enough for three cuts of a cube and one more.
const DEPTH: i64 = 4;

/// A box about the middle, by its spans.
fn about_the_middle(spans: [i64; 3]) -> Bounds {
    let low = spans.map(|span| MIDDLE - span / 2);
    std::array::from_fn(|i| if i < 3 { low[i] } else { low[i - 3] + spans[i - 3] })
}

/// A cube; boxes of which one side is a tick shorter, so that the others tie; and of which one is a tick longer, alone.
fn spans() -> [[i64; 3]; 7] {
    let mut out = [[SPAN; 3]; 7];
    for axis in 0..3 {
        out[1 + axis][axis] -= 1;
        out[4 + axis][axis] += 1;
    }
    out
}

/// A linear level along one axis, its anchors by their places seen from the middle.
fn linear(axis: usize, anchors: [i64; 2], ends: [i64; 2]) -> Description {
    let mut d = PLAIN;
    d[LEVEL_KIND] = LINEAR;
    [d[FROM + axis], d[TO + axis]] = anchors.map(|anchor| MIDDLE + anchor);
    [d[START], d[END]] = ends;
    d
}

/// A ramp along one axis, at 0 in the middle.
fn ramp(axis: usize) -> Description {
    linear(axis, [-5120, 5120], [-RAMP, RAMP])
}

/// A walk with as many bytes as its cells want.
fn exact(request: Request) -> Request {
    Request { table: walk::room(&request), ..request }
}

/// A walk by the default rule, of a box about the middle.
fn walk_of(description: Description, spans: [i64; 3], depth: i64) -> Request {
    exact(Request { whole: about_the_middle(spans), depth, ..Request::new(Call::Walk, description) })
}

/// The same walk by the other rule.
pub fn by_the_lowest_axis(request: &Request) -> Request {
    exact(Request { rule: LOWEST_AXIS, ..*request })
}

/// Every box at a ramp along each axis, of either surface.
fn graded() -> Vec<Request> {
    let descriptions = (0..3).flat_map(|axis| [ramp(axis), primitive(ramp(axis))]);
    descriptions.flat_map(|d| spans().map(|spans| walk_of(d, spans, DEPTH))).collect()
}

/// A cube at levels that are just graded, along y and along z: ends that differ by one count, anchors in the other
/// order, and a ramp far from the cube, over which the level is constant.
fn just_graded() -> Vec<Request> {
    let levels = |axis| {
        [
            linear(axis, [-5, 5], [0, 1]),
            linear(axis, [5120, -5120], [-RAMP, RAMP]),
            linear(axis, [100_000, 110_000], [0, RAMP]),
        ]
    };
    [1, 2].into_iter().flat_map(levels).map(|d| walk_of(d, [SPAN; 3], DEPTH)).collect()
}

/// A cube at levels without a grade axis: equal ends, with anchors that differ along each axis or along two; and a
/// constant one whose unused entries are a ramp's.
fn ungraded() -> Vec<Request> {
    let equal = (0..3).map(|axis| linear(axis, [-5120, 5120], [0, 0]));
    let mut diagonal = linear(1, [-5120, 5120], [0, 0]);
    diagonal[TO + 2] = MIDDLE;
    let constant = [1, 2].map(|axis| {
        let mut d = linear(axis, [-5120, 5120], [0, RAMP]);
        d[LEVEL_KIND] = CONSTANT;
        d
    });
    let levels = equal.chain([diagonal]).chain(constant);
    levels.flat_map(|d| [d, primitive(d)]).map(|d| walk_of(d, [SPAN; 3], DEPTH)).collect()
}

/// Boxes that are walked down to tick cubes, for nothing settles, at a ramp along y and along z.
fn to_tick_cubes() -> Vec<Request> {
    let boxes = [[2, 2, 2], [3, 3, 3], [1, 2, 2], [2, 1, 2], [2, 2, 1], [4, 4, 3], [3, 4, 4], [1, 1, 3]];
    let descriptions = [1, 2].map(|axis| {
        let mut d = ramp(axis);
        d[PERIOD] = 1;
        d
    });
    descriptions.into_iter().flat_map(|d| boxes.map(|spans| walk_of(d, spans, 24))).collect()
}

/// All of them.
pub fn all() -> Vec<Request> {
    [graded(), just_graded(), ungraded(), to_tick_cubes()].concat()
}

#[cfg(test)]
mod tests {
    use super::*;
    use request::{Answer, SLOT};

    /// The axis across which a walk cuts its box first: the one on which its first cell, of two, ends early.
    fn first_cut(request: &Request) -> usize {
        let once = exact(Request { depth: 1, ..*request });
        let Answer::Walked(walked) = walk::answer(&once) else { panic!("a walk's answer") };
        assert_eq!((walked.status, walked.table.len()), (0, 3 * SLOT), "{once}");
        let high = |axis: usize| i32::from_le_bytes(walked.table[SLOT + 20 + 4 * axis..][..4].try_into().unwrap());
        let cut: Vec<usize> = (0..3).filter(|axis| i64::from(high(*axis)) != once.whole[3 + axis]).collect();
        assert_eq!(cut.len(), 1, "{once}");
        cut[0]
    }

    /// The first cuts by the default rule, and by the other.
    fn cuts(requests: &[Request]) -> [Vec<usize>; 2] {
        let lowest = requests.iter().map(|request| first_cut(&by_the_lowest_axis(request)));
        [requests.iter().map(first_cut).collect(), lowest.collect()]
    }

    #[test]
    fn a_box_is_cut_across_the_grade_axis_where_it_ties() {
        if !reference::AT_HAND {
            return;
        }
        // A cube; x, y, z a tick shorter; x, y, z a tick longer.
        let lowest = [0, 1, 0, 0, 0, 1, 2];
        let by_default = [lowest, [1, 1, 0, 1, 0, 1, 2], [2, 2, 2, 0, 0, 1, 2]];
        for (pair, by_default) in graded().chunks_exact(14).zip(by_default) {
            assert_eq!(cuts(pair), [[by_default; 2].concat(), [lowest; 2].concat()]);
        }
    }

    #[test]
    fn what_is_a_grade_and_what_is_none() {
        if !reference::AT_HAND {
            return;
        }
        assert_eq!(cuts(&just_graded()), [vec![1, 1, 1, 2, 2, 2], vec![0; 6]]);
        assert_eq!(cuts(&ungraded()), [vec![0; 12], vec![0; 12]]);
    }

    /// A box of n tick cubes has n cells by either rule, in another order where the rules cut it otherwise.
    #[test]
    fn down_to_tick_cubes() {
        if !reference::AT_HAND {
            return;
        }
        let mut otherwise = 0;
        for request in to_tick_cubes() {
            let lowest = by_the_lowest_axis(&request);
            assert_eq!(walk::cells(&request).map(u64::from), Some(walk::volume(&request.whole)), "{request}");
            assert_eq!(lowest.table, request.table);
            otherwise += u32::from(!walk::answer(&request).same(&walk::answer(&lowest)));
        }
        assert!(otherwise > 5, "{otherwise}");
    }
}

//! Document 01's table of refusals, read once more, with the kind and the tie rules that document 02 admits: which
//! number it gives a request, and whether the original lacks it.

use crate::entries::*;
use request::{Call, Description, Request, Shape};

/// The largest size of an end or a point.
const FAR: f64 = (1_u64 << 40) as f64;

fn outside(d: &Description, mut entries: impl Iterator<Item = usize>) -> bool {
    entries.any(|i| !limits(i).contains(&d[i]))
}

/// Row 1. `grade_range` takes a level only.
fn limited(request: &Request) -> bool {
    let entries = match request.call {
        Call::GradeRange => LEVEL_KIND..W,
        _ => 0..18,
    };
    outside(&request.description, entries)
        || request.whole().iter().any(|n| n.abs_diff(0) > TICKS as u64)
        || request.call.shape() == Shape::WorldPiece && request.piece > 2
}

/// A walk's rule that is none, which is tested before all that the documents refuse.
fn no_rule(request: &Request) -> bool {
    request.call == Call::Walk && ![GRADE_AXIS, LOWEST_AXIS].contains(&request.rule)
}

/// The sizes of the anchors' difference on each axis.
fn apart(d: &Description) -> [i64; 3] {
    std::array::from_fn(|i| (d[TO + i] - d[FROM + i]).abs())
}

/// Certification of a linear level whose ends differ.
fn certification(d: &Description) -> Option<u32> {
    let apart = apart(d);
    let rise = (d[END] - d[START]).abs();
    if apart.iter().filter(|n| **n != 0).count() != 1 {
        return Some(4);
    }
    let wide = [d[START], d[END]].iter().any(|n| n.abs() > RAMP);
    (wide || 10 * rise > apart.iter().sum()).then_some(5)
}

/// The rows from the period to the frame.
fn description(d: &Description) -> Option<u32> {
    if d[PERIOD] <= 0 {
        return Some(2);
    }
    if d[KIND] == SHEET {
        return Some(3);
    }
    if d[LEVEL_KIND] == LINEAR && apart(d) == [0; 3] {
        return Some(2);
    }
    if d[LEVEL_KIND] == DISTANCE {
        return Some(3);
    }
    if d[LEVEL_KIND] == LINEAR && d[START] != d[END] {
        let refused = certification(d);
        if refused.is_some() {
            return refused;
        }
    }
    let part_frame = d[W] > 0 && d[X..].iter().all(|n| *n == 0);
    (!part_frame).then_some(3)
}

fn low_above_high(whole: &[i64; 6]) -> bool {
    (0..3).any(|i| whole[i] > whole[3 + i])
}

fn range(request: &Request) -> Option<u32> {
    let d = &request.description;
    if low_above_high(&request.whole) {
        return Some(6);
    }
    match d[LEVEL_KIND] {
        DISTANCE => Some(7),
        LINEAR if apart(d) == [0; 3] => Some(8),
        _ => None,
    }
}

/// "`residual`, `affine_residual` and `box_state` meet an infinite end after 9 and before 10".
fn meets_infinity(call: Call) -> bool {
    matches!(call, Call::Residual | Call::AffineResidual | Call::BoxState)
}

fn floats(request: &Request) -> Option<u32> {
    let doubles = request.doubles();
    let pairs = request.call.shape() != Shape::Point;
    if doubles.iter().any(|v| v.is_nan()) || pairs && doubles.chunks_exact(2).any(|ends| ends[0] > ends[1]) {
        return Some(9);
    }
    if meets_infinity(request.call) && doubles.iter().any(|v| v.is_infinite()) {
        return None;
    }
    doubles.iter().any(|v| v.abs() > FAR).then_some(10)
}

/// A walk's rows but 13, which wants the cells counted.
fn walk(request: &Request) -> Option<u32> {
    if (0..3).any(|i| request.whole[3 + i] - request.whole[i] < 1) {
        return Some(11);
    }
    (!(0..=24).contains(&request.depth)).then_some(12)
}

/// The number by which document 01 refuses a request; none where that is 13.
pub fn refusal(request: &Request) -> Option<u32> {
    if no_rule(request) || limited(request) {
        return Some(1);
    }
    if request.call == Call::GradeRange {
        return range(request);
    }
    description(&request.description).or_else(|| match request.call {
        Call::LevelPiece => low_above_high(&request.whole).then_some(6),
        Call::Walk => walk(request),
        _ => floats(request),
    })
}

/// The same where the original has no such refusal: 1, 9, 10, and 6 for `level_piece`. The walk beside it has them all.
pub fn added(request: &Request) -> Option<u32> {
    refusal(request).filter(|number| match number {
        1 | 9 | 10 => request.call != Call::Walk,
        6 => request.call == Call::LevelPiece,
        _ => false,
    })
}

#[cfg(test)]
mod tests {
    use super::*;

    /// A ramp along x.
    fn ramp(length: i64, start: i64, end: i64) -> Description {
        let mut d = PLAIN;
        (d[LEVEL_KIND], d[TO], d[START], d[END]) = (LINEAR, length, start, end);
        d
    }

    fn graded(d: Description) -> Option<u32> {
        refusal(&Request::new(Call::Graded, d))
    }

    fn with(entries: &[(usize, i64)], mut d: Description) -> Description {
        for (i, n) in entries {
            d[*i] = *n;
        }
        d
    }

    #[test]
    fn marked_values() {
        assert_eq!(graded(ramp(5120, -256, 256)), None); // (9)
        assert_eq!(graded(ramp(5119, -256, 256)), Some(5)); // (10)
        assert_eq!(graded(ramp(10240, 257, 256)), Some(5)); // (11)
        assert_eq!(graded(ramp(0, 7, 7)), Some(2)); // (12)
    }

    #[test]
    fn limits_are_inclusive_and_bind_unused_entries() {
        assert_eq!(graded(with(&[(END, 4096)], PLAIN)), None);
        assert_eq!(graded(with(&[(END, -4097)], PLAIN)), Some(1));
        assert_eq!(graded(with(&[(FROM, TICKS + 1)], PLAIN)), Some(1));
        assert_eq!(graded(with(&[(LEVEL_KIND, -1), (PERIOD, 0)], PLAIN)), Some(1));
        assert_eq!(graded(with(&[(17, i64::MIN)], PLAIN)), Some(1));
        assert_eq!(graded(ramp(-TICKS, 0, 1)), None);
    }

    #[test]
    fn kinds() {
        let numbers = [-1, NETWORK, SHEET, PRIMITIVE, 3].map(|kind| graded(with(&[(KIND, kind)], PLAIN)));
        assert_eq!(numbers, [Some(1), None, Some(3), None, Some(1)]);
    }

    #[test]
    fn rows_in_order() {
        let bad_frame = [(W, 0)];
        assert_eq!(graded(with(&[(PERIOD, 0), (KIND, 1)], PLAIN)), Some(2));
        assert_eq!(graded(with(&[(KIND, 1)], ramp(0, 0, 1))), Some(3));
        assert_eq!(graded(with(&bad_frame, ramp(0, 0, 1))), Some(2));
        assert_eq!(graded(with(&[(LEVEL_KIND, 2)], PLAIN)), Some(3));
        assert_eq!(graded(with(&[(TO + 1, 1)], ramp(10240, 300, 0))), Some(4));
        assert_eq!(graded(with(&bad_frame, ramp(9, 0, 1))), Some(5));
        assert_eq!(graded(with(&bad_frame, PLAIN)), Some(3));
        assert_eq!(graded(with(&[(17, 1)], PLAIN)), Some(3));
        // Equal ends are a constant: neither 4 nor 5.
        assert_eq!(graded(with(&[(TO + 1, 1)], ramp(1, 4000, 4000))), None);
    }

    #[test]
    fn whole_boxes() {
        let ask = |call, d, whole| {
            let request = Request { whole, ..Request::new(call, d) };
            (refusal(&request), added(&request))
        };
        let reversed = [0, 0, 1, 0, 0, 0];
        let far = [0, 0, 0, 0, 0, TICKS + 1];
        assert_eq!(ask(Call::LevelPiece, PLAIN, reversed), (Some(6), Some(6)));
        assert_eq!(ask(Call::GradeRange, PLAIN, reversed), (Some(6), None));
        assert_eq!(ask(Call::LevelPiece, with(&[(W, 0)], PLAIN), reversed), (Some(3), None));
        assert_eq!(ask(Call::LevelPiece, [0; 18], far), (Some(1), Some(1)));
        // A level only: a period of −2^20 − 1 is no matter.
        let level = with(&[(PERIOD, -TICKS - 1), (LEVEL_KIND, 2)], PLAIN);
        assert_eq!(ask(Call::GradeRange, level, [0; 6]), (Some(7), None));
        assert_eq!(ask(Call::GradeRange, ramp(0, 0, 1), [0; 6]), (Some(8), None));
        assert_eq!(ask(Call::GradeRange, ramp(0, 0, 1), reversed), (Some(6), None));
        let minimum = [i64::MIN, 0, 0, 0, 0, 0];
        assert_eq!(ask(Call::GradeRange, PLAIN, minimum), (Some(1), Some(1)));
    }

    #[test]
    fn walks() {
        let ask = |d, whole, depth| {
            let request = Request { whole, depth, ..Request::new(Call::Walk, d) };
            let by = |rule| refusal(&Request { rule, ..request });
            assert_eq!(added(&request), None);
            assert_eq!(by(LOWEST_AXIS), by(GRADE_AXIS));
            assert_eq!([2, 3, 1 << 31, u32::MAX].map(by), [Some(1); 4]);
            refusal(&request)
        };
        let (cube, flat) = ([-1, -1, -1, 0, 0, 0], [0, 0, 0, 1, 1, 0]);
        assert_eq!(ask(PLAIN, cube, 0), None);
        assert_eq!(ask(PLAIN, cube, 24), None);
        assert_eq!(ask(PLAIN, [-TICKS, -TICKS, -TICKS, TICKS, TICKS, TICKS], 1), None);
        assert_eq!(ask(PLAIN, cube, 25), Some(12));
        assert_eq!(ask(PLAIN, cube, i64::MIN), Some(12));
        assert_eq!(ask(PLAIN, flat, -1), Some(11));
        assert_eq!(ask(PLAIN, [0, 1, 0, 1, 0, 1], 0), Some(11));
        assert_eq!(ask(with(&[(W, 0)], PLAIN), flat, -1), Some(3));
        assert_eq!(ask(with(&[(PERIOD, 0)], PLAIN), [0, 0, 0, 0, 0, TICKS + 1], 0), Some(1));
        assert_eq!(ask(PLAIN, [i64::MIN, 0, 0, i64::MAX, 1, 1], 0), Some(1));
    }

    #[test]
    fn doubles() {
        let ask = |call, x: [f64; 2], period| {
            let mut request = Request::new(call, with(&[(PERIOD, period)], PLAIN));
            request.doubles[..2].copy_from_slice(&x);
            added(&request)
        };
        let far = FAR.next_up();
        assert_eq!(ask(Call::Jet, [-FAR, FAR], 1), None);
        assert_eq!(ask(Call::Jet, [0.0, far], 1), Some(10));
        assert_eq!(ask(Call::Jet, [0.0, f64::INFINITY], 1), Some(10));
        assert_eq!(ask(Call::Jet, [1.0, 0.0], 1), Some(9));
        assert_eq!(ask(Call::Jet, [0.0, -0.0], 1), None);
        assert_eq!(ask(Call::Jet, [f64::NAN, 0.0], 0), None); // 2 comes first
        assert_eq!(ask(Call::Residual, [-far, f64::INFINITY], 1), None);
        assert_eq!(ask(Call::Residual, [f64::INFINITY, 0.0], 1), Some(9));
        assert_eq!(ask(Call::BoxState, [0.0, far], 1), Some(10));
        assert_eq!(ask(Call::Fast, [1.0, 0.0], 1), None);
        assert_eq!(ask(Call::Fast, [0.0, f64::NAN], 1), Some(9));
        assert_eq!(ask(Call::FastDistance, [0.0, f64::INFINITY], 1), Some(10));
        // A piece that is none is row 1.
        let mut request = Request::new(Call::Derivatives, [0; 18]);
        assert_eq!(added(&request), None);
        request.piece = 3;
        assert_eq!(added(&request), Some(1));
    }
}

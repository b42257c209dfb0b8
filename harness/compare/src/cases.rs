//! The requests that are compared: a fixed systematic part, and cases by chance.

use crate::chance::Chance;
use crate::entries::*;
use crate::{boxes, descriptions, specials, ties, walks};
use request::{Call, Description, Request, Shape};

/// A box; for the jets half of them small, since a wide one has none.
fn world(c: &mut Chance, call: Call, d: &Description) -> [f64; 6] {
    match call {
        Call::Jet | Call::AffineJet if c.once_in(2) => boxes::rounded(c, d),
        _ => boxes::world(c, d),
    }
}

/// A request about a description.
pub fn about(c: &mut Chance, call: Call, d: Description) -> Request {
    let mut request = Request::new(call, d);
    match call.shape() {
        Shape::Nothing => {}
        Shape::Whole => request.whole = boxes::whole(c, &d),
        Shape::World => request.doubles[..6].copy_from_slice(&world(c, call, &d)),
        Shape::WorldPiece => {
            request.doubles[..6].copy_from_slice(&world(c, call, &d));
            request.piece = c.one_of(&[0, 1, 2]);
            if c.once_in(32) {
                request.piece = c.one_of(&[3, 4, 1 << 31, u32::MAX]);
            }
        }
        Shape::Corners => request.doubles = boxes::corners(c, &d),
        Shape::Point => request.doubles[..3].copy_from_slice(&boxes::point(c, &d)),
        Shape::Walk => walks::set_by_any_rule(c, &mut request),
    }
    request
}

/// Case `index` of a call.
pub fn by_chance(call: Call, seed: u64, index: u64) -> Request {
    let c = &mut Chance::new(seed, call as u64, index);
    let d = descriptions::description(c);
    about(c, call, d)
}

/// Of either surface a constant, a ramp along each axis, either way and at either slope's limit, and equal ends; and one that is
/// refused.
fn bases() -> Vec<Description> {
    let ramp = |axis: usize, from: i64, to: i64, start: i64, end: i64| {
        let mut d = PLAIN;
        (d[LEVEL_KIND], d[START], d[END]) = (LINEAR, start, end);
        (d[FROM + axis], d[TO + axis]) = (from, to);
        d
    };
    let mut refused = PLAIN;
    refused[PERIOD] = 0;
    let networks = [
        PLAIN,
        ramp(0, 0, 10240, -256, 256),
        ramp(1, 1024, -4096, 256, -256),
        ramp(2, -TICKS, TICKS, 1, 0),
        ramp(0, 10240, 0, 7, 7),
    ];
    let primitives = networks.map(primitive);
    networks.into_iter().chain(primitives).chain([refused]).collect()
}

/// A box that is small, on no anchor plane, and in order.
fn quiet(call: Call, d: Description) -> Request {
    let mut request = Request::new(call, d);
    for i in 0..call.shape().whole() {
        request.whole[i] = 1 + i as i64 / 3;
    }
    for i in 0..call.shape().doubles() {
        request.doubles[i] = (1 + i % 2) as f64 / 1024.0;
    }
    if call.shape() == Shape::Walk {
        (request.depth, request.table) = (2, 4096);
    }
    request
}

/// Every entry of each base at every special number, and every pair of the table's rows broken.
fn entries(call: Call, out: &mut Vec<Request>) {
    for base in bases() {
        for i in 0..18 {
            for n in specials::whole() {
                let mut request = quiet(call, base);
                request.description[i] = n;
                out.push(request);
            }
        }
        let c = &mut Chance::new(0, call as u64, 0);
        for first in descriptions::ROWS {
            for second in descriptions::ROWS {
                let mut request = quiet(call, base);
                first(c, &mut request.description);
                second(c, &mut request.description);
                out.push(request);
            }
        }
    }
}

/// Every pair of special ticks as the ends of each axis, and the neighbours of the anchors.
fn whole_pairs(call: Call, out: &mut Vec<Request>) {
    for base in bases() {
        for axis in 0..3 {
            let mut places = specials::whole();
            for anchor in [base[FROM + axis], base[TO + axis]] {
                places.extend([anchor - 1, anchor, anchor + 1]);
            }
            for low in &places {
                for high in &places {
                    let mut request = quiet(call, base);
                    (request.whole[axis], request.whole[axis + 3]) = (*low, *high);
                    out.push(request);
                }
            }
        }
    }
}

/// Every pair of special doubles in two places: the ends of each interval, or two coordinates of a point.
fn double_pairs(call: Call, out: &mut Vec<Request>) {
    let specials = specials::doubles();
    let places: Vec<[usize; 2]> = match call.shape() {
        Shape::Point => vec![[0, 1], [1, 2], [2, 0]],
        shape => (0..shape.doubles()).step_by(2).map(|i| [i, i + 1]).collect(),
    };
    for (number, base) in bases().into_iter().enumerate() {
        for [i, j] in &places {
            for a in &specials {
                for b in &specials {
                    let mut request = quiet(call, base);
                    (request.doubles[*i], request.doubles[*j]) = (*a, *b);
                    if call.shape() == Shape::WorldPiece {
                        request.piece = number as u32 % 3;
                    }
                    out.push(request);
                }
            }
        }
    }
}

/// Boxes that end up to 16 of the least doubles before or behind 0, where anchor planes stand. There it hangs on a sum that is kept
/// exact whether the box has a piece.
fn beside_zero(call: Call, out: &mut Vec<Request>) {
    for base in bases() {
        for axis in 0..3 {
            for near in (1..=16).map(f64::from_bits) {
                for ends in [[-1.0 / 1024.0, -near], [near, 1.0 / 1024.0]] {
                    let mut request = quiet(call, base);
                    request.doubles[2 * axis..][..2].copy_from_slice(&ends);
                    out.push(request);
                }
            }
        }
    }
}

fn pieces(call: Call, out: &mut Vec<Request>) {
    for base in bases() {
        for piece in [0, 1, 2, 3, 4, 1 << 31, u32::MAX] {
            let mut request = quiet(call, base);
            request.piece = piece;
            out.push(request);
        }
    }
}

/// A walk of a box with room to halve.
fn quiet_walk(call: Call, d: Description) -> Request {
    let mut request = quiet(call, d);
    request.whole[3..].copy_from_slice(&[9, 8, 9]);
    request
}

/// A walk with one row more of the refusal table broken: each of the description's, and each of the walk's own.
fn broken_too(c: &mut Chance, request: &Request, out: &mut Vec<Request>) {
    out.extend(descriptions::ROWS.map(|row| {
        let mut both = *request;
        row(c, &mut both.description);
        both
    }));
    out.extend(walks::ROWS.map(|row| {
        let mut both = *request;
        row(&mut both);
        both
    }));
}

/// Walks of a box with room to halve: depths and tables at their limits, and every pair of the refusal table's rows
/// broken of which one at least is the walk's own; one that no table holds, the deepest cells, and boxes whose spans
/// tie.
fn walks_of(call: Call, out: &mut Vec<Request>) {
    out.push(walks::hopeless());
    walks::deep(out);
    out.extend(ties::all());
    let c = &mut Chance::new(0, call as u64, 0);
    for base in bases() {
        let quiet = quiet_walk(call, base);
        walks::systematic(&quiet, out);
        for own in walks::ROWS {
            let mut request = quiet;
            own(&mut request);
            broken_too(c, &request, out);
        }
    }
}

/// Every walk so far by the lowest-axis rule too.
fn by_either_rule(out: &mut Vec<Request>) {
    let lowest: Vec<Request> = out.iter().map(|request| Request { rule: LOWEST_AXIS, ..*request }).collect();
    out.extend(lowest);
}

/// Walks by rules that are none, and every row of the refusal table broken beside.
fn by_no_rule(call: Call, out: &mut Vec<Request>) {
    let c = &mut Chance::new(0, call as u64, 1);
    for base in bases() {
        for rule in walks::NO_RULES {
            let request = Request { rule, ..quiet_walk(call, base) };
            out.push(request);
            broken_too(c, &request, out);
        }
    }
}

/// The systematic part of a call: the same for every seed.
pub fn systematic(call: Call) -> Vec<Request> {
    let mut out = Vec::new();
    entries(call, &mut out);
    if call.shape().whole() > 0 {
        whole_pairs(call, &mut out);
    }
    if call.shape() == Shape::Walk {
        walks_of(call, &mut out);
        by_either_rule(&mut out);
        by_no_rule(call, &mut out);
    }
    if matches!(call.shape(), Shape::World | Shape::WorldPiece) {
        beside_zero(call, &mut out);
    }
    if call.shape() == Shape::WorldPiece {
        pieces(call, &mut out);
    }
    double_pairs(call, &mut out);
    out
}

#[cfg(test)]
mod tests {
    use super::*;
    use crate::added;

    #[test]
    fn accepted_descriptions_are_accepted() {
        let mut primitives = 0;
        for index in 0..20_000 {
            let d = descriptions::accepted(&mut Chance::new(7, 0, index));
            assert_eq!(added::refusal(&Request::new(Call::Graded, d)), None, "{d:?}");
            primitives += u32::from(d[KIND] == PRIMITIVE);
        }
        assert!((9_000..11_000).contains(&primitives), "{primitives} of the primitive surface");
    }

    #[test]
    fn rows_are_broken() {
        for index in 0..2_000 {
            for (row, number) in descriptions::ROWS.into_iter().zip([1, 2, 3, 2, 3, 4, 5, 5, 3, 3, 3]) {
                let c = &mut Chance::new(8, 0, index);
                let mut d = descriptions::accepted(c);
                row(c, &mut d);
                assert_eq!(added::refusal(&Request::new(Call::Graded, d)), Some(number), "{d:?}");
            }
        }
    }

    #[test]
    fn a_case_depends_on_its_seed_and_index_alone() {
        let text = |seed, index| by_chance(Call::FacetResidual, seed, index).to_string();
        assert_eq!(text(1, 5), text(1, 5));
        assert_ne!(text(1, 5), text(1, 6));
        assert_ne!(text(1, 5), text(2, 5));
    }
}

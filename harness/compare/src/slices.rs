//! What the static library promises of lent slices: lengths are tested before all else, a slice without entries may be
//! null, no address needs to be aligned, and nothing is written but found values. A walk's table has a file of its own.

use crate::placed::Placed;
use crate::{cases, lent_table};
use gyroid_cells::raw::{self, FOUND, LENGTH, NONE, OnDescription, OnSlice};
use request::{Answer, Call, Request, Shape};

/// What stands in `out` before a call: no value's bits.
const UNTOUCHED: u64 = 0x7FF8_DEAD_BEEF_0000;
/// Room for any call's values, and more.
const ROOM: usize = 30;
/// Room for any call's arguments, and one more.
const LENT: usize = 19;
/// Where slices are lent, from a multiple of 8: there, in the middle, and at an odd address.
const OFFSETS: [usize; 3] = [0, 4, 1];

/// The values that a call writes.
fn values(call: Call) -> usize {
    match call {
        Call::GradeRange | Call::Planes => 3,
        Call::Jet | Call::AffineJet => 8,
        Call::Derivatives => 24,
        Call::Residual | Call::AffineResidual | Call::FacetResidual => 2,
        Call::Curvature | Call::Lipschitz => 2,
        _ => 1,
    }
}

/// Entries as bits, with zeros behind them.
fn bits<const N: usize>(entries: [u64; N]) -> [u64; LENT] {
    let mut out = [0; LENT];
    out[..N].copy_from_slice(&entries);
    out
}

/// Lends the first so many entries of the description, of the argument and of `out`, as bits, each so many bytes past a
/// multiple of 8.
pub fn lend(request: &Request, lengths: [usize; 3], out: &mut [u64], offset: usize) -> u32 {
    let [length, lent, room] = lengths;
    let mut d = Placed::new(&bits(request.description.map(|n| n as u64)), offset);
    let mut whole = Placed::new(&bits(request.whole.map(|n| n as u64)), offset);
    let mut doubles = Placed::new(&bits(request.doubles.map(f64::to_bits)), offset);
    let mut left = Placed::new(out, offset);
    // No length is above that of the entries that are placed.
    let status = call(request, d.first(length), whole.first(lent), doubles.first(lent), left.first(room), lengths);
    out.copy_from_slice(&left.entries());
    status
}

fn call(
    request: &Request,
    d: *const i64,
    whole: *const i64,
    doubles: *const f64,
    at: *mut u64,
    [length, lent, room]: [usize; 3],
) -> u32 {
    // Every pointer is of as many entries as the length beside it says; 64 bits are 64 bits in `out`.
    let alone_f = |call: OnDescription<f64>| unsafe { call(d, length, at.cast(), room) };
    let alone_i = |call: OnDescription<i64>| unsafe { call(d, length, at.cast(), room) };
    let on_whole = |call: OnSlice<i64, i64>| unsafe { call(d, length, whole, lent, at.cast(), room) };
    let on_doubles = |call: OnSlice<f64, f64>| unsafe { call(d, length, doubles, lent, at.cast(), room) };
    match request.call {
        Call::GradeRange => on_whole(raw::gyroid_grade_range),
        Call::LevelPiece => on_whole(raw::gyroid_level_piece),
        Call::Jet => on_doubles(raw::gyroid_jet),
        Call::AffineJet => on_doubles(raw::gyroid_affine_jet),
        Call::Derivatives => unsafe {
            raw::gyroid_derivatives(d, length, doubles, lent, request.piece, at.cast(), room)
        },
        Call::Residual => on_doubles(raw::gyroid_residual),
        Call::AffineResidual => on_doubles(raw::gyroid_affine_residual),
        Call::BoxState => unsafe { raw::gyroid_box_state(d, length, doubles, lent, at.cast(), room) },
        Call::FacetResidual => on_doubles(raw::gyroid_facet_residual),
        Call::Curvature => alone_f(raw::gyroid_curvature),
        Call::Lipschitz => alone_f(raw::gyroid_lipschitz),
        Call::Saturated => alone_i(raw::gyroid_saturated),
        Call::Graded => alone_i(raw::gyroid_graded),
        Call::Planes => alone_i(raw::gyroid_planes),
        Call::FastDistance => on_doubles(raw::gyroid_fast_distance),
        Call::Fast => on_doubles(raw::gyroid_fast),
        Call::Walk => unreachable!("a walk is lent a table"),
    }
}

/// The status of our own answer.
fn status(answer: &Answer) -> u32 {
    match answer {
        Answer::Found(_) => FOUND,
        Answer::Refused(n) => *n,
        _ => NONE,
    }
}

/// The status of a call, and all of `out` afterwards.
type Outcome = (u32, [u64; ROOM]);

/// Lends slices of these lengths at an offset.
fn outcome(request: &Request, lengths: [usize; 3], offset: usize) -> Outcome {
    let mut out = [UNTOUCHED; ROOM];
    (lend(request, lengths, &mut out, offset), out)
}

/// Lends slices of these lengths at every offset, and says what is wrong with the status, or with what was written.
fn wrong(request: &Request, lengths: [usize; 3], expected: u32) -> Option<String> {
    let outcomes = OFFSETS.map(|offset| outcome(request, lengths, offset));
    let (status, out) = outcomes[0];
    let written = if expected == FOUND { values(request.call) } else { 0 };
    let left = out[written..].iter().all(|bits| *bits == UNTOUCHED);
    let made = out[..written].iter().all(|bits| *bits != UNTOUCHED);
    let alike = outcomes.iter().all(|outcome| *outcome == (status, out));
    (status != expected || !left || !made || !alike).then(|| {
        format!(
            "{request}\n    lengths {lengths:?}: status {status}, not {expected}; \
             values written: {made}, the rest kept: {left}, alike at every address: {alike}"
        )
    })
}

/// The argument's right length.
fn right(request: &Request) -> usize {
    let shape = request.call.shape();
    shape.whole() + shape.doubles()
}

/// The lengths to lend, and the status that each asks for.
fn lengths(request: &Request) -> Vec<([usize; 3], u32)> {
    let (lent, room) = (right(request), values(request.call));
    let status = status(&crate::ours::answer(request));
    let mut out = vec![
        ([18, lent, room], status),
        ([18, lent, room + 1], status),
        ([18, lent, ROOM], status),
        ([18, lent, room - 1], LENGTH),
        ([18, lent, 0], LENGTH),
        ([17, lent, room], 1),
        ([19, lent, room], 1),
        ([0, lent, room], 1),
        ([17, lent, room - 1], LENGTH),
    ];
    if request.call.shape() != Shape::Nothing {
        for other in [0, lent - 1, lent + 1] {
            out.extend([([18, other, room], LENGTH), ([19, other, room], LENGTH)]);
        }
    }
    out
}

/// Lends slices of right and wrong lengths for the first cases of a call; how many calls were made, and what was wrong.
pub fn check(call: Call, seed: u64) -> (u64, Vec<String>) {
    if call == Call::Walk {
        return lent_table::check(seed);
    }
    let requests = (0..200).map(|index| cases::by_chance(call, seed, index));
    let mut made = 0;
    let mut faults = Vec::new();
    for request in requests {
        for (lengths, expected) in lengths(&request) {
            made += OFFSETS.len() as u64;
            faults.extend(wrong(&request, lengths, expected));
        }
    }
    (made, faults)
}

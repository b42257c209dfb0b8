//! Our answer to a request, by the bindings that a service links.

use crate::{lent_report, lent_table};
use gyroid_cells::{Bounds, Description, Interval, Jet, Piece, Refusal, TieRule};
use request::{Answer, Call, LayerRequest, Reported, Request, Value, Walked, unwritten};

/// The row of three intervals that starts at a double.
fn world(doubles: &[f64], first: usize) -> [Interval; 3] {
    [0, 2, 4].map(|i| Interval::new(doubles[first + i], doubles[first + i + 1]))
}

fn ends(row: impl IntoIterator<Item = Interval>) -> Answer {
    Answer::doubles(row.into_iter().flat_map(|i| [i.lo, i.hi]))
}

fn jet(jet: Jet) -> Answer {
    ends(std::iter::once(jet.value).chain(jet.gradient))
}

/// A piece that is none has no name in the bindings, so the static library is asked itself.
fn no_piece(request: &Request) -> u32 {
    let mut out = [0; 24];
    crate::slices::lend(request, [18, 6, 24], &mut out, 0)
}

fn derivatives(request: &Request, d: &Description) -> Result<Option<Answer>, Refusal> {
    let Ok(piece) = Piece::try_from(request.piece) else {
        return Ok(Some(Answer::Refused(no_piece(request))));
    };
    let found = gyroid_cells::derivatives(d, world(&request.doubles, 0), piece)?;
    Ok(found.map(|found| ends(found.gradient.into_iter().chain(found.hessian.into_iter().flatten()))))
}

fn range(d: &Description, bounds: Bounds) -> Result<Answer, Refusal> {
    let range = gyroid_cells::grade_range(d, bounds)?;
    let fraction = |numerator: i64| Value::Fraction(numerator.into(), range.denominator.into());
    Ok(Answer::Found(vec![fraction(range.low), fraction(range.high)]))
}

fn planes(d: &Description) -> Result<Option<Answer>, Refusal> {
    let whole = |n: i64| Value::Fraction(n.into(), 1);
    Ok(gyroid_cells::planes(d)?
        .map(|planes| Answer::Found(vec![Value::Number(planes.axis as i64), whole(planes.from), whole(planes.to)])))
}

/// A rule that is none has no name in the bindings either.
fn walk(request: &Request, d: &Description, bounds: Bounds) -> Answer {
    let mut table = unwritten(request.table);
    let status = match TieRule::try_from(request.rule) {
        Ok(rule) => gyroid_cells::walk(d, bounds, request.depth, rule, &mut table).err().map_or(0, Refusal::number),
        Err(_) => lent_table::lend(request, [18, 6], &mut table),
    };
    Answer::Walked(Walked { status, table })
}

fn asked(request: &Request) -> Result<Option<Answer>, Refusal> {
    let d = &Description::from_entries(request.description);
    let [lx, ly, lz, hx, hy, hz] = request.whole;
    let bounds = Bounds { low: [lx, ly, lz], high: [hx, hy, hz] };
    let world = |first| world(&request.doubles, first);
    let point = std::array::from_fn(|i| request.doubles[i]);
    Ok(match request.call {
        Call::GradeRange => Some(range(d, bounds)?),
        Call::LevelPiece => gyroid_cells::level_piece(d, bounds)?.map(|piece| Answer::number(piece as i64)),
        Call::Jet => gyroid_cells::jet(d, world(0))?.map(jet),
        Call::AffineJet => gyroid_cells::affine_jet(d, world(0))?.map(jet),
        Call::Derivatives => derivatives(request, d)?,
        Call::Residual => gyroid_cells::residual(d, world(0))?.map(|value| ends([value])),
        Call::AffineResidual => gyroid_cells::affine_residual(d, world(0))?.map(|value| ends([value])),
        Call::BoxState => Some(Answer::number(gyroid_cells::box_state(d, world(0))? as i64)),
        Call::FacetResidual => gyroid_cells::facet_residual(d, [0, 6, 12].map(world))?.map(|value| ends([value])),
        Call::Curvature => Some(ends([gyroid_cells::curvature(d)?])),
        Call::Lipschitz => Some(ends([gyroid_cells::lipschitz(d)?])),
        Call::Saturated => gyroid_cells::saturated(d)?.map(|truth| Answer::number(truth.into())),
        Call::Graded => Some(Answer::number(gyroid_cells::graded(d)?.into())),
        Call::Planes => planes(d)?,
        Call::FastDistance => Some(Answer::doubles([gyroid_cells::fast_distance(d, point)?])),
        Call::Fast => Some(Answer::doubles([gyroid_cells::fast(d, point)?])),
        Call::Walk => Some(walk(request, d, bounds)),
    })
}

pub fn answer(request: &Request) -> Answer {
    match asked(request) {
        Ok(Some(answer)) => answer,
        Ok(None) => Answer::None,
        Err(refusal) => Answer::Refused(refusal.number()),
    }
}

/// A table that the bindings lend to a layer report cannot change, so the static library is asked itself: what it leaves
/// there is compared too.
pub fn layers(request: &LayerRequest) -> Answer {
    let (mut table, mut report) = (request.table.clone(), unwritten(request.report));
    let status = lent_report::lend(request, &mut table, &mut report);
    Answer::Reported(Reported { status, layers: request.layers(), report, table })
}

//! Asks the original by request, or by box. A child of the original's module, so that it reaches what is private there.

use super::field::Field;
use super::ported::Ported;
use super::surfaces::{Network, Primitive};
use super::{Gyroid, Jet};
use crate::grade::{Piece, grade_range};
use crate::lattice::BoxState;
use crate::{Decider, Grade, GyroidKind, Interval, Number, Pose, Rational, Refusal, Triple};
use request::{Answer, Call, Description, Request, Value};

/// Ticks in a millimetre, and level counts in a level.
const UNIT: i64 = 1024;

/// Document 02's kind.
const PRIMITIVE: i64 = 2;

pub(super) fn ticks(n: i64) -> Rational {
    Rational::from_ratio(n, UNIT).expect("1024 is not 0")
}

fn triple(ticks_of: &[i64]) -> Triple {
    Triple(std::array::from_fn(|i| Number(ticks(ticks_of[i]))))
}

fn level(d: &Description) -> Option<Grade> {
    let [start, end] = [d[9], d[10]].map(|n| Number(ticks(n)));
    match d[2] {
        0 => Some(Grade::Constant(start)),
        1 => Some(Grade::Linear { from: triple(&d[3..6]), to: triple(&d[6..9]), start, end }),
        2 => Some(Grade::Distance {}),
        _ => None,
    }
}

/// The primitive surface, which the original does not know, is compiled as its network.
fn kind(d: &Description) -> Option<GyroidKind> {
    match d[1] {
        0 | PRIMITIVE => Some(GyroidKind::Network),
        1 => Some(GyroidKind::Sheet),
        _ => None,
    }
}

/// Frame entries are plain numbers.
fn frame(d: &Description) -> Pose {
    let plain = |i: usize| Number(Rational::from_i64(d[i]));
    Pose { rotation: [11, 12, 13, 14].map(plain), translation: Triple([15, 16, 17].map(plain)) }
}

fn piece(number: u32) -> Option<Piece> {
    match number {
        0 => Some(Piece::Start),
        1 => Some(Piece::Ramp),
        2 => Some(Piece::End),
        _ => None,
    }
}

/// The intervals of a row of ends.
fn intervals<const N: usize>(ends: &[f64]) -> Option<[Interval; N]> {
    let mut out = [Interval::point(0.0)?; N];
    for (interval, pair) in out.iter_mut().zip(ends.chunks_exact(2)) {
        *interval = Interval::new(pair[0], pair[1])?;
    }
    Some(out)
}

fn ends(row: impl IntoIterator<Item = Interval>) -> Answer {
    Answer::doubles(row.into_iter().flat_map(|i| [i.lo(), i.hi()]))
}

fn jet(jet: Jet) -> Answer {
    ends(std::iter::once(jet.value).chain(jet.gradient))
}

/// Back to ticks, or to level counts.
fn counts(value: &Rational) -> Value {
    let (numerator, denominator) = (value * &Rational::from_i64(UNIT)).parts();
    Value::Fraction(numerator, denominator)
}

/// Document 01's number of a refusal's code.
fn refused(refusal: Refusal) -> Answer {
    Answer::Refused(match refusal.code {
        "gyroid.impossible" => 2,
        "gyroid.unsupported" => 3,
        "gyroid.grade-function-unsupported" => 4,
        "gyroid.grade-range-unsupported" => 5,
        "field.grade-box" => 6,
        "field.grade-unsupported" => 7,
        "field.grade-impossible" => 8,
        other => unreachable!("code {other}"),
    })
}

/// Document 01's number of a state.
fn state_number(state: BoxState) -> u32 {
    match state {
        BoxState::Inside => 1,
        BoxState::Outside => 2,
        BoxState::Unknown => 3,
    }
}

fn range(request: &Request) -> Option<Answer> {
    let level = level(&request.description)?;
    let [lo, hi] = [0, 3].map(|first| std::array::from_fn(|i| ticks(request.whole[first + i])));
    Some(match grade_range(&level, &lo, &hi, &mut Decider) {
        Ok(bounds) => Answer::Found(bounds.iter().map(counts).collect()),
        Err(refusal) => refused(refusal),
    })
}

/// The answer of a compiled leaf; nothing where the request's doubles or its piece cannot be made.
fn on_leaf(field: &dyn Field, request: &Request) -> Option<Answer> {
    let leaf = field.leaf();
    let world = || intervals::<3>(request.doubles());
    let point = || std::array::from_fn(|i| request.doubles[i]);
    let found = match request.call {
        Call::GradeRange => unreachable!("it takes a level only"),
        Call::Walk => unreachable!("the original has none"),
        Call::LevelPiece => {
            let bounds = std::array::from_fn(|i| [0, 3].map(|at| ticks(request.whole[at + i])));
            leaf.level_piece(&bounds).map(|piece| {
                Answer::number(match piece {
                    Piece::Start => 0,
                    Piece::Ramp => 1,
                    Piece::End => 2,
                })
            })
        }
        Call::Jet => field.jet(world()?).map(jet),
        Call::AffineJet => field.affine_jet(world()?).map(jet),
        Call::Derivatives => {
            let found = field.derivatives(&world()?, piece(request.piece)?);
            found.map(|(gradient, hessian)| ends(gradient.into_iter().chain(hessian.into_iter().flatten())))
        }
        Call::Residual => field.residual(&world()?).map(|value| ends([value])),
        Call::AffineResidual => field.affine_residual(&world()?).map(|value| ends([value])),
        Call::BoxState => Some(match field.box_state(&world()?) {
            Ok(state) => Answer::number(state_number(state).into()),
            Err(refusal) => refused(refusal),
        }),
        Call::FacetResidual => {
            let [a, b, c, d, e, f, g, h, i] = intervals::<9>(request.doubles())?;
            let corners = [[a, b, c], [d, e, f], [g, h, i]];
            field.facet_residual(&corners).map(|value| ends([value]))
        }
        Call::Curvature => Some(ends([leaf.curvature()])),
        Call::Lipschitz => Some(ends([leaf.lipschitz()])),
        Call::Saturated => field.saturated().map(|truth| Answer::number(truth.into())),
        Call::Graded => Some(Answer::number(leaf.graded().into())),
        Call::Planes => leaf.level_planes().map(|(axis, positions)| {
            let axis = Value::Number(axis as i64);
            let positions = positions.iter().map(counts);
            Answer::Found(std::iter::once(axis).chain(positions).collect())
        }),
        Call::FastDistance => Some(Answer::doubles([field.fast_distance(point())])),
        Call::Fast => Some(Answer::doubles([leaf.grade.fast(point())])),
    };
    Some(found.unwrap_or(Answer::None))
}

/// The compiled leaf; nothing where a kind is none of the original's cases and not the primitive surface.
fn certified(d: &Description) -> Option<Result<Gyroid, Refusal>> {
    Some(Gyroid::certified(&ticks(d[0]), &level(d)?, kind(d)?, &frame(d)))
}

/// The surface of a description over its compiled leaf.
fn surface(d: &Description, leaf: Gyroid) -> Box<dyn Field> {
    match d[1] {
        PRIMITIVE => Box::new(Ported::<Primitive>::new(leaf)),
        _ => Box::new(leaf),
    }
}

/// The network by the port.
fn ported_network(_: &Description, leaf: Gyroid) -> Box<dyn Field> {
    Box::new(Ported::<Network>::new(leaf))
}

type Made = fn(&Description, Gyroid) -> Box<dyn Field>;

fn on_description(request: &Request, made: Made) -> Option<Answer> {
    match certified(&request.description)? {
        Ok(leaf) => on_leaf(&*made(&request.description, leaf), request),
        Err(refusal) => Some(refused(refusal)),
    }
}

fn asked(request: &Request, made: Made) -> Answer {
    let answer = match request.call {
        Call::GradeRange => range(request),
        Call::Walk => return Answer::Unavailable,
        _ => on_description(request, made),
    };
    answer.unwrap_or(Answer::Unmade)
}

pub(crate) fn answer(request: &Request) -> Answer {
    asked(request, surface)
}

/// The port's answer where the original's is about the network.
pub(crate) fn ported(request: &Request) -> Answer {
    asked(request, ported_network)
}

/// A compiled leaf, to be asked about box after box.
pub struct Leaf(Box<dyn Field>);

impl Leaf {
    /// Nothing where the original refuses the description.
    pub fn new(d: &Description) -> Option<Self> {
        certified(d)?.ok().map(|leaf| Leaf(surface(d, leaf)))
    }

    /// The number of the state of a box of whole ticks, "its ends n/1024 exactly".
    pub fn state(&self, bounds: &[i64; 6]) -> u32 {
        let end = |i: usize| bounds[i] as f64 / UNIT as f64;
        let world = [0, 1, 2].map(|i| Interval::new(end(i), end(i + 3)).expect("a span is not below 0"));
        let state = self.0.box_state(&world);
        state_number(state.unwrap_or_else(|refusal| unreachable!("code {}", refusal.code)))
    }
}

#[cfg(test)]
pub(crate) mod constants {
    //! What a leaf of period 10240 holds, as bits.

    use super::*;

    fn leaf() -> Gyroid {
        let mut d = [0; 18];
        d[0] = 10240;
        d[11] = 1;
        let made = Gyroid::certified(&ticks(d[0]), &level(&d).unwrap(), GyroidKind::Network, &frame(&d));
        made.unwrap()
    }

    fn bits(i: Interval) -> [u64; 2] {
        [i.lo().to_bits(), i.hi().to_bits()]
    }

    pub(crate) fn of_the_leaf() -> [[u64; 2]; 6] {
        let leaf = leaf();
        [leaf.two_pi, leaf.turns, leaf.wave, leaf.wave_squared, leaf.lipschitz(), leaf.curvature()].map(bits)
    }

    /// The nearest doubles of the sine's and the cosine's terms; the intervals are these, stepped.
    pub(crate) fn series() -> [[u64; 9]; 2] {
        let leaf = leaf();
        for (intervals, nearest) in [(leaf.sine, leaf.fast_sine), (leaf.cosine, leaf.fast_cosine)] {
            for (interval, nearest) in intervals.into_iter().zip(nearest) {
                assert_eq!(interval.lo(), nearest.next_down());
                assert_eq!(interval.hi(), nearest.next_up());
            }
        }
        [leaf.fast_sine, leaf.fast_cosine].map(|row| row.map(f64::to_bits))
    }

    pub(crate) fn tails() -> [u64; 2] {
        [leaf().tail_sine, leaf().tail_cosine].map(f64::to_bits)
    }
}

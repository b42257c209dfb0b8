//! What the calls take and answer, by value.

use core::fmt;

/// A number that stands for nothing: for no [`State`], [`Piece`] or [`TieRule`], and for no [`Refusal`](crate::Refusal)
/// of a call.
///
/// ```
/// use gyroid_cells::{State, UnknownNumber};
///
/// assert_eq!(State::try_from(4), Err(UnknownNumber(4)));
/// assert_eq!(UnknownNumber(4).to_string(), "4 stands for nothing");
/// ```
#[derive(Clone, Copy, Debug, PartialEq, Eq, Hash)]
pub struct UnknownNumber(pub u32);

impl fmt::Display for UnknownNumber {
    fn fmt(&self, f: &mut fmt::Formatter<'_>) -> fmt::Result {
        write!(f, "{} stands for nothing", self.0)
    }
}

impl core::error::Error for UnknownNumber {}

/// Two doubles, in millimetres where they bound a box.
///
/// ```
/// use gyroid_cells::{Description, Interval, State, box_state};
///
/// let half = Interval { lo: 0.0, hi: 0.5 };
/// assert_eq!(box_state(&Description::constant(10240, 2048), [half; 3]), Ok(State::Inside));
/// ```
#[derive(Clone, Copy, Debug, PartialEq)]
pub struct Interval {
    /// The low end.
    pub lo: f64,
    /// The high end.
    pub hi: f64,
}

impl Interval {
    /// The interval of these ends as they stand: a call refuses a NaN, or a low end above the high one, by 9.
    ///
    /// ```
    /// use gyroid_cells::{Description, Interval, residual};
    ///
    /// let reversed = Interval::new(1.0, 0.0);
    /// let refused = residual(&Description::constant(10240, 2048), [reversed; 3]).unwrap_err();
    /// assert_eq!(refused.number(), 9);
    /// ```
    pub fn new(lo: f64, hi: f64) -> Self {
        Self { lo, hi }
    }

    /// The interval of one double.
    ///
    /// ```
    /// use gyroid_cells::Interval;
    ///
    /// assert_eq!(Interval::point(0.5), Interval::new(0.5, 0.5));
    /// ```
    pub fn point(v: f64) -> Self {
        Self { lo: v, hi: v }
    }
}

/// A closed box of whole ticks.
///
/// ```
/// use gyroid_cells::{Bounds, Description, Piece, level_piece};
///
/// let millimetre = Bounds { low: [0; 3], high: [1024; 3] };
/// assert_eq!(level_piece(&Description::constant(10240, 2048), millimetre), Ok(Some(Piece::Start)));
/// ```
#[derive(Clone, Copy, Debug, PartialEq, Eq, Hash)]
pub struct Bounds {
    /// The low corner.
    pub low: [i64; 3],
    /// The high corner.
    pub high: [i64; 3],
}

impl Bounds {
    /// The tick cubes in the box, or `None` where a low is above its high or the number does not fit 64 bits. Within
    /// document 01's limits, lows at most highs, there is one: 2^63 at most.
    ///
    /// ```
    /// use gyroid_cells::Bounds;
    ///
    /// assert_eq!(Bounds { low: [-1, 0, 0], high: [1, 3, 4] }.volume(), Some(24));
    /// assert_eq!(Bounds { low: [-1 << 20; 3], high: [1 << 20; 3] }.volume(), Some(1 << 63));
    /// assert_eq!(Bounds { low: [0; 3], high: [1, 1, -1] }.volume(), None);
    /// ```
    pub fn volume(&self) -> Option<u64> {
        let span = |i: usize| (self.low[i] <= self.high[i]).then(|| u128::from(self.high[i].abs_diff(self.low[i])));
        // Two spans of 64 bits fit 128.
        let face = span(0)? * span(1)?;
        u64::try_from(face.checked_mul(span(2)?)?).ok()
    }
}

/// The piece of a level that holds over a whole box.
///
/// ```
/// use gyroid_cells::Piece;
///
/// assert_eq!(Piece::try_from(1), Ok(Piece::Ramp));
/// assert!(Piece::try_from(3).is_err());
/// ```
#[derive(Clone, Copy, Debug, PartialEq, Eq, Hash)]
pub enum Piece {
    /// The start value, at or before the start anchor's plane; a constant level everywhere.
    Start = 0,
    /// The ramp, between the anchor planes.
    Ramp = 1,
    /// The end value, at or beyond the end anchor's plane.
    End = 2,
}

impl TryFrom<u32> for Piece {
    type Error = UnknownNumber;

    fn try_from(number: u32) -> Result<Self, UnknownNumber> {
        let pieces = [Piece::Start, Piece::Ramp, Piece::End];
        pieces.into_iter().find(|piece| *piece as u32 == number).ok_or(UnknownNumber(number))
    }
}

/// The axis across which a [`walk`](crate::walk) halves a box where longest sides tie.
///
/// The grade axis of a core is the one on which `from` and `to` differ, of a linear level with unequal ends. Equal ends
/// have none, and neither has a constant level.
///
/// ```
/// use gyroid_cells::{Bounds, Description, TieRule, walk};
///
/// // A core that is graded along z, and a cube of 2 mm about the origin. The first of two cells is the lower half.
/// let core = Description::linear(10240, [0; 3], [0, 0, 10240], -256, 256);
/// let cube = Bounds { low: [-1024; 3], high: [1024; 3] };
/// let lower = |rule| {
///     let mut bytes = [0; 3 * 32];
///     let table = walk(&core, cube, 1, rule, &mut bytes).expect("two cells");
///     table.cells().next().map(|cell| cell.bounds.high)
/// };
/// assert_eq!(lower(TieRule::default()), Some([1024, 1024, 0]));
/// assert_eq!(lower(TieRule::LowestAxis), Some([0, 1024, 1024]));
/// ```
///
/// A rule that was kept by its number is read back:
///
/// ```
/// use gyroid_cells::TieRule;
///
/// assert_eq!(TieRule::try_from(TieRule::LowestAxis as u32), Ok(TieRule::LowestAxis));
/// assert!(TieRule::try_from(2).is_err());
/// ```
#[derive(Clone, Copy, Debug, Default, PartialEq, Eq, Hash)]
pub enum TieRule {
    /// The grade axis if it is among them, otherwise the lowest of them. So a core that is graded along z is cut across
    /// z before x, and not left with tall cells that straddle its ramp.
    #[default]
    GradeAxis = 0,
    /// The lowest of them: x before y before z, whatever the level. For a preview that relies on this cut.
    LowestAxis = 1,
}

impl TryFrom<u32> for TieRule {
    type Error = UnknownNumber;

    fn try_from(number: u32) -> Result<Self, UnknownNumber> {
        let rules = [TieRule::GradeAxis, TieRule::LowestAxis];
        rules.into_iter().find(|rule| *rule as u32 == number).ok_or(UnknownNumber(number))
    }
}

/// The mark of a box.
///
/// ```
/// use gyroid_cells::State;
///
/// assert_eq!(State::try_from(3), Ok(State::Unsettled));
/// assert_eq!(State::Inside.to_string(), "inside");
/// assert_eq!(State::Outside as u32, 2);
/// ```
#[derive(Clone, Copy, Debug, PartialEq, Eq, Hash)]
pub enum State {
    /// The residual is below zero all over the box.
    Inside = 1,
    /// The residual is above zero all over the box.
    Outside = 2,
    /// Neither is known.
    Unsettled = 3,
}

impl TryFrom<u32> for State {
    type Error = UnknownNumber;

    fn try_from(number: u32) -> Result<Self, UnknownNumber> {
        let states = [State::Inside, State::Outside, State::Unsettled];
        states.into_iter().find(|state| *state as u32 == number).ok_or(UnknownNumber(number))
    }
}

impl fmt::Display for State {
    fn fmt(&self, f: &mut fmt::Formatter<'_>) -> fmt::Result {
        f.pad(match self {
            State::Inside => "inside",
            State::Outside => "outside",
            State::Unsettled => "unsettled",
        })
    }
}

/// A value and its gradient.
///
/// ```
/// use gyroid_cells::{Description, Interval, Jet, jet};
///
/// let origin = [Interval::point(0.0); 3];
/// let Some(Jet { value, gradient }) = jet(&Description::constant(10240, 0), origin)? else { unreachable!() };
/// assert!(value.lo <= value.hi && gradient[2].lo > 0.0);
/// # Ok::<(), gyroid_cells::Refusal>(())
/// ```
#[derive(Clone, Copy, Debug, PartialEq)]
pub struct Jet {
    /// The value.
    pub value: Interval,
    /// Its gradient, per millimetre.
    pub gradient: [Interval; 3],
}

/// First and second derivatives over a box.
///
/// ```
/// use gyroid_cells::{Derivatives, Description, Interval, Piece, derivatives};
///
/// let origin = [Interval::point(0.0); 3];
/// let found = derivatives(&Description::constant(10240, 0), origin, Piece::Start)?;
/// let Some(Derivatives { gradient, hessian }) = found else { unreachable!() };
/// assert!(gradient[1].lo > 0.0);
/// assert!(hessian.as_flattened().iter().all(|entry| entry.lo <= entry.hi));
/// # Ok::<(), gyroid_cells::Refusal>(())
/// ```
#[derive(Clone, Copy, Debug, PartialEq)]
pub struct Derivatives {
    /// The gradient of g less the level.
    pub gradient: [Interval; 3],
    /// The Hessian of g, row by row.
    pub hessian: [[Interval; 3]; 3],
}

/// The least and the greatest level over a box, in level counts: two exact fractions over one denominator, not reduced.
///
/// ```
/// use gyroid_cells::{Bounds, Description, Range, grade_range};
///
/// let all = Bounds { low: [0; 3], high: [1024; 3] };
/// let range = grade_range(&Description::constant(10240, 2048), all);
/// assert_eq!(range, Ok(Range { low: 2048, high: 2048, denominator: 1 }));
/// ```
#[derive(Clone, Copy, Debug, PartialEq, Eq, Hash)]
pub struct Range {
    /// The least level's numerator.
    pub low: i64,
    /// The greatest level's numerator.
    pub high: i64,
    /// The denominator of both, above 0.
    pub denominator: i64,
}

/// The anchor planes of a ramp.
///
/// ```
/// use gyroid_cells::{Description, Planes, planes};
///
/// let ramp = Description::linear(10240, [0; 3], [0, 0, 10240], -256, 256);
/// assert_eq!(planes(&ramp), Ok(Some(Planes { axis: 2, from: 0, to: 10240 })));
/// ```
#[derive(Clone, Copy, Debug, PartialEq, Eq, Hash)]
pub struct Planes {
    /// The axis that they are square to: 0, 1 or 2.
    pub axis: usize,
    /// The position of `from` on it, in ticks.
    pub from: i64,
    /// The position of `to` on it, in ticks.
    pub to: i64,
}

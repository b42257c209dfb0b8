//! The public calls that take a description, by name, and what each takes beside it.

/// What a call takes beside its description.
#[derive(Clone, Copy, Debug, PartialEq, Eq)]
pub enum Shape {
    Nothing,
    /// A box of whole ticks.
    Whole,
    /// A box of doubles.
    World,
    /// A box of doubles and a piece.
    WorldPiece,
    /// Three corners, each a box of doubles.
    Corners,
    /// Three doubles.
    Point,
    /// A box of whole ticks, a depth, a tie rule and the length of a table in bytes.
    Walk,
}

impl Shape {
    pub fn whole(self) -> usize {
        if matches!(self, Shape::Whole | Shape::Walk) { 6 } else { 0 }
    }

    pub fn doubles(self) -> usize {
        match self {
            Shape::Nothing | Shape::Whole | Shape::Walk => 0,
            Shape::World | Shape::WorldPiece => 6,
            Shape::Corners => 18,
            Shape::Point => 3,
        }
    }

    /// The numbers that stand last: a piece, or a depth, a tie rule and a table's length.
    pub fn last(self) -> usize {
        match self {
            Shape::WorldPiece => 1,
            Shape::Walk => 3,
            _ => 0,
        }
    }
}

macro_rules! calls {
    ($($call:ident $name:literal $shape:ident,)*) => {
        /// A public call on a description.
        #[derive(Clone, Copy, Debug, PartialEq, Eq, PartialOrd, Ord, Hash)]
        pub enum Call {
            $($call,)*
        }

        impl Call {
            pub const ALL: &[Call] = &[$(Call::$call,)*];

            pub fn name(self) -> &'static str {
                match self {
                    $(Call::$call => $name,)*
                }
            }

            pub fn shape(self) -> Shape {
                match self {
                    $(Call::$call => Shape::$shape,)*
                }
            }
        }
    };
}

calls! {
    GradeRange "grade_range" Whole,
    LevelPiece "level_piece" Whole,
    Jet "jet" World,
    AffineJet "affine_jet" World,
    Derivatives "derivatives" WorldPiece,
    Residual "residual" World,
    AffineResidual "affine_residual" World,
    BoxState "box_state" World,
    FacetResidual "facet_residual" Corners,
    Curvature "curvature" Nothing,
    Lipschitz "lipschitz" Nothing,
    Saturated "saturated" Nothing,
    Graded "graded" Nothing,
    Planes "planes" Nothing,
    FastDistance "fast_distance" Point,
    Fast "fast" Point,
    Walk "walk" Walk,
}

//! The calls in which one surface differs from another, asked of any leaf; the original's own leaf is the network.

use super::{Gyroid, Jet};
use crate::grade::Piece;
use crate::lattice::BoxState;
use crate::{Decider, Interval, Refusal};

/// A box, or a point in intervals: x, y, z.
pub(super) type World = [Interval; 3];

/// A gradient, and a Hessian row by row.
pub(super) type Derivatives = ([Interval; 3], [[Interval; 3]; 3]);

pub(super) trait Field {
    /// The original's leaf, for the calls in which surfaces do not differ.
    fn leaf(&self) -> &Gyroid;
    fn jet(&self, p: World) -> Option<Jet>;
    fn affine_jet(&self, p: World) -> Option<Jet>;
    fn derivatives(&self, world: &World, piece: Piece) -> Option<Derivatives>;
    fn residual(&self, world: &World) -> Option<Interval>;
    fn affine_residual(&self, world: &World) -> Option<Interval>;
    fn box_state(&self, world: &World) -> Result<BoxState, Refusal>;
    fn facet_residual(&self, corners: &[World; 3]) -> Option<Interval>;
    fn saturated(&self) -> Option<bool>;
    fn fast_distance(&self, p: [f64; 3]) -> f64;
}

impl Field for Gyroid {
    fn leaf(&self) -> &Gyroid {
        self
    }

    fn jet(&self, p: World) -> Option<Jet> {
        Gyroid::jet(self, p)
    }

    fn affine_jet(&self, p: World) -> Option<Jet> {
        Gyroid::affine_jet(self, p)
    }

    fn derivatives(&self, world: &World, piece: Piece) -> Option<Derivatives> {
        Gyroid::derivatives(self, world, piece)
    }

    fn residual(&self, world: &World) -> Option<Interval> {
        Gyroid::residual(self, world)
    }

    fn affine_residual(&self, world: &World) -> Option<Interval> {
        Gyroid::affine_residual(self, world)
    }

    fn box_state(&self, world: &World) -> Result<BoxState, Refusal> {
        Gyroid::box_state(self, world, &mut Decider)
    }

    fn facet_residual(&self, corners: &[World; 3]) -> Option<Interval> {
        Gyroid::facet_residual(self, corners)
    }

    fn saturated(&self) -> Option<bool> {
        Gyroid::saturated(self)
    }

    fn fast_distance(&self, p: [f64; 3]) -> f64 {
        Gyroid::fast_distance(self, p)
    }
}

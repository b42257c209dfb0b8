//! The calls about a surface, from its few lines: the original's order of operations with the surface's value, gradient, Hessian and
//! bracket in their places, and the network's spreads. `turn`, the level, curvature and slope bound are the original's own code.

use super::access::ticks;
use super::field::{Derivatives, Field, World};
use super::surfaces::{Surface, Waves, squares};
use super::{Gyroid, Jet, point};
use crate::grade::Piece;
use crate::lattice::BoxState;
use crate::{Interval, Refusal};
use std::marker::PhantomData;

/// A leaf that the original compiled as a network, asked about another surface.
pub(super) struct Ported<S>(Gyroid, PhantomData<S>);

/// The interval of this size on either side of zero.
fn about_zero(size: f64) -> Interval {
    Interval::new(-size, size).expect("a size is not below 0")
}

fn size(v: Interval) -> f64 {
    v.lo().abs().max(v.hi().abs())
}

/// The half-widths of a box about its centre, from above.
fn radii(world: &World) -> [Interval; 3] {
    world.map(|ends| {
        let [low, centre, high] = [ends.lo(), ends.mid(), ends.hi()].map(point);
        point((high - centre).hi().max((centre - low).hi()))
    })
}

fn centre(world: &World) -> World {
    world.map(|ends| point(ends.mid()))
}

/// The sine and the cosine of a coordinate in doubles.
fn fast_wave(leaf: &Gyroid, coordinate: f64) -> [f64; 2] {
    let turns = coordinate * leaf.fast_turns;
    let quarter = (turns * 4.0 + 0.5).floor();
    let u = std::f64::consts::TAU * (turns - 0.25 * quarter);
    let square = u * u;
    let series = |terms: [f64; 9]| terms.into_iter().rev().fold(0.0, |sum, term| square * sum + term);
    let first = [u * series(leaf.fast_sine), series(leaf.fast_cosine)];
    // A quarter turn on, the sine is the cosine and the cosine is less the sine.
    (0..(quarter as i64).rem_euclid(4)).fold(first, |[sine, cosine], _| [cosine, -sine])
}

impl<S: Surface> Ported<S> {
    pub(super) fn new(leaf: Gyroid) -> Self {
        Self(leaf, PhantomData)
    }

    fn waves(&self, p: World) -> Option<Waves<Interval>> {
        let [x, y, z] = p.map(|v| self.0.turn(v * self.0.turns));
        Some([x?, y?, z?])
    }

    /// g less a level that has this value at the box's centre and this slope, to the second order.
    fn expansion(&self, world: &World, level: Interval, slope: [Interval; 3]) -> Option<Interval> {
        let jet = self.jet(centre(world))?;
        let r = radii(world);
        let steep = (0..3).map(|i| point(size(jet.gradient[i] - slope[i])) * r[i]);
        let first = steep.fold(point(0.0), |sum, term| sum + term);
        let bound = (first + self.0.wave_squared * S::bracket(r)).hi();
        Some((jet.value - level) + about_zero(bound))
    }

    /// How far a gradient strays from the centre's along one axis, by the network's second derivatives: 2k² and k².
    fn gradient_spread(&self, axis: usize, r: [Interval; 3]) -> Interval {
        let terms = (0..3).map(|j| self.0.wave_squared * point(if j == axis { 2.0 } else { 1.0 }) * r[j]);
        about_zero(terms.fold(point(0.0), |sum, term| sum + term).hi())
    }

    /// The same of a Hessian, by the network's third derivatives: 2k³.
    fn hessian_spread(&self, [x, y, z]: [Interval; 3]) -> Interval {
        let third = 2.0 * (self.0.wave_squared * self.0.wave).hi();
        about_zero((point(third) * point((x + y + z).hi())).hi())
    }
}

fn infinite(world: &World) -> bool {
    world.iter().any(|ends| ends.lo().is_infinite() || ends.hi().is_infinite())
}

impl<S: Surface> Field for Ported<S> {
    fn leaf(&self) -> &Gyroid {
        &self.0
    }

    fn jet(&self, p: World) -> Option<Jet> {
        let waves = self.waves(p)?;
        Some(Jet { value: S::value(&waves), gradient: S::gradient(&waves, self.0.wave) })
    }

    fn affine_jet(&self, p: World) -> Option<Jet> {
        let Jet { value, gradient } = self.jet(p)?;
        let slope = self.0.grade.gradient();
        let gradient = std::array::from_fn(|i| gradient[i] - slope[i]);
        Some(Jet { value: value - self.0.grade.affine(&p), gradient })
    }

    fn derivatives(&self, world: &World, piece: Piece) -> Option<Derivatives> {
        let waves = self.waves(centre(world))?;
        let r = radii(world);
        let (gradient, slope) = (S::gradient(&waves, self.0.wave), self.0.grade.piece_gradient(piece));
        let gradient = std::array::from_fn(|i| (gradient[i] - slope[i]) + self.gradient_spread(i, r));
        let spread = self.hessian_spread(r);
        let hessian = S::hessian(&waves, self.0.wave_squared).map(|row| row.map(|entry| entry + spread));
        Some((gradient, hessian))
    }

    fn residual(&self, world: &World) -> Option<Interval> {
        if infinite(world) {
            return None;
        }
        let (grade, middle) = (&self.0.grade, centre(world));
        let Some(piece) = grade.piece(world) else {
            let zeros = [point(0.0); 3];
            return Some(self.expansion(world, point(0.0), zeros)? - grade.interval(world));
        };
        let level = match piece {
            Piece::Ramp => grade.affine(&middle),
            _ => grade.interval(&middle),
        };
        self.expansion(world, level, grade.piece_gradient(piece))
    }

    fn affine_residual(&self, world: &World) -> Option<Interval> {
        if infinite(world) {
            return None;
        }
        self.expansion(world, self.0.grade.affine(&centre(world)), self.0.grade.gradient())
    }

    /// "Outside if lo > 0, inside if hi < 0, otherwise unsettled."
    fn box_state(&self, world: &World) -> Result<BoxState, Refusal> {
        Ok(match self.residual(world).map(|value| [value.lo() > 0.0, value.hi() < 0.0]) {
            Some([true, _]) => BoxState::Outside,
            Some([_, true]) => BoxState::Inside,
            _ => BoxState::Unknown,
        })
    }

    fn facet_residual(&self, corners: &[World; 3]) -> Option<Interval> {
        let [a, b, c] = corners;
        let middle: World = std::array::from_fn(|i| (a[i] + b[i] + c[i]) / point(3.0));
        let Jet { value, gradient: [x, y, z] } = self.affine_jet(middle)?;
        let (mut low, mut high, mut reach) = (0.0_f64, 0.0_f64, 0.0_f64);
        for corner in corners {
            let [dx, dy, dz]: World = std::array::from_fn(|i| corner[i] - middle[i]);
            let rate = x * dx + y * dy + z * dz;
            (low, high) = (low.min(rate.lo()), high.max(rate.hi()));
            reach = reach.max(squares([dx, dy, dz]).hi());
        }
        let curved = (point(0.5) * self.0.curvature() * point(reach)).hi();
        Some(value + Interval::new(low - curved, high + curved)?)
    }

    fn saturated(&self) -> Option<bool> {
        let level = self.0.grade.constant()?;
        let [above, below] = [S::SATURATED, -S::SATURATED].map(ticks);
        if *level >= above { Some(true) } else { (*level <= below).then_some(false) }
    }

    fn fast_distance(&self, p: [f64; 3]) -> f64 {
        let waves = p.map(|coordinate| fast_wave(&self.0, coordinate));
        (S::value(&waves) - self.0.grade.fast(p)) / self.0.fast_lipschitz
    }
}

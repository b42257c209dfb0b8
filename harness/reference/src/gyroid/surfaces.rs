//! What one surface has in another's place: document 02's lines for the primitive surface, and the network's, by which the port is
//! held against the original.

use super::point;
use crate::Interval;
use std::ops::{Add, Mul};

/// The sine and the cosine on each axis.
pub(super) type Waves<T> = [[T; 2]; 3];

pub(super) trait Surface {
    /// The level from which a constant saturates, in level counts.
    const SATURATED: i64;

    /// g, in intervals or in doubles.
    fn value<T: Copy + Add<Output = T> + Mul<Output = T>>(waves: &Waves<T>) -> T;

    fn gradient(waves: &Waves<Interval>, wave: Interval) -> [Interval; 3];

    /// Before it is spread.
    fn hessian(waves: &Waves<Interval>, wave_squared: Interval) -> [[Interval; 3]; 3];

    /// The second-order term's bound for these half-widths, over wave squared.
    fn bracket(r: [Interval; 3]) -> Interval;
}

fn zero() -> Interval {
    point(0.0)
}

pub(super) fn squares([x, y, z]: [Interval; 3]) -> Interval {
    x.square() + y.square() + z.square()
}

/// Document 02: "the primitive surface cos X + cos Y + cos Z".
pub(super) struct Primitive;

impl Surface for Primitive {
    /// "Saturation moves to 3 and −3 for this kind."
    const SATURATED: i64 = 3072;

    /// "(cx + cy) + cz".
    fn value<T: Copy + Add<Output = T> + Mul<Output = T>>(&[[_, cx], [_, cy], [_, cz]]: &Waves<T>) -> T {
        (cx + cy) + cz
    }

    /// "(−sx) × wave".
    fn gradient(waves: &Waves<Interval>, wave: Interval) -> [Interval; 3] {
        waves.map(|[sine, _]| (-sine) * wave)
    }

    /// "0 − cx × wave squared, with plain zeros off the diagonal before the spread".
    fn hessian(&[[_, cx], [_, cy], [_, cz]]: &Waves<Interval>, wave_squared: Interval) -> [[Interval; 3]; 3] {
        let [x, y, z] = [cx, cy, cz].map(|cosine| zero() - (cosine * wave_squared));
        [[x, zero(), zero()], [zero(), y, zero()], [zero(), zero(), z]]
    }

    /// "((rx² + ry²) + rz²) × 0.5".
    fn bracket(r: [Interval; 3]) -> Interval {
        squares(r) * point(0.5)
    }
}

/// Document 01's surface, sin X cos Y + sin Y cos Z + sin Z cos X. Turning the axes turns it into itself.
pub(super) struct Network;

/// The axis after another, z before x.
fn after(axis: usize) -> usize {
    (axis + 1) % 3
}

impl Surface for Network {
    const SATURATED: i64 = 1536;

    fn value<T: Copy + Add<Output = T> + Mul<Output = T>>(waves: &Waves<T>) -> T {
        let [x, y, z] = [0, 1, 2].map(|i| waves[i][0] * waves[after(i)][1]);
        x + y + z
    }

    fn gradient(waves: &Waves<Interval>, wave: Interval) -> [Interval; 3] {
        [0, 1, 2].map(|i| {
            let ([sine, cosine], [_, next], [before, _]) = (waves[i], waves[after(i)], waves[after(after(i))]);
            (cosine * next - before * sine) * wave
        })
    }

    fn hessian(waves: &Waves<Interval>, wave_squared: Interval) -> [[Interval; 3]; 3] {
        let mut out = [[zero(); 3]; 3];
        for i in 0..3 {
            let ([sine, cosine], [next_sine, next_cosine]) = (waves[i], waves[after(i)]);
            let before = waves[after(after(i))][0];
            out[i][i] = zero() - (sine * next_cosine + before * cosine) * wave_squared;
            out[i][after(i)] = zero() - cosine * next_sine * wave_squared;
            out[after(i)][i] = out[i][after(i)];
        }
        out
    }

    fn bracket(r: [Interval; 3]) -> Interval {
        [0, 1, 2].iter().fold(squares(r), |sum, i| sum + r[*i] * r[after(*i)])
    }
}

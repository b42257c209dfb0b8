//! Boxes, corners and points by chance, made for a description: about its anchor planes, at its turns' limits, and anywhere.

use crate::chance::Chance;
use crate::entries::*;
use crate::specials;
use request::Description;
use std::f64::consts::TAU;

fn sorted<T: PartialOrd>([a, b]: [T; 2]) -> [T; 2] {
    if b < a { [b, a] } else { [a, b] }
}

/// The ends on one axis in whole ticks, low first.
fn ticks(c: &mut Chance, d: &Description, axis: usize) -> [i64; 2] {
    let anchors = [d[FROM + axis], d[TO + axis]].map(|n| n.clamp(-TICKS, TICKS));
    let [low, high] = sorted(anchors);
    let about = |c: &mut Chance| c.one_of(&anchors) + c.between(-2, 2);
    let inside = |c: &mut Chance| c.between(low, high);
    let any = |c: &mut Chance| c.any_length(TICKS) * c.sign();
    let start = match c.below(3) {
        0 => about(c),
        1 => inside(c),
        _ => any(c),
    };
    sorted(match c.below(8) {
        0 => [about(c), about(c)],
        1 => [inside(c), inside(c)],
        2 => [any(c), any(c)],
        3 => [start, start],
        4 => [start, start + c.between(1, 1024)],
        5 => [start, c.one_of(&[-TICKS, TICKS, 0, d[PERIOD]])],
        6 => anchors,
        _ => [start, start + 1],
    })
}

/// A box of whole ticks: lows, then highs. One in eight is reversed or damaged.
pub fn whole(c: &mut Chance, d: &Description) -> [i64; 6] {
    let rows: [[i64; 2]; 3] = std::array::from_fn(|axis| ticks(c, d, axis));
    let mut out = std::array::from_fn(|i| rows[i % 3][i / 3].clamp(-TICKS, TICKS));
    let i = c.below(3) as usize;
    match c.below(16) {
        0 => out.swap(i, i + 3),
        1 => out[i + 3 * c.below(2) as usize] = c.one_of(&specials::whole()),
        _ => {}
    }
    out
}

/// A few doubles up or down.
fn nudged(c: &mut Chance, mut v: f64) -> f64 {
    for _ in 0..c.below(4) {
        v = if c.once_in(2) { v.next_up() } else { v.next_down() };
    }
    v
}

fn millimetres(ticks: i64) -> f64 {
    ticks as f64 / 1024.0
}

/// An end of a double of any exponent that document 01 accepts.
fn finite(c: &mut Chance) -> f64 {
    (c.part() + 1.0) * 2.0_f64.powi(c.between(-60, 39) as i32) * c.sign() as f64
}

/// Ends where the series' argument is 0.8, where a quarter begins, or where the turn is 2^40.
fn at_turn(c: &mut Chance, d: &Description) -> [f64; 2] {
    let a = millimetres(d[PERIOD].clamp(1, TICKS));
    let quarter = (c.any_length(4096) * c.sign()) as f64 / 4.0;
    let side = c.sign() as f64;
    match c.below(3) {
        0 => {
            let far = a * (quarter + side * 0.8 / TAU);
            let near = a * (quarter + side * (c.part() - 0.5) * 0.2);
            [nudged(c, far), near]
        }
        1 => {
            let v = a * (quarter + 0.125);
            [nudged(c, v), nudged(c, v)]
        }
        _ => {
            // Beyond document 01's limit for a longer period.
            let v = side * a.min(1.0) * (1_u64 << 40) as f64;
            [nudged(c, v), nudged(c, v)]
        }
    }
}

/// Ends on one axis that lead to values most of the time.
fn tame(c: &mut Chance, d: &Description, axis: usize) -> [f64; 2] {
    let [low, high] = ticks(c, d, axis).map(millimetres);
    sorted(match c.below(8) {
        0 => [nudged(c, low), nudged(c, high)],
        1 => [low, low],
        2 => {
            let v = (c.part() - 0.5) * 64.0;
            [v, v + c.part() * 2.0_f64.powi(c.between(-52, 4) as i32)]
        }
        3 => at_turn(c, d),
        4 => [low, nudged(c, low)],
        _ => [low, high],
    })
}

/// Ends of every size, sorted or not.
fn wild(c: &mut Chance, d: &Description, axis: usize) -> [f64; 2] {
    let ends = match c.below(6) {
        0 => [finite(c), finite(c)],
        1 => [c.bits(), c.bits()].map(f64::from_bits),
        2 => [c.one_of(&specials::doubles()), c.one_of(&specials::doubles())],
        3 => [millimetres(ticks(c, d, axis)[0]), c.one_of(&specials::doubles())],
        4 => {
            let v = finite(c);
            [v, v]
        }
        _ => at_turn(c, d),
    };
    if c.once_in(8) { ends } else { sorted(ends) }
}

/// A box of doubles; two of three are tame on every axis.
pub fn world(c: &mut Chance, d: &Description) -> [f64; 6] {
    let mut out = [0.0; 6];
    let one = c.below(3) as usize;
    let mood = c.below(6);
    for (axis, ends) in out.chunks_exact_mut(2).enumerate() {
        let untamed = mood == 0 || mood == 1 && axis == one;
        let made = if untamed { wild(c, d, axis) } else { tame(c, d, axis) };
        ends.copy_from_slice(&made);
    }
    out
}

/// A box that is a point, or a few doubles wide.
pub fn rounded(c: &mut Chance, d: &Description) -> [f64; 6] {
    let mut out = world(c, d);
    for ends in out.chunks_exact_mut(2) {
        ends.copy_from_slice(&sorted([ends[0], nudged(c, ends[0])]));
    }
    out
}

/// A corner of a box, as three points, or a little wider.
fn corner(c: &mut Chance, world: &[f64; 6]) -> [f64; 6] {
    let wider = c.once_in(3);
    let mut out = [0.0; 6];
    for (ends, made) in world.chunks_exact(2).zip(out.chunks_exact_mut(2)) {
        let v = match c.below(3) {
            0 => ends[0],
            1 => ends[1],
            _ => ends[0] * 0.5 + ends[1] * 0.5,
        };
        let w = if wider { nudged(c, v) } else { v };
        made.copy_from_slice(&sorted([v, w]));
    }
    out
}

/// Three corners: a triangle in a box, one or two boxes again and again, or three boxes.
pub fn corners(c: &mut Chance, d: &Description) -> [f64; 18] {
    let first = world(c, d);
    let made: [[f64; 6]; 3] = match c.below(8) {
        0 => [first; 3],
        1 => [first, world(c, d), first],
        2 => std::array::from_fn(|_| world(c, d)),
        _ => std::array::from_fn(|_| corner(c, &first)),
    };
    std::array::from_fn(|i| made.as_flattened()[i])
}

pub fn point(c: &mut Chance, d: &Description) -> [f64; 3] {
    let world = world(c, d);
    std::array::from_fn(|axis| world[2 * axis])
}

//! Descriptions by chance: accepted ones, ones at each limit, ones that break the table's rows, damaged ones.

use crate::chance::Chance;
use crate::entries::*;
use crate::specials;
use request::Description;

fn either(c: &mut Chance, a: i64, b: i64) -> (i64, i64) {
    if c.once_in(2) { (a, b) } else { (b, a) }
}

fn period(c: &mut Chance) -> i64 {
    match c.below(4) {
        0 => 10240,
        1 => c.one_of(&[1, 2, 3, 1023, 1024, 1025, TICKS - 1, TICKS]),
        _ => c.any_length(TICKS).max(1),
    }
}

fn level(c: &mut Chance) -> i64 {
    match c.below(6) {
        0 => c.one_of(&[0, 1, RAMP, RAMP + 1, COUNTS]) * c.sign(),
        1 => (c.one_of(&SATURATED).1 + c.between(-1, 1)) * c.sign(),
        _ => c.between(-COUNTS, COUNTS),
    }
}

fn place(c: &mut Chance) -> i64 {
    c.any_length(TICKS) * c.sign()
}

/// A linear level along one axis, either way, with this rise and anchors this far apart.
fn set_ramp(c: &mut Chance, d: &mut Description, rise: i64, distance: i64) {
    let axis = c.below(3) as usize;
    for i in 0..3 {
        d[FROM + i] = place(c);
        d[TO + i] = d[FROM + i];
    }
    let low = if c.once_in(2) && distance <= TICKS { 0 } else { c.between(-TICKS, TICKS - distance) };
    let level = c.between(-RAMP, RAMP - rise);
    d[LEVEL_KIND] = LINEAR;
    (d[FROM + axis], d[TO + axis]) = either(c, low, low + distance);
    (d[START], d[END]) = either(c, level, level + rise);
}

fn rise(c: &mut Chance) -> i64 {
    match c.below(3) {
        0 => c.one_of(&[1, 2, 256, 511, 512]),
        _ => c.between(1, 512),
    }
}

/// A ramp whose slope is at the limit, or less.
fn ramp(c: &mut Chance, d: &mut Description) {
    let rise = rise(c);
    let distance = match c.below(4) {
        0 => 10 * rise,
        1 => 10 * rise + 1,
        2 => 10 * rise + c.any_length(TICKS),
        _ => c.between(10 * rise, 2 * TICKS),
    };
    set_ramp(c, d, rise, distance);
}

/// Linear with equal ends: a constant, whatever its anchors.
fn equal_ends(c: &mut Chance, d: &mut Description) {
    d[LEVEL_KIND] = LINEAR;
    d[START] = level(c);
    d[END] = d[START];
    for i in 0..3 {
        d[FROM + i] = place(c);
        d[TO + i] = place(c);
    }
    if d[FROM..TO] == d[TO..START] {
        d[TO] = if d[FROM] == 0 { 1 } else { 0 };
    }
}

fn constant(c: &mut Chance, d: &mut Description) {
    d[START] = level(c);
    if c.once_in(4) {
        // Unused entries, within their limits.
        d[END] = level(c);
        d[FROM..START].fill_with(|| place(c));
    }
}

/// A description that is accepted, of either surface.
pub fn accepted(c: &mut Chance) -> Description {
    let mut d = PLAIN;
    d[KIND] = c.one_of(&[NETWORK, PRIMITIVE]);
    match c.below(8) {
        0 | 1 => constant(c, &mut d),
        2 => equal_ends(c, &mut d),
        _ => ramp(c, &mut d),
    }
    d[PERIOD] = period(c);
    if c.once_in(4) {
        d[W] = c.any_length(TICKS).max(1);
    }
    d
}

fn beyond(c: &mut Chance, d: &mut Description) {
    let i = c.below(18) as usize;
    let limits = limits(i);
    d[i] = c.one_of(&[*limits.start() - 1, *limits.end() + 1, i64::MIN, i64::MAX]);
}

fn linear(c: &mut Chance, d: &mut Description) {
    if d[LEVEL_KIND] != LINEAR || d[START] == d[END] {
        ramp(c, d);
    }
}

/// One way to break each row of document 01's table, in its order.
pub const ROWS: [fn(&mut Chance, &mut Description); 11] = [
    beyond,
    |c, d| d[PERIOD] = c.one_of(&[0, -1, -TICKS]),
    |_, d| d[KIND] = SHEET,
    |c, d| {
        linear(c, d);
        d.copy_within(FROM..TO, TO);
    },
    |_, d| d[LEVEL_KIND] = DISTANCE,
    |c, d| {
        // Anchors that differ on a second axis.
        linear(c, d);
        let same = (0..3).find(|i| d[FROM + i] == d[TO + i]).unwrap_or(0);
        d[TO + same] = if d[FROM + same] == 7 { 8 } else { 7 };
    },
    |c, d| {
        linear(c, d);
        d[c.one_of(&[START, END])] = c.one_of(&[RAMP + 1, -RAMP - 1, COUNTS, -COUNTS]);
    },
    |c, d| {
        let rise = rise(c);
        set_ramp(c, d, rise, 10 * rise - 1);
    },
    |c, d| d[W] = c.one_of(&[0, -1, -TICKS]),
    |c, d| d[X + c.below(3) as usize] = c.one_of(&[1, -1, TICKS, -TICKS]),
    |c, d| d[X + 3 + c.below(3) as usize] = c.one_of(&[1, -1, TICKS, -TICKS]),
];

/// One entry at a limit of its own, on either side.
fn at_limit(c: &mut Chance, d: &mut Description) {
    let i = c.below(18) as usize;
    let limits = limits(i);
    d[i] = match c.below(5) {
        0 => *limits.start(),
        1 => *limits.end(),
        2 => *limits.start() - 1,
        3 => *limits.end() + 1,
        _ if i == START || i == END => c.one_of(&[RAMP, -RAMP, RAMP + 1, -RAMP - 1]),
        _ => c.between(-1, 1),
    };
}

fn damage(c: &mut Chance, d: &mut Description) {
    let specials = specials::whole();
    for _ in 0..=c.below(3) {
        d[c.below(18) as usize] = c.one_of(&specials);
    }
}

/// Two of three descriptions are accepted.
pub fn description(c: &mut Chance) -> Description {
    let mut d = accepted(c);
    match c.below(12) {
        0 => at_limit(c, &mut d),
        1 => c.one_of(&ROWS)(c, &mut d),
        2 => {
            c.one_of(&ROWS)(c, &mut d);
            c.one_of(&ROWS)(c, &mut d);
        }
        3 => damage(c, &mut d),
        _ => {}
    }
    d
}

//! Walks by chance: boxes of every size, depths that are affordable, tie rules, and tables about the room that the
//! cells want.

use crate::chance::Chance;
use crate::entries::*;
use crate::{specials, walk};
use request::{Call, Request, SLOT};

/// The cells of a tree that is walked as deep as it goes.
const FEW: u64 = 4096;

/// Mostly a part of the period, which is where cells of all three states stand side by side.
fn span(c: &mut Chance, period: i64) -> i64 {
    match c.below(8) {
        0 => c.between(1, 4),
        1 => 1 << c.below(22),
        2 => c.any_length(2 * TICKS),
        3 => period,
        4 => period / c.one_of(&[2, 4, 8, 16, 32]),
        _ => c.between(1, 1 + period / 2),
    }
}

/// A box in order: half of them cubes or nearly, so that spans tie.
pub fn bounds(c: &mut Chance, request: &Request) -> [i64; 6] {
    let d = &request.description;
    let period = d[PERIOD].clamp(1, TICKS);
    let cube = span(c, period);
    let like = c.below(4);
    let mut out = [0; 6];
    for i in 0..3 {
        let span = match like {
            0 => cube,
            1 => cube + c.between(-1, 1),
            _ => span(c, period),
        };
        let span = span.clamp(1, 2 * TICKS);
        let low = match c.below(4) {
            0 => c.one_of(&[d[FROM + i], d[TO + i]]).clamp(-TICKS, TICKS) - c.between(0, span),
            1 => c.one_of(&[-TICKS, TICKS - span, 0, -span]),
            _ => c.any_length(TICKS) * c.sign(),
        };
        out[i] = low.clamp(-TICKS, TICKS - span);
        out[3 + i] = out[i] + span;
    }
    out
}

/// A span below 1, or an entry beyond its limits.
fn damage(c: &mut Chance, bounds: &mut [i64; 6]) {
    let i = c.below(3) as usize;
    match c.below(3) {
        0 => bounds[3 + i] = bounds[i],
        1 => bounds.swap(i, 3 + i),
        _ => bounds[i + 3 * c.below(2) as usize] = c.one_of(&specials::whole()),
    }
}

/// Most trees have at most 2^8 cells, and a few go to depth 12; a box of few tick cubes is walked to the end.
fn depth(c: &mut Chance, request: &Request) -> i64 {
    match c.below(16) {
        0 => c.one_of(&[-1, 25, i64::MIN, i64::MAX, -TICKS, 1 << 32]),
        1 if c.once_in(4) => c.between(9, 12),
        2 | 3 if walk::most_cells(&Request { depth: 24, ..*request }) <= FEW => c.between(9, 24),
        _ => c.between(0, 8),
    }
}

/// Rules that are none.
pub const NO_RULES: [u32; 4] = [2, 3, 1 << 31, u32::MAX];

/// Half by either rule, but for one in 16, which is by none.
fn rule(c: &mut Chance) -> u32 {
    if c.once_in(16) { c.one_of(&NO_RULES) } else { c.one_of(&[GRADE_AXIS, LOWEST_AXIS]) }
}

/// A table about the length that the walk wants; any where it is refused before it is counted.
fn table(c: &mut Chance, request: &Request) -> usize {
    let wanted = walk::room(request);
    match c.below(10) {
        0 => c.below(64) as usize,
        1 => wanted - SLOT,
        2 => wanted - 1,
        3 | 4 => wanted,
        5 => wanted + 1 + c.below(31) as usize,
        6 => wanted + SLOT,
        7 => c.below(2 * wanted as u64) as usize,
        _ => wanted + c.below(2048) as usize,
    }
}

/// The longest span for other axes too, so that it ties.
fn tie(c: &mut Chance, bounds: &mut [i64; 6]) {
    let longest = walk::spans(bounds).into_iter().fold(1, i64::max);
    for axis in 0..3 {
        if !c.once_in(4) {
            bounds[axis] = bounds[axis].min(TICKS - longest);
            bounds[3 + axis] = bounds[axis] + longest;
        }
    }
}

/// Gives a request with a box its depth and table; one box in 12 is damaged.
fn finish(c: &mut Chance, request: &mut Request) {
    if c.once_in(12) {
        damage(c, &mut request.whole);
    }
    request.depth = depth(c, request);
    request.table = table(c, request);
}

/// Gives a request about a description and by a rule its box, depth and table.
pub fn set(c: &mut Chance, request: &mut Request) {
    request.whole = bounds(c, request);
    finish(c, request);
}

/// The same with a rule by chance, and with more boxes on which that tells.
pub fn set_by_any_rule(c: &mut Chance, request: &mut Request) {
    request.rule = rule(c);
    request.whole = bounds(c, request);
    if c.once_in(2) {
        tie(c, &mut request.whole);
    }
    finish(c, request);
}

/// One way to break each row of the refusal table that is the walk's own, in its order; row 1 by the box. A rule that
/// is none breaks row 1 too, before all of these.
pub const ROWS: [fn(&mut Request); 7] = [
    |r| r.whole[4] = TICKS + 1,
    |r| r.whole[3] = r.whole[0],
    |r| r.whole.swap(2, 5),
    |r| r.depth = -1,
    |r| r.depth = 25,
    |r| r.table = 63,
    |r| r.table = 0,
];

/// A walk that no table here can hold: it has 2^24 cells, for nothing settles. It is refused at the first cell without a
/// slot; to count them all would take seconds.
pub fn hopeless() -> Request {
    let mut request = Request::new(Call::Walk, PLAIN);
    request.description[PERIOD] = 1;
    request.whole = [-TICKS, -TICKS, -TICKS, TICKS, TICKS, TICKS];
    (request.depth, request.table) = (24, 65536);
    request
}

/// Few cells, as deep as they go: cos X + cos Y + cos Z comes to the level in this corner alone, so all but the boxes
/// there are settled, down to cubes of one tick after 24 halvings.
pub fn deepest() -> Request {
    let mut request = Request::new(Call::Walk, primitive(PLAIN));
    (request.description[PERIOD], request.description[START]) = (10240, 3072);
    (request.whole, request.depth) = ([0, 0, 0, 256, 256, 256], 24);
    request
}

/// Tables without room for a cell, for two, and about the room that the walk wants.
fn rooms(walk: &Request, out: &mut Vec<Request>) {
    let cells = walk::cells(walk).unwrap_or(1) as usize;
    for slots in [0, 1, 2, 3, cells, cells + 1, cells + 2] {
        for more in [0, 1, 16, 31] {
            out.push(Request { table: slots * SLOT + more, ..*walk });
        }
    }
}

/// The deepest cells, and tables about the room that they want.
pub fn deep(out: &mut Vec<Request>) {
    for depth in [22, 23, 24] {
        rooms(&Request { depth, ..deepest() }, out);
    }
}

/// Depths and lengths of a table at their limits, and such tables for a box of some thousands of cells.
pub fn systematic(quiet: &Request, out: &mut Vec<Request>) {
    for depth in [i64::MIN, -1, 0, 1, 2, 3, 8, 24, 25, i64::MAX] {
        rooms(&Request { depth, ..*quiet }, out);
    }
    rooms(&Request { whole: [0, 0, 0, 20480, 20480, 20480], depth: 12, ..*quiet }, out);
}

#[cfg(test)]
mod tests {
    use super::*;
    use crate::{added, cases};
    use std::collections::BTreeMap;

    #[test]
    fn walks_are_affordable() {
        for index in 0..20_000 {
            let c = &mut Chance::new(9, 0, index);
            let mut request = Request::new(Call::Walk, PLAIN);
            request.whole = bounds(c, &request);
            tie(c, &mut request.whole);
            request.depth = depth(c, &request);
            assert!(walk::most_cells(&request) <= 4096, "{request}");
        }
    }

    /// Either rule comes up, each with boxes that the other would walk otherwise, and every rule that is none.
    #[test]
    fn every_rule_comes_up() {
        if !reference::AT_HAND {
            return;
        }
        let (mut seen, mut told) = (BTreeMap::<u32, u32>::new(), BTreeMap::<u32, u32>::new());
        for request in (0..1_000).map(|index| cases::by_chance(Call::Walk, 1, index)) {
            *seen.entry(request.rule).or_default() += 1;
            if added::refusal(&request).is_none() {
                let other = Request { rule: GRADE_AXIS + LOWEST_AXIS - request.rule, ..request };
                let same = walk::answer(&request).same(&walk::answer(&other));
                *told.entry(request.rule).or_default() += u32::from(!same);
            }
        }
        for rule in [GRADE_AXIS, LOWEST_AXIS] {
            assert!(seen[&rule] > 400 && told[&rule] > 25, "{rule}: {seen:?}, {told:?}");
        }
        assert!(NO_RULES.iter().all(|rule| seen[rule] > 5), "{seen:?}");
    }

    /// Every refusal and every kind of table comes up.
    #[test]
    fn every_refusal_comes_up() {
        if !reference::AT_HAND {
            return;
        }
        let mut seen = BTreeMap::<u32, u32>::new();
        for index in 0..1_000 {
            let request = cases::by_chance(Call::Walk, 1, index);
            let number = crate::original::answer(&request).refused().unwrap_or(0);
            assert!(number == 13 || added::refusal(&request).unwrap_or(0) == number);
            *seen.entry(number).or_default() += 1;
        }
        for number in [0, 1, 2, 3, 4, 5, 11, 12, 13] {
            assert!(seen.get(&number) > Some(&5), "{number}: {seen:?}");
        }
    }
}

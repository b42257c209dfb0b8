//! The fixed list of walks that the program `replay` reads, as bytes. crates/replay/src/walks.rt says how.

use crate::chance::Chance;
use crate::entries::*;
use crate::list::whole;
use crate::{descriptions, ties, walk, walks};
use request::{Answer, Call, Description, Request, SLOT};

const SEED: u64 = 1;
/// The longest table of a case: 127 cells.
const LONGEST: usize = 128 * SLOT;
/// Walks by chance by the lowest-axis rule, and by the default one.
const CHANCES: usize = 60;
const DEFAULT_CHANCES: usize = 20;

fn constant(period: i64, level: i64) -> Description {
    let mut d = PLAIN;
    (d[PERIOD], d[START]) = (period, level);
    d
}

/// A linear level along one axis, from `anchors[0]` to `anchors[1]`.
fn ramp(period: i64, axis: usize, anchors: [i64; 2], levels: [i64; 2]) -> Description {
    let mut d = PLAIN;
    (d[PERIOD], d[LEVEL_KIND]) = (period, LINEAR);
    [d[FROM + axis], d[TO + axis]] = anchors;
    [d[START], d[END]] = levels;
    d
}

/// A box by its lows and spans.
fn bounds(low: [i64; 3], spans: [i64; 3]) -> [i64; 6] {
    std::array::from_fn(|i| if i < 3 { low[i] } else { low[i - 3] + spans[i - 3] })
}

/// A walk by the lowest-axis rule with as many bytes as its cells want; any few where it is refused before it is
/// counted.
fn exact(description: Description, whole: [i64; 6], depth: i64) -> Request {
    let request = Request { whole, depth, rule: LOWEST_AXIS, ..Request::new(Call::Walk, description) };
    Request { table: walk::room(&request), ..request }
}

/// Constants of several periods, a linear level with equal ends among them and the primitive surface: depths 0 to 7 of boxes below,
/// about and above the origin.
fn constants(out: &mut Vec<Request>) {
    let equal = ramp(4096, 1, [-3, 5], [-300, -300]);
    let networks = [constant(10240, 0), constant(1024, 600), constant(3001, -700), equal];
    let primitives = [constant(10240, 1500), constant(3001, 300)].map(primitive);
    for d in networks.into_iter().chain(primitives) {
        let period = d[PERIOD];
        for depth in 0..8 {
            let low = [-period, -1 - period / 8, depth * period / 16];
            let spans = [period / 4, period / 4 + depth % 3 - 1, period / 3];
            out.push(exact(d, bounds(low, spans), depth));
        }
    }
}

/// Boxes before, up to, across and after each plane of a ramp, and across both.
fn ramps(out: &mut Vec<Request>) {
    let ramps = [
        (0, ramp(10240, 0, [0, 10240], [-256, 256])),
        (1, ramp(2048, 1, [1024, -4096], [256, -256])),
        (2, ramp(1500, 2, [-5000, -2000], [0, 200])),
        (0, ramp(TICKS, 0, [TICKS / 2, -TICKS / 2], [1, 0])),
        (0, primitive(ramp(10240, 0, [0, 10240], [-256, 256]))),
        (2, primitive(ramp(1500, 2, [-5000, -2000], [0, 200]))),
    ];
    for (axis, d) in ramps {
        let (start, end) = (d[FROM + axis], d[TO + axis]);
        let (low, high) = (start.min(end), start.max(end));
        let (span, third) = (d[PERIOD] / 5, (high - low) / 3);
        let ends = [
            [low - span - 1, low - 1],
            [low - span, low],
            [low - span, low + 1],
            [low, low + span],
            [low + third, high - third],
            [high - span, high],
            [high - 1, high + span],
            [high, high + span],
            [low - span, high + span],
        ];
        for (depth, ends) in (1..).zip(ends) {
            let mut whole = [-span / 2, 7, -2 * span, span - 1, 8 + span, -span];
            [whole[axis], whole[3 + axis]] = ends;
            out.push(exact(d, whole, depth.min(7)));
        }
    }
}

/// Boxes that are walked down to tick cubes, where nothing settles and where some does; spans that tie or are 1; the largest boxes.
fn extremes(out: &mut Vec<Request>) {
    let unsettled = [
        [1, 1, 1],
        [1, 1, 2],
        [2, 1, 1],
        [1, 3, 1],
        [2, 2, 2],
        [3, 3, 3],
        [4, 5, 5],
        [5, 5, 5],
        [1, 1, 127],
        [7, 1, 18],
    ];
    for (y, spans) in (-5..).zip(unsettled) {
        out.push(exact(constant(1, 0), bounds([-3, y, -TICKS], spans), 24));
    }
    for (y, spans) in (-2..).zip([[4, 1, 10], [3, 4, 4], [1, 16, 1], [6, 6, 1]]) {
        out.push(exact(constant(12, 300), bounds([TICKS - 9, y, -5], spans), 24));
    }
    for depth in [0, 1, 3, 6] {
        out.push(exact(PLAIN, bounds([-TICKS; 3], [2 * TICKS; 3]), depth));
    }
}

/// Boxes of the primitive surface that are inside by a hair, each one cell. With every sum stepped they would be unsettled and halved.
fn hairs(out: &mut Vec<Request>) {
    let boxes = [
        (256, [460173, 269837, 3072, 594317, 406029, 134144]),
        (-1024, [502103, 187849, 408576, 640343, 318921, 539648]),
        (1024, [122349, 110722, 413696, 257517, 242818, 544768]),
    ];
    out.extend(boxes.map(|(level, whole)| exact(primitive(constant(TICKS, level)), whole, 1)));
}

/// Cells of depths 1 to 3 in one table, and of all depths to 23 and to 24.
fn depths(out: &mut Vec<Request>) {
    out.push(exact(constant(10240, -128), bounds([0; 3], [1024; 3]), 3));
    let Request { description, whole, .. } = walks::deepest();
    out.extend([23, 24].map(|depth| exact(description, whole, depth)));
}

/// Tables about the room that a walk wants, and a walk that none holds.
fn rooms(out: &mut Vec<Request>) {
    let ramp = ramp(10240, 0, [0, 10240], [-256, 256]);
    let walks = [
        exact(constant(10240, 2048), [0, 0, 0, 1024, 1024, 1024], 1),
        exact(constant(10240, 2048), [0, 0, 0, 1024, 1024, 1024], 0),
        exact(ramp, [-1000, -7, 0, 3000, 2000, 2500], 5),
        exact(primitive(ramp), [-1000, 1000, 2000, 3000, 3500, 4500], 8),
    ];
    out.push(Request { table: LONGEST, rule: LOWEST_AXIS, ..walks::hopeless() });
    for walk in walks {
        let about = [-32, -1, 0, 1, 31, 32, 103].map(|more| walk.table.saturating_add_signed(more));
        out.extend([0, 1, 31, 32, 63].into_iter().chain(about).map(|table| Request { table, ..walk }));
    }
}

fn broken(row: fn(&mut Request), mut request: Request) -> Request {
    row(&mut request);
    request
}

/// A walk with each of the description's rows of the refusal table broken, in the first way that has words.
fn misdescribed(accepted: Request) -> impl Iterator<Item = Request> {
    descriptions::ROWS.into_iter().filter_map(move |row| {
        let mut ways = (0..).map(|index| {
            let mut request = accepted;
            row(&mut Chance::new(SEED, 0, index), &mut request.description);
            request
        });
        ways.find(|request| words(request).is_some())
    })
}

/// A walk that is accepted.
fn accepted() -> Request {
    exact(PLAIN, [-9, 0, 3, 9, 8, 9], 2)
}

/// Every row of the refusal table that a walk can break, the walk's own in pairs and each of the others with one of them; and every
/// kind, one less and one more.
fn refusals(out: &mut Vec<Request>) {
    let accepted = Request { table: 100, ..accepted() };
    for (i, first) in walks::ROWS.into_iter().enumerate() {
        out.extend(walks::ROWS[i..].iter().map(|second| broken(*second, broken(first, accepted))));
    }
    for (i, request) in misdescribed(accepted).enumerate() {
        let own = walks::ROWS[i % walks::ROWS.len()];
        out.extend([request, broken(own, request)]);
    }
    // What 32 bits would cut to a number within its limits.
    let cut: [fn(&mut Request); 3] =
        [|r| r.description[PERIOD] += 1 << 32, |r| r.whole[3] += 1 << 32, |r| r.depth += 1 << 32];
    out.extend(cut.map(|row| broken(row, accepted)));
    let kinds = limits(KIND).start() - 1..=limits(KIND).end() + 1;
    out.extend(kinds.map(|kind| {
        let mut request = accepted;
        request.description[KIND] = kind;
        request
    }));
}

/// Walks by chance about accepted descriptions, by a rule: as many as are taken.
fn by_chance(stream: u64, rule: u32) -> impl Iterator<Item = Request> {
    let requests = (0..).map(move |index| {
        let c = &mut Chance::new(SEED, stream, index);
        let mut request = Request { rule, ..Request::new(Call::Walk, descriptions::accepted(c)) };
        walks::set(c, &mut request);
        request
    });
    requests.filter(|request| request.table <= LONGEST && words(request).is_some())
}

fn chances(out: &mut Vec<Request>) {
    out.extend(by_chance(1, LOWEST_AXIS).take(CHANCES));
}

/// Whether a walk by the default rule leaves the bytes that the lowest-axis rule leaves.
fn as_by_the_lowest(request: &Request) -> bool {
    walk::answer(request).same(&walk::answer(&Request { rule: LOWEST_AXIS, ..*request }))
}

/// Boxes whose longest spans tie or miss it by a tick, at levels that are graded, just graded and not graded, by the
/// default rule; the same by the other one where that cuts them otherwise.
fn tied(out: &mut Vec<Request>) {
    for request in ties::all() {
        out.push(request);
        if !as_by_the_lowest(&request) {
            out.push(ties::by_the_lowest_axis(&request));
        }
    }
}

/// Walks by the default rule that are not those of the other one: the first among so many by chance.
fn default_chances(out: &mut Vec<Request>) {
    let told = by_chance(2, GRADE_AXIS).take(2000).filter(|request| !as_by_the_lowest(request));
    out.extend(told.take(DEFAULT_CHANCES));
}

/// Rules that are none, of a walk that is accepted and of one that breaks any other row of the refusal table: 1 comes
/// first.
fn no_rules(out: &mut Vec<Request>) {
    let mut otherwise = vec![accepted()];
    otherwise.extend(walks::ROWS.map(|row| broken(row, accepted())));
    otherwise.extend(misdescribed(accepted()));
    for rule in [2, u32::MAX] {
        out.extend(otherwise.iter().map(|request| Request { rule, ..*request }));
    }
}

/// What a walk takes, as words; nothing where a number has none.
fn words(request: &Request) -> Option<Vec<u64>> {
    let numbers = request.description.iter().chain(&request.whole).chain([&request.depth]).map(|n| i128::from(*n));
    numbers.chain([request.rule.into(), request.table as i128]).map(whole).collect()
}

/// The case of a walk; nothing where it has none.
fn case(request: &Request) -> Option<Vec<u8>> {
    let Answer::Walked(walked) = walk::answer(request) else { return None };
    let mut words = words(request).filter(|_| request.table <= LONGEST)?;
    words.push(whole(walked.status.into())?);
    let mut bytes: Vec<u8> = words.iter().flat_map(|word| word.to_le_bytes()).collect();
    bytes.extend(walked.table);
    bytes.resize(bytes.len().next_multiple_of(8), 0);
    Some(bytes)
}

fn requests() -> Vec<Request> {
    let mut out = Vec::new();
    // By the lowest-axis rule.
    for add in [constants, ramps, extremes, rooms, refusals, chances, hairs, depths] {
        add(&mut out);
    }
    // By the default one, beside it by the lowest-axis rule, and by none.
    for add in [tied, default_chances, no_rules] {
        add(&mut out);
    }
    out
}

/// The list.
pub fn list() -> Vec<u8> {
    requests().iter().filter_map(case).flatten().collect()
}

#[cfg(test)]
mod tests {
    use super::*;
    use std::collections::{BTreeMap, BTreeSet};

    #[test]
    fn every_status_and_depth_comes_up() {
        if !reference::AT_HAND {
            return;
        }
        let (mut statuses, mut depths) = (BTreeMap::<u32, u32>::new(), BTreeMap::<i64, u32>::new());
        for request in requests() {
            assert!(case(&request).is_some(), "{request}");
            let number = walk::answer(&request).refused().unwrap_or(0);
            *statuses.entry(number).or_default() += 1;
            if number == 0 {
                *depths.entry(request.depth).or_default() += 1;
            }
        }
        for number in [0, 1, 2, 3, 4, 5, 11, 12, 13] {
            assert!(statuses.get(&number) > Some(&1), "{number}: {statuses:?}");
        }
        for depth in (0..8).chain([24]) {
            assert!(depths.get(&depth) > Some(&5), "{depth}: {depths:?}");
        }
    }

    /// Either rule comes up, and rules that are none with walks that by a rule are refused by every number, or by none.
    #[test]
    fn every_rule_comes_up() {
        if !reference::AT_HAND {
            return;
        }
        let (mut rules, mut otherwise, mut told) = (BTreeMap::<u32, u32>::new(), BTreeSet::new(), 0);
        for request in requests() {
            *rules.entry(request.rule).or_default() += 1;
            let lowest = Request { rule: LOWEST_AXIS, ..request };
            match request.rule {
                LOWEST_AXIS => {}
                GRADE_AXIS => told += u32::from(!as_by_the_lowest(&request)),
                _ => {
                    assert_eq!(walk::answer(&request).refused(), Some(1), "{request}");
                    otherwise.insert(walk::answer(&lowest).refused().unwrap_or(0));
                }
            }
        }
        assert_eq!(rules.keys().copied().collect::<Vec<_>>(), [GRADE_AXIS, LOWEST_AXIS, 2, u32::MAX]);
        assert!(told > 40, "{told}: {rules:?}");
        assert_eq!(otherwise.into_iter().collect::<Vec<_>>(), [0, 1, 2, 3, 4, 5, 11, 12, 13]);
    }

    /// The depths that the cells of a walk have, each once.
    fn depths_in(request: &Request) -> BTreeSet<u8> {
        let Answer::Walked(walked) = walk::answer(request) else { panic!("a walk's answer") };
        walked.table.chunks_exact(SLOT).skip(1).map(|cell| cell[5]).collect()
    }

    #[test]
    fn hairs_are_settled() {
        if !reference::AT_HAND {
            return;
        }
        let mut walks = Vec::new();
        hairs(&mut walks);
        for request in walks {
            assert_eq!(walk::cells(&request), Some(1), "{request}");
        }
    }

    #[test]
    fn three_depths_and_more_in_a_table() {
        if !reference::AT_HAND {
            return;
        }
        let mut walks = Vec::new();
        depths(&mut walks);
        for request in walks {
            let depths = depths_in(&request);
            assert_eq!(depths.last().copied().map(i64::from), Some(request.depth), "{request}");
            assert!(depths.len() >= 3, "{request}");
        }
    }

    #[test]
    fn a_case_is_words_and_then_the_table() {
        if !reference::AT_HAND {
            return;
        }
        let request = Request { table: 97, ..exact(constant(10240, 2048), [0, 0, 0, 1024, 1024, 1024], 1) };
        let case = case(&request).unwrap();
        let Answer::Walked(walked) = walk::answer(&request) else { panic!("a walk's answer") };
        let word = |i: usize| u64::from_le_bytes(case[8 * i..][..8].try_into().unwrap()) as i64 - (1 << 62);
        assert_eq!([0, 21, 24, 25, 26, 27].map(word), [10240, 1024, 1, LOWEST_AXIS.into(), 97, 0]);
        assert_eq!(case[28 * 8..], [walked.table, vec![0; 7]].concat());
        assert!(super::case(&Request { table: LONGEST + 1, ..request }).is_none());
    }
}

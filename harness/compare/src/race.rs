//! The walk's speed over seven boxes: ours, which makes one pass, the one in two passes, and the plain one over the
//! original's box state, in turns. A box with a graded level is walked by either tie rule.

use crate::entries::*;
use crate::walk;
use gyroid_cells::raw;
use reference::Leaf;
use request::{Call, Request, SLOT, unwritten};
use std::hint::black_box;
use std::time::{Duration, Instant};

/// Odd, so that one time stands in the middle.
const ROUNDS: usize = 5;

/// A walk to be timed.
pub struct Case {
    pub name: String,
    pub request: Request,
    /// How often a side makes the walk in one round: many times where one walk is too short for the clock.
    pub repeated: u32,
}

/// A walk of a network at a constant level by the default rule, with a table of so many slots.
fn constant(whole: [i64; 6], depth: i64, slots: usize) -> Request {
    Request { whole, depth, table: SLOT * slots, ..Request::new(Call::Walk, PLAIN) }
}

/// Two periods each way; more than 100,000 cells.
fn core() -> Request {
    constant([0, 0, 0, 20480, 20480, 20480], 19, 1 << 18)
}

/// The same on a ramp along all of an axis; more than 100,000 cells too.
fn graded(axis: usize) -> Request {
    let mut graded = core();
    let d = &mut graded.description;
    (d[LEVEL_KIND], d[TO + axis], d[START], d[END]) = (LINEAR, 20480, -RAMP, RAMP);
    graded
}

/// The core that is graded along x: its cells are the same by either rule.
pub fn linear() -> Request {
    graded(0)
}

/// A box whose spans are no powers of two, nor is its period; its ramp along z starts below it and ends inside it.
fn odd() -> Request {
    let mut odd = constant([-4001, -333, 777, 20011, 19001, 30333], 17, 1 << 17);
    let d = &mut odd.description;
    (d[PERIOD], d[LEVEL_KIND], d[START], d[END]) = (9973, LINEAR, -112, 212);
    d[FROM..START].copy_from_slice(&[17, 33, 5, 17, 33, 20011]);
    odd
}

/// A walk that is timed by the default rule, and where its level is graded by the lowest-axis rule as well.
fn timed_once(name: &str, request: Request) -> Vec<Case> {
    let case = |name: String, rule| Case { name, request: Request { rule, ..request }, repeated: 1 };
    let mut cases = vec![case(name.into(), GRADE_AXIS)];
    if request.description[LEVEL_KIND] == LINEAR {
        cases.push(case(format!("{name}, lowest"), LOWEST_AXIS));
    }
    cases
}

/// Three cores of more than 100,000 cells, then boxes of other shapes, the last of which is one cell.
pub fn cases() -> Vec<Case> {
    let plate = constant([0, 0, 0, 81920, 81920, 640], 18, 1 << 17);
    let needle = constant([0, 0, 0, 64, 64, 1_000_000], 17, 1 << 13);
    let single = constant([0, 0, 0, 512, 512, 512], 0, 4);
    let cores = [("constant", core()), ("linear", linear()), ("upright", graded(2))];
    let others = [("plate", plate), ("needle", needle), ("odd", odd())];
    let once = cores.into_iter().chain(others).flat_map(|(name, request)| timed_once(name, request));
    once.chain([Case { name: "single".into(), request: single, repeated: 2000 }]).collect()
}

/// A walk that leaves a table and answers its status.
pub type Walk = fn(&Request, &mut [u8]) -> u32;
/// The same as a function of C.
type RawWalk = unsafe extern "C" fn(*const i64, usize, *const i64, usize, i64, u32, *mut u8, usize) -> u32;

/// Cells, and the median time of each side.
pub struct Race {
    pub cells: u32,
    pub one_pass: Duration,
    pub two_passes: Duration,
    pub original: Option<Duration>,
}

unsafe extern "C" {
    /// The walk of crates/twice, which counts the whole tree before it writes. It takes and answers what `gyroid_walk`
    /// does.
    fn gyroid_walk_twice(
        description: *const i64,
        description_length: usize,
        bounds: *const i64,
        bounds_length: usize,
        depth: i64,
        rule: u32,
        out: *mut u8,
        out_length: usize,
    ) -> u32;
}

/// A walk as a program of C calls it; the status.
fn lent(walk: RawWalk, request: &Request, table: &mut [u8]) -> u32 {
    let Request { description: d, whole: bounds, depth, rule, .. } = request;
    let (at, room) = (table.as_mut_ptr(), table.len());
    // The slices are alive for the call, and the table is lent to it alone.
    unsafe { walk(d.as_ptr(), d.len(), bounds.as_ptr(), bounds.len(), *depth, *rule, at, room) }
}

/// Our walk.
pub fn ours(request: &Request, table: &mut [u8]) -> u32 {
    lent(raw::gyroid_walk, request, table)
}

/// The same in two passes, kept to be measured against.
fn twice(request: &Request, table: &mut [u8]) -> u32 {
    lent(gyroid_walk_twice, request, table)
}

/// The original's, from the description on, as ours.
fn original(request: &Request, table: &mut [u8]) -> u32 {
    let leaf = Leaf::new(&request.description);
    leaf.map_or(raw::NONE, |leaf| walk::fill(&leaf, request, table))
}

/// The time of one walk: that of all the walks of a round, divided by their number.
fn timed(walk: Walk, case: &Case, table: &mut [u8]) -> Duration {
    // Which walk it is stays hidden from the compiler, so that it leaves out no repetition.
    let walk = black_box(walk);
    let start = Instant::now();
    for _ in 0..case.repeated {
        walk(&case.request, table);
    }
    start.elapsed() / case.repeated
}

/// The time in the middle of an odd number of times.
fn median(mut times: Vec<Duration>) -> Duration {
    times.sort_unstable();
    times[times.len() / 2]
}

/// The median of the times that each of so many sides takes. In each round every side has its turn, so that a slow spell
/// of the machine meets all.
pub fn medians(sides: usize, mut timed: impl FnMut(usize) -> Duration) -> Vec<Duration> {
    let mut times = vec![vec![]; sides];
    for _ in 0..ROUNDS {
        for (side, times) in times.iter_mut().enumerate() {
            times.push(timed(side));
        }
    }
    times.into_iter().map(median).collect()
}

/// The table of a walk; the error says why there is none.
pub fn table(walk: Walk, request: &Request) -> Result<Vec<u8>, String> {
    let mut table = unwritten(request.table);
    match walk(request, &mut table) {
        raw::FOUND => Ok(table),
        status => Err(format!("status {status}")),
    }
}

/// Races all sides on a walk; the error says why there is nothing to time.
pub fn race(case: &Case) -> Result<Race, String> {
    let mut sides: Vec<Walk> = vec![ours, twice];
    sides.extend(reference::AT_HAND.then_some(original as Walk));
    let mut left = table(ours, &case.request)?;
    for side in &sides[1..] {
        if table(*side, &case.request)? != left {
            return Err("the tables differ".into());
        }
    }
    let cells = gyroid_cells::Table::read(&left).ok_or("a table with a broken chain")?.head().cells;
    let times = medians(sides.len(), |side| timed(sides[side], case, &mut left));
    Ok(Race { cells, one_pass: times[0], two_passes: times[1], original: times.get(2).copied() })
}

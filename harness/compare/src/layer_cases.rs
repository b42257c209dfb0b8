//! Requests for layer reports at the limits of all that they are asked of, the same for every seed.

use crate::entries::TICKS;
use crate::specials;
use crate::tables::{self, COUNT, HIGH, LOW, NEXT, STATE, Slot, chained, placed};
use request::{LAYER, LayerRequest, SLOT};

/// The coordinate limits, as a table has them.
const LIMIT: i32 = TICKS as i32;
/// A run that begins below the cells of `three` and ends above them.
const ACROSS: [i64; 2] = [-5, 9];

/// A request with a report of exactly the bytes that it wants.
fn exact(table: Vec<u8>, [low, high]: [i64; 2]) -> LayerRequest {
    let mut request = LayerRequest { low, high, report: 0, table };
    request.report = LAYER * request.layers();
    request
}

/// A cell of each state; the second stands on the first, and the third crosses the layers of both.
const CELLS: [tables::Cell; 3] =
    [(1 + 256, [-3, -2, -4, 5, 4, 1]), (2 + 512, [0, 0, 1, 7, 3, 6]), (3 + 768, [5, -2, -4, 9, 4, 8])];

fn three() -> Vec<Slot> {
    chained(&CELLS)
}

/// The layers across some slots.
fn across(slots: &[Slot]) -> LayerRequest {
    exact(tables::bytes(slots), ACROSS)
}

/// The table of `three` with these numbers at these places, which are slots and places in them.
fn with(places: &[(usize, usize, i32)]) -> LayerRequest {
    let mut slots = three();
    for (slot, place, number) in places {
        slots[*slot][*place] = *number;
    }
    across(&slots)
}

/// The chain in every order of the slots, and chains that return to a slot, end early, run on or name a slot that is none.
fn chains(out: &mut Vec<LayerRequest>) {
    for order in [[1, 2, 3], [1, 3, 2], [2, 1, 3], [2, 3, 1], [3, 1, 2], [3, 2, 1]] {
        out.push(across(&placed(&CELLS, &order)));
    }
    for slot in 0..4 {
        out.extend([-1, i32::MIN, i32::MAX, 0, 1, 2, 3, 4].map(|next| with(&[(slot, NEXT, next)])));
    }
    // The same with a slot behind the recorded cells that ends the chain, and with one that leads back to it.
    for last in [0, 2] {
        let behind = [last, 1, 0, 0, 0, 1, 1, 1];
        for slot in 0..4 {
            let mut slots = [three(), vec![behind]].concat();
            slots[slot][NEXT] = 4;
            out.push(across(&slots));
        }
    }
}

/// Numbers of cells that are not those of the chain, with and without room for them.
fn counts(out: &mut Vec<LayerRequest>) {
    for count in [0, 1, 2, 4, 5, 256, i32::MAX, i32::MIN, -1] {
        out.push(with(&[(0, COUNT, count)]));
        let mut slots = [three(), vec![[0; 8]; 3]].concat();
        slots[0][COUNT] = count;
        out.push(across(&slots));
    }
    out.push(with(&[(0, NEXT, 0), (0, COUNT, 0)]));
    // A chain that leaves out the last slot, or the first, and a record that knows.
    out.extend([with(&[(0, COUNT, 2), (2, NEXT, 0)]), with(&[(0, NEXT, 2), (0, COUNT, 2)])]);
}

/// Tables cut at every length about a slot's, and longer ones with bytes behind the cells, which are not looked at.
fn lengths(out: &mut Vec<LayerRequest>) {
    let table = tables::bytes(&three());
    for length in [0, 1, 31, 32, 33, 63, 64, 65, 96, 127] {
        out.push(exact(table[..length].to_vec(), ACROSS));
    }
    for more in [1, 31, 32, 33, 64] {
        out.push(exact([&table[..], &vec![255; more]].concat(), ACROSS));
    }
    for length in [0, 31, 32, 63, 64] {
        out.extend([0, 255].map(|byte| exact(vec![byte; length], ACROSS)));
    }
}

/// States and depths at their limits, and what a report does not look at: the other bytes of that word and of slot 0.
fn words(out: &mut Vec<LayerRequest>) {
    out.extend([0, 1, 2, 3, 4, 128, 255].map(|state| with(&[(3, STATE, state)])));
    out.extend([0, 1, 24, 25, 128, 255].map(|depth| with(&[(1, STATE, 1 + 256 * depth)])));
    out.extend([1 << 16, 255 << 16, 1 << 24, -1 << 16].map(|junk| with(&[(2, STATE, 2 + junk)])));
    out.extend((2..8).map(|place| with(&[(0, place, -1)])));
}

/// Boxes about their limits: spans of 1 and less, and coordinates at either limit and beyond.
fn boxes(out: &mut Vec<LayerRequest>) {
    let [_, (_, ends), _] = CELLS;
    for (axis, low) in ends[..3].iter().enumerate() {
        for span in [2, 1, 0, -1, -LIMIT] {
            out.push(with(&[(2, HIGH + axis, low + span)]));
        }
        for beyond in [0, 1] {
            out.push(with(&[(2, LOW + axis, -LIMIT - beyond)]));
            out.push(with(&[(2, HIGH + axis, LIMIT + beyond)]));
            // With a span of 1.
            out.push(with(&[(2, LOW + axis, -LIMIT - beyond), (2, HIGH + axis, 1 - LIMIT - beyond)]));
            out.push(with(&[(2, LOW + axis, LIMIT - 1 + beyond), (2, HIGH + axis, LIMIT + beyond)]));
        }
        out.push(with(&[(2, LOW + axis, i32::MIN)]));
        out.push(with(&[(2, HIGH + axis, i32::MAX)]));
        out.push(with(&[(2, LOW + axis, i32::MIN), (2, HIGH + axis, i32::MAX)]));
    }
}

/// Volumes that add up to 2^63, to one more, and to what 64 bits would take for less; cells that overlap.
fn volumes(out: &mut Vec<LayerRequest>) {
    let [low, high] = [-LIMIT, LIMIT];
    let all = [low, low, low, high, high, high];
    let (lower, upper) = ([low, low, low, high, high, 0], [low, low, 0, high, high, high]);
    let cube = [0, 0, 0, 1, 1, 1];
    let less_a_layer = [low, low, low, high, high, high - 1];
    let sums: [&[[i32; 6]]; 10] = [
        &[all],
        &[all, cube],
        &[all, all],
        &[all, all, cube],
        &[all, all, all],
        &[lower, upper],
        &[lower, lower],
        &[lower, upper, cube],
        &[less_a_layer, cube],
        &[cube, cube, cube],
    ];
    for cells in sums {
        let marked: Vec<_> = (1..).zip(cells).map(|(state, ends)| (state, *ends)).collect();
        for run in [[-1, 1], [-TICKS, 1 - TICKS], [TICKS - 1, TICKS]] {
            out.push(exact(tables::bytes(&chained(&marked)), run));
        }
    }
    let same = [-7, 3, -2, 9, 8, 4];
    out.push(across(&chained(&[1, 1, 2, 2, 2, 3].map(|state| (state, same)))));
}

/// Every pair of these as the ends of a run, in order and not, with a report of a few layers.
fn ends(ends: &[i64], out: &mut Vec<LayerRequest>) {
    let pairs = ends.iter().flat_map(|low| ends.iter().map(|high| [*low, *high]));
    out.extend(pairs.map(|[low, high]| LayerRequest { low, high, report: 4 * LAYER, table: tables::bytes(&three()) }));
}

/// Runs about every edge of the cells, and ends at their limits and beyond.
fn runs(out: &mut Vec<LayerRequest>) {
    let table = tables::bytes(&three());
    for low in -6..10 {
        out.extend([1, 7].map(|layers| exact(table.clone(), [low, low + layers])));
    }
    out.extend([[-TICKS, 1 - TICKS], [TICKS - 1, TICKS]].map(|run| exact(table.clone(), run)));
    ends(&[-1 << 61, -TICKS - 1, -TICKS, 0, TICKS, TICKS + 1, 1 << 61], out);
}

/// Reports about the room that their layers want.
fn rooms(out: &mut Vec<LayerRequest>) {
    for layers in [1, 2, 14] {
        let request = exact(tables::bytes(&three()), [ACROSS[0], ACROSS[0] + layers]);
        for more in [-24, -23, -1, 0, 1, 7, 24, 100] {
            out.push(LayerRequest { report: request.report.saturating_add_signed(more), ..request.clone() });
        }
        out.push(LayerRequest { report: 0, ..request });
    }
}

/// Ways to break each of the three conditions, in their order.
const ROWS: [fn(&mut LayerRequest); 8] = [
    |r| r.table.truncate(31),
    |r| r.table[4..8].fill(0),
    |r| r.table[SLOT..SLOT + 4].fill(0),
    |r| r.high = r.low,
    |r| r.low = -TICKS - 1,
    |r| r.high = TICKS + 1,
    |r| r.report = r.report.saturating_sub(1),
    |r| r.report = 0,
];

/// Each of the conditions broken, and every pair of them.
fn pairs(out: &mut Vec<LayerRequest>) {
    for (i, first) in ROWS.iter().enumerate() {
        for second in &ROWS[i..] {
            let mut request = across(&three());
            second(&mut request);
            first(&mut request);
            out.push(request);
        }
    }
}

/// What is named above, each case with a table and a report of few bytes.
pub fn named() -> Vec<LayerRequest> {
    let mut out = Vec::new();
    for add in [chains, counts, lengths, words, boxes, volumes, runs, rooms, pairs] {
        add(&mut out);
    }
    out
}

/// Numbers that the limits of a table's numbers are made of.
pub fn special_words() -> Vec<i32> {
    let mut all =
        vec![0, i32::MIN, i32::MAX, 255, 256, 1 + 256 * 24, 3 + 256 * 24, 256 * 24, 1 + 256 * 25, 1 + (1 << 16)];
    for size in [1, 2, 3, 4, 5, LIMIT - 1, LIMIT, LIMIT + 1] {
        all.extend([size, -size]);
    }
    all
}

/// The systematic part: the named cases, every number of a table at every special one, every
/// pair of special ends, and all layers that there are.
pub fn systematic() -> Vec<LayerRequest> {
    let mut out = named();
    ends(&specials::whole(), &mut out);
    for slot in 0..4 {
        for place in 0..8 {
            out.extend(special_words().into_iter().map(|number| with(&[(slot, place, number)])));
        }
    }
    let all = exact(tables::bytes(&three()), [-TICKS, TICKS]);
    out.extend([all.report - 1, all.report].map(|report| LayerRequest { report, ..all.clone() }));
    out
}

#[cfg(test)]
mod tests {
    use super::*;
    use crate::layers;
    use std::collections::BTreeMap;

    #[test]
    fn every_status_comes_up() {
        let mut seen = BTreeMap::<u32, u32>::new();
        for request in named() {
            *seen.entry(layers::answer(&request).refused().unwrap_or(0)).or_default() += 1;
        }
        for number in [0, 15, 16, 17] {
            assert!(seen.get(&number) > Some(&10), "{number}: {seen:?}");
        }
    }
}

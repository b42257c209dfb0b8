//! Layer reports by chance: of tables that walks leave, that are made by hand, or that are broken in one place; of layers
//! about their cells, and with reports about the room that they want.

use crate::chance::Chance;
use crate::entries::{LOWEST_AXIS, TICKS};
use crate::layer_cases::special_words;
use crate::layers::{Cell, head};
use crate::tables::{self, STATE, placed};
use crate::{descriptions, ours, specials, walks};
use request::{Answer, Call, LAYER, LayerRequest, Request, SLOT};

/// The most layers that a report holds.
const MANY: usize = 400;

/// The table that a walk leaves, of 128 cells at most.
fn walked(c: &mut Chance) -> Vec<u8> {
    let mut request = Request::new(Call::Walk, descriptions::accepted(c));
    request.whole = walks::bounds(c, &request);
    (request.depth, request.rule) = (c.between(0, 7), LOWEST_AXIS);
    request.table = SLOT * (128 + 1);
    let Answer::Walked(mut walked) = ours::answer(&request) else { unreachable!("a walk's answer") };
    let cells = head(&walked.table).map_or(0, |[_, cells]| cells);
    walked.table.truncate(SLOT * (1 + cells as usize));
    walked.table
}

/// The ends of a side: near 0, so that cells overlap, or anywhere.
fn side(c: &mut Chance) -> [i32; 2] {
    let low = match c.below(4) {
        0 => c.one_of(&[-TICKS, TICKS - 1]),
        1 => c.any_length(TICKS) * c.sign(),
        _ => c.between(-9, 9),
    };
    let low = low.min(TICKS - 1);
    let span = if c.once_in(4) { c.any_length(2 * TICKS).max(1) } else { c.between(1, 12) };
    [low as i32, (low + span).min(TICKS) as i32]
}

fn cell(c: &mut Chance) -> tables::Cell {
    let sides = [side(c), side(c), side(c)];
    (c.between(1, 3) as i32 + 256 * c.between(0, 24) as i32, std::array::from_fn(|i| sides[i % 3][i / 3]))
}

/// The slots from 1 on, in an order by chance.
fn shuffled(c: &mut Chance, count: usize) -> Vec<usize> {
    let mut order: Vec<usize> = (1..=count).collect();
    for i in 1..count {
        order.swap(i, c.below(i as u64 + 1) as usize);
    }
    order
}

/// Cells by chance in slots by chance, and anything in what is not looked at.
fn made(c: &mut Chance) -> Vec<u8> {
    let cells: Vec<_> = (0..=c.any_length(15)).map(|_| cell(c)).collect();
    let mut slots = placed(&cells, &shuffled(c, cells.len()));
    slots[0][2..].fill_with(|| c.bits() as i32);
    if c.once_in(2) {
        slots[1..].iter_mut().for_each(|slot| slot[STATE] |= (c.bits() as i32) << 16);
    }
    tables::bytes(&slots)
}

/// A byte or a number changed, or some bytes cut off.
fn damage(c: &mut Chance, table: &mut Vec<u8>) {
    let length = table.len() as u64;
    match c.below(4) {
        0 => table[c.below(length) as usize] = c.bits() as u8,
        1 => table.truncate((length - 1 - c.below(40)) as usize),
        _ => {
            let place = 4 * c.below(length / 4) as usize;
            table[place..][..4].copy_from_slice(&c.one_of(&special_words()).to_le_bytes());
        }
    }
}

fn table(c: &mut Chance) -> Vec<u8> {
    let mut table = if c.once_in(2) { walked(c) } else { made(c) };
    if c.once_in(4) {
        damage(c, &mut table);
    }
    if c.once_in(4) {
        table.extend((0..c.below(70)).map(|_| c.bits() as u8));
    }
    table
}

/// Layers about the ends of a cell, those of the cell, or ends at their limits.
fn run(c: &mut Chance, table: &[u8]) -> [i64; 2] {
    let slot = c.between(1, 1.max(table.len() as i64 / SLOT as i64 - 1)) as u32;
    let [low, high] = Cell::at(table, slot).map_or([0, 4], |cell| [cell.bounds[2], cell.bounds[5]]);
    let about = c.one_of(&[low, (low + high) / 2, high]) + c.between(-3, 3);
    let any = specials::whole();
    match c.below(24) {
        0 => [c.one_of(&any), c.one_of(&any)],
        1 => [about, c.one_of(&any)],
        2 => [c.one_of(&any), about],
        3..8 => [low, high.min(low + MANY as i64)],
        8..12 => [about, about + c.any_length(MANY as i64)],
        _ => [about, about + c.between(1, 8)],
    }
}

/// A report about the room that the layers want, which is held to `MANY` layers.
fn report(c: &mut Chance, layers: usize) -> usize {
    let wanted = LAYER * layers.min(MANY);
    match c.below(10) {
        0 => c.below(2 * wanted as u64 + 1) as usize,
        1 => wanted.saturating_sub(c.one_of(&[1, LAYER])),
        2 | 3 => wanted + 1 + c.below(40) as usize,
        _ => wanted,
    }
}

/// Case `index`.
pub fn by_chance(seed: u64, index: u64) -> LayerRequest {
    // The calls on a description have the numbers before this one.
    let c = &mut Chance::new(seed, Call::ALL.len() as u64, index);
    let table = table(c);
    let [low, high] = run(c, &table);
    let mut request = LayerRequest { low, high, report: 0, table };
    request.report = report(c, request.layers());
    request
}

#[cfg(test)]
mod tests {
    use super::*;
    use crate::layers;
    use std::collections::BTreeMap;

    /// Every refusal comes up; two of five reports have areas, some of them of a chain that is not in the slots' order.
    #[test]
    fn every_status_comes_up() {
        let (mut seen, mut filled, mut shuffled) = (BTreeMap::<u32, u32>::new(), 0, 0);
        for request in (0..1_000).map(|index| by_chance(1, index)) {
            let Answer::Reported(reported) = layers::answer(&request) else { unreachable!("a layer report") };
            *seen.entry(reported.status).or_default() += 1;
            if reported.status == 0 && reported.to_string().contains(|digit| ('1'..='9').contains(&digit)) {
                filled += 1;
                shuffled += u32::from(head(&request.table).is_some_and(|[first, _]| first != 1));
            }
        }
        for number in [0, 15, 16, 17] {
            assert!(seen.get(&number) > Some(&50), "{number}: {seen:?}");
        }
        assert!(filled > 400 && shuffled > 100, "{filled}, {shuffled}");
    }
}

//! Why bytes are no sound table, by docs/TABLE.md, once the library has refused them by 15.

use gyroid_cells::{Bounds, SLOT};

const REMEDY: &str = "Make it anew with `gyroid walk`";

/// The first thing that is broken, and what to do.
pub fn unsound(bytes: &[u8]) -> String {
    let why = head(bytes).and_then(|cells| chain(bytes, cells)).and_then(|slots| records(bytes, &slots));
    match why {
        Err(why) => format!("{why}. {REMEDY}"),
        Ok(()) => REMEDY.into(),
    }
}

fn number(bytes: &[u8], place: usize) -> u32 {
    u32::from_le_bytes(std::array::from_fn(|i| bytes[place + i]))
}

/// The number of cells that slot 0 records.
fn head(bytes: &[u8]) -> Result<usize, String> {
    let slots = bytes.len() / SLOT;
    if slots < 2 {
        return Err(format!("it has {} bytes, and a table of one cell has 64", bytes.len()));
    }
    match number(bytes, 4) as usize {
        0 => Err("it records no cell".into()),
        cells if cells >= slots => {
            Err(format!("it records {cells} cells, which want {} bytes, and has {}", (cells + 1) * SLOT, bytes.len()))
        }
        cells => Ok(cells),
    }
}

/// The slots of the chain, each of 1 to the number of cells once.
fn chain(bytes: &[u8], cells: usize) -> Result<Vec<usize>, String> {
    let mut visited = vec![false; cells + 1];
    let mut slots = Vec::with_capacity(cells);
    let (mut from, mut slot) = (0, number(bytes, 0) as usize);
    while slot != 0 {
        if slot > cells {
            return Err(format!(
                "slot {from} names slot {slot} as the next, and the {cells} cells stand in slots 1 to {cells}"
            ));
        }
        if visited[slot] {
            return Err(format!("slot {from} names slot {slot} as the next, which the chain has visited already"));
        }
        visited[slot] = true;
        slots.push(slot);
        (from, slot) = (slot, number(bytes, slot * SLOT) as usize);
    }
    match slots.len() == cells {
        true => Ok(slots),
        false => Err(format!("its chain ends after {} of {cells} cells, in slot {from}", slots.len())),
    }
}

/// States, depths, boxes and the sum of the volumes.
fn records(bytes: &[u8], slots: &[usize]) -> Result<(), String> {
    let mut sum: u128 = 0;
    for slot in slots {
        let place = slot * SLOT;
        let (state, depth) = (bytes[place + 4], bytes[place + 5]);
        if !(1..=3).contains(&state) {
            return Err(format!("the state of slot {slot} is {state}, and states are 1, 2 and 3"));
        }
        if depth > 24 {
            return Err(format!("the depth of slot {slot} is {depth}, and depths are 0 to 24"));
        }
        let corner = |at: usize| [0, 4, 8].map(|i| i64::from(number(bytes, place + at + i) as i32));
        let Bounds { low, high } = Bounds { low: corner(8), high: corner(20) };
        if (0..3).any(|i| low[i] < -(1 << 20) || high[i] > 1 << 20 || low[i] >= high[i]) {
            return Err(format!(
                "the box of slot {slot} goes from {low:?} to {high:?}; each low is below its high, within -1048576 to 1048576"
            ));
        }
        sum += (0..3).map(|i| (high[i] - low[i]) as u128).product::<u128>();
    }
    match sum > 1 << 63 {
        true => Err(format!("the volumes of its cells add up to {sum} tick cubes, more than 2^63")),
        false => Ok(()),
    }
}

#[cfg(test)]
mod tests {
    use super::*;

    const HEAD: [i32; 8] = [1, 2, 3, 0, 0, 0, 0, 0];
    const FIRST: [i32; 8] = [2, 1, 0, 0, 0, 1, 1, 1];
    const SECOND: [i32; 8] = [0, 3, 1, 0, 0, 2, 1, 1];

    /// The library refuses the slots by 15, and these are the words of it.
    fn refused(slots: &[[i32; 8]], words: &str) {
        let bytes: Vec<u8> = slots.as_flattened().iter().flat_map(|n| n.to_le_bytes()).collect();
        assert_eq!(gyroid_cells::layers(&bytes, 0, 1, &mut [0; 24]).unwrap_err().number(), 15);
        assert_eq!(unsound(&bytes), format!("{words}. {REMEDY}"));
    }

    fn with(slot: [i32; 8], place: usize, number: i32) -> [i32; 8] {
        let mut slot = slot;
        slot[place] = number;
        slot
    }

    #[test]
    fn the_first_thing_that_is_broken() {
        refused(&[], "it has 0 bytes, and a table of one cell has 64");
        refused(&[HEAD], "it has 32 bytes, and a table of one cell has 64");
        refused(&[with(HEAD, 1, 0), FIRST, SECOND], "it records no cell");
        refused(&[HEAD, FIRST], "it records 2 cells, which want 96 bytes, and has 64");
        let outside = "slot 1 names slot 3 as the next, and the 2 cells stand in slots 1 to 2";
        refused(&[HEAD, with(FIRST, 0, 3), SECOND, SECOND], outside);
        let circle = "slot 2 names slot 1 as the next, which the chain has visited already";
        refused(&[HEAD, FIRST, with(SECOND, 0, 1)], circle);
        refused(&[HEAD, with(FIRST, 0, 0), SECOND], "its chain ends after 1 of 2 cells, in slot 1");
        refused(&[HEAD, with(FIRST, 1, 4), SECOND], "the state of slot 1 is 4, and states are 1, 2 and 3");
        refused(&[HEAD, FIRST, with(SECOND, 1, 25 * 256 + 1)], "the depth of slot 2 is 25, and depths are 0 to 24");
        refused(
            &[HEAD, FIRST, with(SECOND, 2, 2)],
            "the box of slot 2 goes from [2, 0, 0] to [2, 1, 1]; each low is below its high, within -1048576 to 1048576",
        );
        let all = [2, 1, -1048576, -1048576, -1048576, 1048576, 1048576, 1048576];
        let sum = (1_u128 << 63) + 1;
        refused(&[HEAD, all, SECOND], &format!("the volumes of its cells add up to {sum} tick cubes, more than 2^63"));
    }
}

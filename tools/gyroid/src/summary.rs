//! What a table says, in words and as the program `cells` prints it. Volumes are those of the cells along the chain.

use crate::lengths::{counted, cubic_mm, grouped, mm, per_cent};
use gyroid_cells::{Bounds, State, Table};
use std::io::{self, Write};

/// The cells of a table, by state, and the least box that holds them.
struct Sums {
    cells: [u64; 3],
    volumes: [u64; 3],
    deepest: u8,
    bounds: Bounds,
}

const STATES: [State; 3] = [State::Inside, State::Outside, State::Unsettled];

impl Sums {
    fn of(table: &Table) -> Self {
        let none = Bounds { low: [i64::MAX; 3], high: [i64::MIN; 3] };
        let mut sums = Self { cells: [0; 3], volumes: [0; 3], deepest: 0, bounds: none };
        for cell in table {
            let place = cell.state as usize - 1;
            sums.cells[place] += 1;
            // Of a sound table the volumes add up to 2^63 at most.
            sums.volumes[place] += cell.bounds.volume().unwrap_or(0);
            sums.deepest = sums.deepest.max(cell.depth);
            for axis in 0..3 {
                sums.bounds.low[axis] = sums.bounds.low[axis].min(cell.bounds.low[axis]);
                sums.bounds.high[axis] = sums.bounds.high[axis].max(cell.bounds.high[axis]);
            }
        }
        sums
    }
}

/// A sound table in words: cells, the box, marked volume, solid, open and unsettled, the table's bytes.
pub fn of(bytes: &[u8]) -> String {
    let Some(table) = Table::read(bytes) else { return String::new() };
    let sums = Sums::of(&table);
    let whole = sums.volumes.iter().sum();
    let [inside, outside, unsettled] = sums.volumes;
    let row = |name: &str, state: State, volume: u64| {
        let cells = sums.cells[state as usize - 1];
        format!(
            "  {name:<10}{:>22}  {:>9}  in {} {state}\n",
            cubic_mm(volume),
            per_cent(volume, whole),
            counted(cells, "cell")
        )
    };
    let Bounds { low, high } = sums.bounds;
    let spans = [0, 1, 2].map(|i| mm(high[i] - low[i])).join(" by ");
    let corner = low.map(mm).join(", ");
    let [solid_row, open_row, unsettled_row] = STATES.map(|state| match state {
        State::Inside => row("solid", state, inside),
        State::Outside => row("open", state, outside),
        State::Unsettled => row("unsettled", state, unsettled),
    });
    format!(
        "{}, up to {} deep, in {} bytes\n\
         box {spans}, its low corner at {corner}\n\
         marked {} of {}\n{solid_row}{open_row}{unsettled_row}\
         solid fraction {} at least, {} at most\n",
        counted(sums.cells.iter().sum(), "cell"),
        counted(sums.deepest.into(), "halving"),
        grouped(bytes.len() as u64),
        per_cent(inside + outside, whole),
        cubic_mm(whole),
        per_cent(inside, whole),
        per_cent(inside + unsettled, whole),
    )
}

/// What the program `cells` prints of a walk: cells, evaluated, solid, open, then state, lows, highs of each cell.
pub fn list(bytes: &[u8], out: &mut impl Write) -> io::Result<()> {
    let Some(table) = Table::read(bytes) else { return Ok(()) };
    let head = table.head();
    writeln!(out, "{} {} {} {}", head.cells, head.evaluated, head.solid, head.open)?;
    for cell in &table {
        let ([a, b, c], [d, e, f]) = (cell.bounds.low, cell.bounds.high);
        writeln!(out, "{} {a} {b} {c} {d} {e} {f}", cell.state as u32)?;
    }
    out.flush()
}

//! The layer report's speed over all layers of the linear core: ours beside safe Rust's, in turns.

use crate::race::{self, medians};
use crate::rust_layers;
use gyroid_cells::{Refusal, Table};
use request::{LAYER, unwritten};
use std::hint::black_box;
use std::time::{Duration, Instant};

/// Cells, layers, and the median time of each side.
pub struct LayerRace {
    pub cells: u32,
    pub layers: usize,
    pub ours: Duration,
    pub rust: Duration,
}

/// A report of the layers from one on and before another, of a table; it answers its status.
type Report = fn(&[u8], i64, i64, &mut [u8]) -> u32;

fn ours(table: &[u8], low: i64, high: i64, report: &mut [u8]) -> u32 {
    gyroid_cells::layers(table, low, high, report).err().map_or(0, Refusal::number)
}

/// Races both sides; the error says why there is nothing to time.
pub fn race() -> Result<LayerRace, String> {
    let walk = race::linear();
    let table = race::table(race::ours, &walk)?;
    let cells = Table::read(&table).ok_or("a table with a broken chain")?.head().cells;
    let [_, _, low, _, _, high] = walk.whole;
    let layers = (high - low) as usize;
    let sides: [Report; 2] = [ours, rust_layers::layers];
    let mut reports = sides.map(|_| unwritten(LAYER * layers));
    for (side, report) in sides.iter().zip(&mut reports) {
        let status = side(&table, low, high, report);
        if status != 0 {
            return Err(format!("status {status}"));
        }
    }
    let [mut report, other] = reports;
    if report != other {
        return Err("the reports differ".into());
    }
    let times = medians(sides.len(), |side| {
        // Which side it is stays hidden from the compiler, so that it leaves out nothing.
        let side = black_box(sides[side]);
        let start = Instant::now();
        side(&table, low, high, &mut report);
        start.elapsed()
    });
    Ok(LayerRace { cells, layers, ours: times[0], rust: times[1] })
}

//! `gyroid layers`: the library's layer report on a table, as a CSV file, as a plot, or both. Layer z lies between z
//! and z + 1 ticks.

mod csv;
mod plot;
mod shares;
mod steps;

use crate::cut::position;
use crate::kept::Kept;
use crate::lengths::{grouped, mm};
use crate::output;
use crate::trouble::Trouble;
use crate::words::{Opt, Words};
use gyroid_cells::{LAYER, Layer};
use std::ffi::OsString;
use std::io::{self, Write};
use std::path::Path;

const OPTIONS: [Opt; 4] = [Opt::Value("-o"), Opt::Value("--plot"), Opt::Value("--from"), Opt::Value("--to")];

/// No run of layers within the coordinate limits is longer.
const LONGEST: i64 = 1 << 21;

pub fn run(words: impl Iterator<Item = OsString>) -> Result<(), Trouble> {
    let words = Words::read("layers", &OPTIONS, words)?;
    let table = words.operand("the table's file")?;
    let (list, plot) = files(&words)?;
    let (from, to) = (position::layer(&words, "--from")?, position::layer(&words, "--to")?);
    let kept = Kept::open(&table)?;
    let bounds = kept.bounds();
    let layers = report(&kept, from.unwrap_or(bounds.low[2]), to.unwrap_or(bounds.high[2]))?;
    if let Some(path) = list {
        output::write(path, |file| csv::write(&layers, file))?;
    }
    if let Some(path) = plot {
        output::write(path, |file| file.write_all(plot::plot(&layers).as_bytes()))?;
    }
    writeln!(io::stdout(), "{}", said(&layers))?;
    Ok(())
}

/// The files to be written: the list and the plot.
fn files(words: &Words) -> Result<(Option<&Path>, Option<&Path>), Trouble> {
    let (list, plot) = (words.path("-o"), words.path("--plot"));
    if list.is_none() && plot.is_none() {
        return Err(words.usage("there is nothing to write; give -o layers.csv, --plot layers.svg, or both"));
    }
    if list == plot {
        return Err(words.usage("-o and --plot name the same file; give each one of its own"));
    }
    match plot {
        Some(path) if path.extension().is_none_or(|ending| !ending.eq_ignore_ascii_case("svg")) => {
            Err(words.usage(format!("--plot {} does not end in .svg, which is what a plot is", path.display())))
        }
        _ => Ok((list, plot)),
    }
}

/// The layers from `low` up to, and without, `high`.
fn report(kept: &Kept, low: i64, high: i64) -> Result<Vec<Layer>, Trouble> {
    // The library refuses a run that is empty or too long before it looks at the report.
    let count = high.checked_sub(low).filter(|count| (1..=LONGEST).contains(count)).unwrap_or(0);
    let mut report = vec![0; count as usize * LAYER];
    match kept.table().layers(low, high, &mut report) {
        Ok(layers) => Ok(layers.collect()),
        Err(refusal) => Err(Trouble::refused(format!(
            "layers: there is no report from {} to {} (refused {}): {}; give a --from below --to, both between {} and \
             {}",
            mm(low),
            mm(high),
            refusal.number(),
            refusal.text(),
            mm(-LONGEST / 2),
            mm(LONGEST / 2)
        ))),
    }
}

/// How many layers there are, and where the least and the greatest part of one is inside.
fn said(layers: &[Layer]) -> String {
    let (first, last) = (&layers[0], &layers[layers.len() - 1]);
    let count = layers.len() as u64;
    let layer = if count == 1 { "layer" } else { "layers" };
    let run = format!("{} {layer} from {} to {} in z", grouped(count), mm(first.z), mm(last.z + 1));
    match shares::extremes(layers, |layer| layer.inside) {
        None => format!("{run}, which no cell crosses"),
        Some([least, greatest]) => format!(
            "{run}: inside {} of the area at least, in the layer at {}, and {} at most, in the layer at {}",
            shares::of(least.inside, least),
            mm(least.z),
            shares::of(greatest.inside, greatest),
            mm(greatest.z)
        ),
    }
}

//! `gyroid info`: what slot 0 and the chain of a table say, whether it is sound, and whether it is the table that a walk
//! of a part file leaves.

use crate::export::overlap;
use crate::kept::Kept;
use crate::lengths::{cubic_mm, grouped};
use crate::trouble::Trouble;
use crate::walk::{self, Progress};
use crate::words::{Opt, Words};
use crate::{refusals, summary};
use gyroid_cells::{Bounds, Head, SLOT, Table};
use std::ffi::OsString;
use std::io::{self, Write};
use std::path::Path;

pub fn run(words: impl Iterator<Item = OsString>) -> Result<(), Trouble> {
    let words = Words::read("info", &[Opt::Value("--part")], words)?;
    let path = words.operand("the table")?;
    let kept = Kept::open(&path)?;
    let mut said = format!("{}: a sound table\n{}{}", path.display(), summary::of(kept.bytes()), head(&kept.table()));
    let cells: Vec<_> = kept.cells().collect();
    said += &match overlap::first(&cells) {
        None => "no two cells overlap\n".into(),
        Some((one, other)) => {
            format!("cells overlap, as no walk's do: {} and {} ticks\n", shown(one.bounds), shown(other.bounds))
        }
    };
    if let Some(part) = words.path("--part") {
        same_as_walk(&path, &kept, part)?;
        said += &format!("every byte is as the walk of {} leaves it\n", part.display());
    }
    io::stdout().write_all(said.as_bytes()).map_err(Trouble::from)
}

/// Walks a part file and compares. A table may have spare bytes behind its cells, which are zero.
fn same_as_walk(path: &Path, kept: &Kept, part: &Path) -> Result<(), Trouble> {
    let order = walk::order_of_part(part)?;
    let walked = walk::walk(&order, walk::processors(), &mut Progress::new(false))
        .map_err(|refusal| Trouble::refused(refusals::of_order(refusal.number(), &order)))?;
    let length = walked.len().max(kept.bytes().len());
    let at = |bytes: &[u8], place: usize| bytes.get(place).copied().unwrap_or(0);
    match (0..length).find(|place| at(kept.bytes(), *place) != at(&walked, *place)) {
        None => Ok(()),
        Some(place) => Err(Trouble::refused(format!(
            "{} is not the table that a walk of {} leaves: byte {place}, in slot {}, is {} and not {}. \
             Walk it again, or find the part file that it was walked by",
            path.display(),
            part.display(),
            place / SLOT,
            at(kept.bytes(), place),
            at(&walked, place),
        ))),
    }
}

fn shown(Bounds { low: [a, b, c], high: [d, e, f] }: Bounds) -> String {
    format!("({a}, {b}, {c}) to ({d}, {e}, {f})")
}

/// Slot 0 as it stands. Its second volume is that of all cells which are not inside.
fn head(table: &Table) -> String {
    let Head { first, cells, evaluated, solid, open } = table.head();
    format!(
        "slot 0: first cell in slot {first}, {} cells, {} boxes evaluated,\n\
         \x20 volumes {} ({solid} tick cubes) inside and {} ({open} tick cubes) not inside\n",
        grouped(cells.into()),
        grouped(evaluated.into()),
        cubic_mm(solid),
        cubic_mm(open),
    )
}

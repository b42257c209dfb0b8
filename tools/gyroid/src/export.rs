//! `gyroid export`: a table's cells for other programs. The ending of the file's name says in which form: .vtk and .csv
//! hold the cells, .stl and .obj their surface.

mod chosen;
mod corners;
mod csv;
mod faces;
mod gaps;
mod measured;
mod obj;
pub mod overlap;
mod stl;
mod surface;
mod vtk;

use crate::kept::Kept;
use crate::lengths::{counted, cubic_mm, grouped};
use crate::trouble::Trouble;
use crate::words::{Opt, Words};
use chosen::Chosen;
use gyroid_cells::{Bounds, Cell};
use std::ffi::{OsStr, OsString};
use std::io::{self, Write};
use std::path::Path;
use surface::Surface;

/// What a file is to hold.
#[derive(Clone, Copy, Debug, PartialEq)]
enum Form {
    Vtk,
    Csv,
    Stl,
    Obj,
}

impl Form {
    /// By the ending of a file's name, in small or large letters.
    fn of(file: &Path) -> Option<Self> {
        let ending = file.extension().and_then(OsStr::to_str)?.to_ascii_lowercase();
        let forms = [("vtk", Form::Vtk), ("csv", Form::Csv), ("stl", Form::Stl), ("obj", Form::Obj)];
        forms.into_iter().find(|(name, _)| *name == ending).map(|(_, form)| form)
    }

    fn is_surface(self) -> bool {
        matches!(self, Form::Stl | Form::Obj)
    }
}

/// `gyroid export TABLE -o FILE [--only STATES]`.
pub fn run(words: impl Iterator<Item = OsString>) -> Result<(), Trouble> {
    let words = Words::read("export", &[Opt::Value("-o"), Opt::Value("--only")], words)?;
    let table = words.operand("the table")?;
    let (file, form) = target(&words)?;
    let chosen = chosen(&words, form)?;
    let kept = Kept::open(&table)?;
    let cells: Vec<Cell> = kept.cells().filter(|cell| chosen.has(cell)).collect();
    if cells.is_empty() {
        return Err(nothing(&table, &chosen, form));
    }
    let (what, bytes) = match form {
        Form::Vtk => (counted(cells.len() as u64, "cell"), measured::write(file, |to| vtk::write(&cells, to))?),
        Form::Csv => (counted(cells.len() as u64, "cell"), measured::write(file, |to| csv::write(&kept, &chosen, to))?),
        Form::Stl => write_surface(file, &surface(&table, &kept, &cells)?, stl::write)?,
        Form::Obj => write_surface(file, &surface(&table, &kept, &cells)?, obj::write)?,
    };
    // A sound table's volumes add up to 2^63 at most.
    let volume = cells.iter().filter_map(|cell| cell.bounds.volume()).sum();
    let whose = if chosen == Chosen::all() { "in all".into() } else { chosen.listed("or") };
    let (file, volume, bytes) = (file.display(), cubic_mm(volume), grouped(bytes));
    writeln!(io::stdout(), "{file}: {what}, {volume} {whose}, {bytes} bytes")?;
    Ok(())
}

/// The file to write, and its form.
fn target(words: &Words) -> Result<(&Path, Form), Trouble> {
    let Some(file) = words.path("-o") else {
        return Err(words.usage("-o is missing: name the file to write, which ends in .vtk, .csv, .stl or .obj"));
    };
    let unknown = || format!("{} ends in none of .vtk, .csv, .stl and .obj, which say what to write", file.display());
    Form::of(file).map(|form| (file, form)).ok_or_else(|| words.usage(unknown()))
}

/// The states of `--only`; without it all cells are written, or the surface of the inside cells.
fn chosen(words: &Words, form: Form) -> Result<Chosen, Trouble> {
    match words.value("--only")? {
        None if form.is_surface() => Ok(Chosen::inside()),
        None => Ok(Chosen::all()),
        Some(text) => Chosen::read(text).ok_or_else(|| {
            let states = "it takes inside, outside or unsettled, or some of them joined as in inside+unsettled";
            words.usage(format!("--only {text} names no states; {states}"))
        }),
    }
}

fn nothing(table: &Path, chosen: &Chosen, form: Form) -> Trouble {
    let (table, states) = (table.display(), chosen.listed("or"));
    let missing = if form.is_surface() { "no surface" } else { "nothing" };
    Trouble::usage(format!("{table} has no {states} cell, so there is {missing} to write; --only chooses other states"))
}

fn write_surface(
    file: &Path,
    surface: &Surface,
    write: fn(&Surface, &mut dyn Write) -> io::Result<()>,
) -> Result<(String, u64), Trouble> {
    let bytes = measured::write(file, |to| write(surface, to))?;
    Ok((counted(surface.triangles.len() as u64, "triangle"), bytes))
}

/// The surface of some of a table's cells. Where any two cells of the table overlap, there is none: it is not said what
/// is inside there.
fn surface(table: &Path, kept: &Kept, cells: &[Cell]) -> Result<Surface, Trouble> {
    let all: Vec<Cell> = kept.cells().collect();
    match overlap::first(&all) {
        None => Ok(Surface::of(cells)),
        Some((a, b)) => Err(Trouble::usage(format!(
            "{} has cells that overlap, so there is no surface to write: the {} and the {}, in ticks; \
             cells of a walk never do, so walk again, or write .vtk or .csv",
            table.display(),
            placed(&a),
            placed(&b)
        ))),
    }
}

/// `inside cell from 0, 0, 0 to 512, 1024, 1024`.
fn placed(cell: &Cell) -> String {
    let Bounds { low: [lx, ly, lz], high: [hx, hy, hz] } = cell.bounds;
    format!("{} cell from {lx}, {ly}, {lz} to {hx}, {hy}, {hz}", cell.state)
}

#[cfg(test)]
mod tests {
    use super::*;

    #[test]
    fn forms_by_the_ending() {
        let form = |name: &str| Form::of(Path::new(name));
        assert_eq!(form("a.vtk/core.STL"), Some(Form::Stl));
        assert_eq!(["c.vtk", "c.csv", "c.obj"].map(form), [Form::Vtk, Form::Csv, Form::Obj].map(Some));
        assert_eq!(["stl", ".stl", "core", "core.stl.gz", "core.", ""].map(form), [None; 6]);
    }
}

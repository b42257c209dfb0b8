//! `gyroid cut`: a picture of one tick layer of a table, across x, y or z. Layer n lies between n and n + 1 ticks, and
//! shows the cells whose low on that axis is at most n and whose high is above it.

mod checksums;
pub mod colours;
mod deflate;
mod font;
mod huffman;
#[cfg(test)]
mod inflate;
mod matches;
mod picture;
mod png;
pub mod position;
mod raster;
pub mod round;
mod section;
pub mod shapes;
mod vector;

use crate::kept::Kept;
use crate::lengths::{grouped, mm, per_cent};
use crate::output;
use crate::trouble::Trouble;
use crate::words::{Opt, Words};
use colours::Colouring;
use gyroid_cells::Bounds;
use picture::Picture;
use raster::Raster;
use section::{AXES, Section};
use std::ffi::OsString;
use std::io::{self, Write};
use std::path::{Path, PathBuf};

const OPTIONS: [Opt; 7] = [
    Opt::Value("--x"),
    Opt::Value("--y"),
    Opt::Value("--z"),
    Opt::Value("-o"),
    Opt::Value("--colour"),
    Opt::Value("--size"),
    Opt::Plain("--no-borders"),
];

/// The options that name the axes, in the axes' order.
const ACROSS: [&str; 3] = ["--x", "--y", "--z"];

#[derive(Clone, Copy)]
enum Format {
    Png,
    Svg,
}

struct Asked {
    words: Words,
    table: PathBuf,
    axis: usize,
    layer: i64,
    path: PathBuf,
    format: Format,
    by_depth: bool,
    size: i64,
}

pub fn run(words: impl Iterator<Item = OsString>) -> Result<(), Trouble> {
    let asked = read(Words::read("cut", &OPTIONS, words)?)?;
    let kept = Kept::open(&asked.table)?;
    let bounds = kept.bounds();
    within(&asked, bounds)?;
    let section = Section::new(&kept, bounds, asked.axis, asked.layer)
        .map_err(|refusal| Trouble::refused(format!("cut: {refusal}")))?;
    output::write(&asked.path, |file| file.write_all(&drawn(&asked, &section)))?;
    writeln!(io::stdout(), "{}: {}", asked.path.display(), said(&section))?;
    Ok(())
}

/// What the words ask for.
fn read(words: Words) -> Result<Asked, Trouble> {
    let table = words.operand("the table's file")?;
    let (axis, layer) = across(&words)?;
    let Some(path) = words.path("-o").map(Path::to_path_buf) else {
        return Err(words.usage("-o is missing; name the picture, such as -o cut.png or -o cut.svg"));
    };
    let format = format(&words, &path)?;
    let (by_depth, size) = (by_depth(&words)?, size(&words)?);
    Ok(Asked { words, table, axis, layer, path, format, by_depth, size })
}

/// The axis and the layer.
fn across(words: &Words) -> Result<(usize, i64), Trouble> {
    let given: Vec<usize> = (0..3).filter(|axis| words.has(ACROSS[*axis])).collect();
    match given[..] {
        [axis] => Ok((axis, position::layer(words, ACROSS[axis])?.unwrap_or_default())),
        [] => Err(words.usage("which layer? Give --x, --y or --z with a position, such as --z 10.0 for 10 mm in z")),
        [one, other, ..] => Err(words.usage(format!(
            "{} and {} are both given; a picture shows one layer, so leave one of them out",
            ACROSS[one], ACROSS[other]
        ))),
    }
}

/// The ending of the picture's name says what it is.
fn format(words: &Words, path: &Path) -> Result<Format, Trouble> {
    let ending = path.extension().map(|ending| ending.to_string_lossy().to_lowercase());
    match ending.as_deref() {
        Some("png") => Ok(Format::Png),
        Some("svg") => Ok(Format::Svg),
        _ => {
            Err(words
                .usage(format!("{} ends neither in .png nor in .svg; give it one of these endings", path.display())))
        }
    }
}

fn by_depth(words: &Words) -> Result<bool, Trouble> {
    match words.value("--colour")? {
        None | Some("state") => Ok(false),
        Some("depth") => Ok(true),
        Some(other) => Err(words.usage(format!("--colour {other} is neither state nor depth"))),
    }
}

/// The pixels of the cells' longer side.
fn size(words: &Words) -> Result<i64, Trouble> {
    let Some(text) = words.value("--size")? else { return Ok(1000) };
    match text.parse() {
        Ok(size @ 100..=8000) => Ok(size),
        _ => Err(words.usage(format!("--size {text} is no whole number of pixels from 100 to 8000"))),
    }
}

fn within(asked: &Asked, bounds: Bounds) -> Result<(), Trouble> {
    let (low, high) = (bounds.low[asked.axis], bounds.high[asked.axis]);
    if low <= asked.layer && asked.layer < high {
        return Ok(());
    }
    let (option, axis) = (ACROSS[asked.axis], AXES[asked.axis]);
    let given = asked.words.value(option)?.unwrap_or_default();
    Err(asked.words.usage(format!(
        "{option} {given} lies outside the table's cells; give a position from {} up to, and below, {} in {axis}",
        mm(low),
        mm(high)
    )))
}

/// The bytes of the picture.
fn drawn(asked: &Asked, section: &Section) -> Vec<u8> {
    let colouring = if asked.by_depth { section.depths } else { Colouring::State };
    let borders = !asked.words.has("--no-borders");
    let picture = Picture::new(section, colouring, asked.size);
    match asked.format {
        Format::Png => {
            let Raster { width, palette, pixels } = Raster::of(&picture, section, colouring, borders);
            png::png(width, &palette, &pixels)
        }
        Format::Svg => vector::svg(&picture, section, colouring, borders).into_bytes(),
    }
}

/// What the picture shows, in words.
fn said(section: &Section) -> String {
    let [from, to] = [section.layer, section.layer + 1].map(mm);
    let layer = format!("the layer from {from} to {to} in {}", AXES[section.axis]);
    let count = section.cells.len() as u64;
    if count == 0 {
        return format!("{layer}, which no cell crosses");
    }
    let shares = section.shares().map(|(state, share)| format!("{state} {}", per_cent(share, section.areas.area())));
    let cells = if count == 1 { "cell" } else { "cells" };
    format!("{layer}, {} {cells}, {} of its area", grouped(count), shares.join(", "))
}

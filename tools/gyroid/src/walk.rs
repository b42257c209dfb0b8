//! `gyroid walk`: marks a part box and keeps its table.

mod join;
mod parts;
mod progress;
mod run;

use crate::line::Line;
use crate::order::{Draft, KEYS, Order};
use crate::summary;
use crate::trouble::Trouble;
use crate::words::{Opt, Words};
use crate::{output, refusals};
use std::ffi::OsString;
use std::fs;
use std::io::{self, BufWriter, Read, Write};
use std::num::NonZero;
use std::path::Path;
use std::thread;
use std::time::Instant;

pub use progress::Progress;
pub use run::walk;

const OPTIONS: [Opt; 12] = [
    Opt::Value("--part"),
    Opt::Value("--line"),
    Opt::Value("--period"),
    Opt::Value("--surface"),
    Opt::Value("--level"),
    Opt::Value("--box"),
    Opt::Value("--depth"),
    Opt::Value("--ties"),
    Opt::Value("-o"),
    Opt::Plain("--list"),
    Opt::Value("--threads"),
    Opt::Plain("--small"),
];

pub fn run(words: impl Iterator<Item = OsString>) -> Result<(), Trouble> {
    let words = Words::read("walk", &OPTIONS, words)?;
    words.no_operand()?;
    let order = ordered(&words)?;
    let threads = threads(&words)?;
    if !words.has("-o") && !words.has("--list") {
        return Err(words.usage("say where the table goes, `-o core.table`, or `--list` to print its cells"));
    }
    let start = Instant::now();
    let bytes = walk(&order, threads, &mut progress::shown())
        .map_err(|refusal| Trouble::refused(refusals::of_order(refusal.number(), &order)))?;
    let took = start.elapsed();
    // The table is summed up while it goes to the disk.
    let said = thread::scope(|scope| {
        let summed = scope.spawn(|| if words.has("--list") { String::new() } else { summary::of(&bytes) });
        if let Some(path) = words.path("-o") {
            output::write(path, |file| file.write_all(&bytes))?;
        }
        Ok::<String, Trouble>(summed.join().expect("any table has a summary"))
    })?;
    if words.has("--list") {
        return summary::list(&bytes, &mut BufWriter::new(io::stdout().lock())).map_err(Trouble::from);
    }
    let name = words.path("-o").unwrap_or(Path::new("")).display();
    let walked = format!("{name}: walked in {:.2} s by {threads} {}\n", took.as_secs_f64(), plural(threads));
    io::stdout().write_all((walked + &said).as_bytes()).map_err(Trouble::from)
}

fn plural(threads: usize) -> &'static str {
    if threads == 1 { "thread" } else { "threads" }
}

/// The order of a part file, of a line or of neither, and then of the options, each in place of its key.
fn ordered(words: &Words) -> Result<Order, Trouble> {
    let mut draft = match (words.path("--part"), words.value("--line")?) {
        (Some(_), Some(_)) => return Err(words.usage("--part and --line both say what to walk; give one of them")),
        (Some(path), None) => of_part(path)?,
        (None, Some(line)) => Draft::of_line(read_line(line)?),
        (None, None) => Draft::default(),
    };
    for key in KEYS {
        if let Some(value) = words.value(&format!("--{key}"))? {
            draft.set(key, value).map_err(|why| words.usage(format!("--{why}")))?;
        }
    }
    let source = words.path("--part").map_or("walk".into(), |path| path.display().to_string());
    let order = whole(draft, &source)?;
    match draft.looks_like_millimetres() {
        Some(what) if !words.has("--small") => Err(Trouble::usage(format!(
            "{source}: {what}. Write the length in mm, or add --small if so small a core is meant"
        ))),
        _ => Ok(order),
    }
}

/// The order, where nothing of it is missing.
fn whole(draft: Draft, source: &str) -> Result<Order, Trouble> {
    draft.order().map_err(|why| Trouble::usage(format!("{source}: {why}")))
}

/// The order of a part file alone.
pub fn order_of_part(path: &Path) -> Result<Order, Trouble> {
    whole(of_part(path)?, &path.display().to_string())
}

fn of_part(path: &Path) -> Result<Draft, Trouble> {
    let text = fs::read_to_string(path).map_err(|error| Trouble::file("read", path, error))?;
    Draft::of_part(&text).map_err(|why| Trouble::usage(format!("{}, {why}", path.display())))
}

/// A line of the command, to which its newline is added, or the bytes of standard input where it is `-`.
pub fn line_bytes(line: &str) -> Result<Vec<u8>, Trouble> {
    if line != "-" {
        let newline = if line.ends_with('\n') { "" } else { "\n" };
        return Ok(format!("{line}{newline}").into_bytes());
    }
    let mut bytes = Vec::new();
    // As the program `cells`: an accepted line is shorter, so that what follows changes nothing.
    let read = io::stdin().lock().take(256).read_to_end(&mut bytes);
    read.map_err(|error| Trouble::usage(format!("cannot read standard input: {error}")))?;
    Ok(bytes)
}

fn read_line(line: &str) -> Result<Line, Trouble> {
    let bytes = line_bytes(line)?;
    Line::read(&bytes).map_err(|broken| Trouble::refused(format!("refused 14: {}", broken.sentence())))
}

/// How many the machine has.
pub fn processors() -> usize {
    thread::available_parallelism().map_or(1, NonZero::get)
}

/// As many as the machine has processors, or as `--threads` says.
fn threads(words: &Words) -> Result<usize, Trouble> {
    match words.value("--threads")? {
        None => Ok(processors()),
        Some(text) => match text.parse() {
            Ok(threads @ 1..=256) => Ok(threads),
            _ => Err(words.usage(format!("--threads is 1 to 256, and not `{text}`"))),
        },
    }
}

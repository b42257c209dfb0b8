//! The walk's time beside that of two passes, its speed beside the original's, the layer report's time beside safe Rust's,
//! what the guard of the float state costs, and the stack that a walk takes. Nothing here is a test.

use compare::layer_race::{self, LayerRace};
use compare::race::{Race, cases, race};
use compare::{guard, stack};
use std::process::ExitCode;
use std::time::Duration;

const HELP: &str = "bench: for each of seven boxes the time of a walk, which makes one pass, that of a walk in two
passes, and their ratio, of which document 02 asks at most two thirds for a core of 100,000 cells or more, as the three
cores are; then cells a second in one pass, ours and the original's, and their ratio. Then the time of a layer report,
ours and that of safe Rust, and their ratio; then the time of a box_state by the bindings, which set the float state and
restore it, and by the library itself; then the stack of a walk of depth 24

The boxes: three cores, at a constant level, at a linear one along x, and upright, at a linear one along z; a plate; a
needle; an odd box, whose spans and period are no powers of two, at a linear level along z; and a single box, which is
not halved and so is one cell. All are walked by the default tie rule, and those at a linear level by the lowest-axis
rule as well: `linear, lowest` and so on. A side that is timed beside ours walks by the same rule.

Each side has its turn in each of five rounds, and its median time counts. Our walk of the single box takes about a
microsecond, so a turn makes it 2,000 times and divides; a turn makes every other walk once. Most of the original's time
on the single box goes into compiling the description. The walk in two passes, to count the tree and to write it, is
proved too, and kept for this alone. The original has no walk: a plain one over its box_state stands in, in one pass.
The layer report is of every layer of the linear core. Beside it stands what a Rust program would have that links no
library: it follows the chain to see that the table is sound, and again to add each cell to the layers that it crosses.
All tables and both reports are compared before anything is timed.";

fn a_second(cells: u32, time: Duration) -> f64 {
    f64::from(cells) / time.as_secs_f64()
}

/// A time in milliseconds; one below a millisecond in microseconds, to the nanosecond.
fn in_units(time: Duration) -> String {
    let seconds = time.as_secs_f64();
    if seconds < 1e-3 { format!("{:.3} us", 1e6 * seconds) } else { format!("{:.1} ms", 1e3 * seconds) }
}

/// The times of one pass and of two.
fn passes(race: &Race) -> String {
    let [one, two] = [race.one_pass, race.two_passes].map(in_units);
    let ratio = race.one_pass.as_secs_f64() / race.two_passes.as_secs_f64();
    format!("one pass {one}, two passes {two}, ratio {ratio:.3}")
}

/// The speeds of one pass, ours and the original's.
fn speeds(race: &Race) -> String {
    let ours = a_second(race.cells, race.one_pass);
    let beside = race.original.map(|time| {
        let original = a_second(race.cells, time);
        format!("the original's {original:.0}, ratio {:.2}", ours / original)
    });
    let beside = beside.unwrap_or("the original is not at hand".into());
    format!("{ours:.0} cells a second, {beside}")
}

fn line(name: &str, race: &Race) -> String {
    format!("{name}, {} cells: {}; {}", race.cells, passes(race), speeds(race))
}

fn layer_line(race: &LayerRace) -> String {
    let [ours, rust] = [race.ours, race.rust].map(in_units);
    let ratio = race.ours.as_secs_f64() / race.rust.as_secs_f64();
    let LayerRace { cells, layers, .. } = race;
    format!("layer report, linear, {cells} cells, {layers} layers: {ours}, safe Rust {rust}, ratio {ratio:.3}")
}

/// Prints a line, or why there is none; whether there was one.
fn said(line: Result<String, String>, name: &str) -> bool {
    match &line {
        Ok(line) => println!("{line}"),
        Err(why) => eprintln!("bench: {name}: {why}"),
    }
    line.is_ok()
}

fn bench() -> ExitCode {
    let mut all = true;
    for case in cases() {
        all &= said(race(&case).map(|race| line(&case.name, &race)), &case.name);
    }
    all &= said(layer_race::race().map(|race| layer_line(&race)), "layer report");
    let cost = guard::cost();
    let [guarded, plain] = [cost.guarded, cost.plain].map(|time| time.as_nanos());
    println!("box_state: {guarded} ns a call by the bindings, {plain} ns without their guard of the float state");
    let taken = stack::measure().map(|bytes| format!("stack, depth 24: {bytes} bytes"));
    all &= said(taken, "stack");
    if all { ExitCode::SUCCESS } else { ExitCode::FAILURE }
}

fn main() -> ExitCode {
    let arguments: Vec<String> = std::env::args().skip(1).collect();
    match arguments.iter().map(String::as_str).collect::<Vec<_>>()[..] {
        [] => bench(),
        [stack::FLAG, walks, bytes] => {
            stack::child(walks == "1", bytes.parse().unwrap_or(0));
            ExitCode::SUCCESS
        }
        ["--help"] => {
            println!("{HELP}");
            ExitCode::SUCCESS
        }
        _ => {
            eprintln!("{HELP}");
            ExitCode::from(2)
        }
    }
}

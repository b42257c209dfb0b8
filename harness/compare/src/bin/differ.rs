//! Compares every answer of the proved library with the original's; about the primitive surface, and of layer reports, with
//! document 02's.

use compare::{lent_report, report, slices, tally};
use request::{Call, LayerRequest};
use std::process::ExitCode;

const COUNT: u64 = 2000;
const SEED: u64 = 1;

const HELP: &str = "differ [COUNT [SEED]]: both sides on the same requests, every answer compared by bits

COUNT (2000) cases by chance for each of the 17 calls, from SEED (1), in addition to a systematic part that is the same every time:
every entry at every special number, every pair of the refusal table's rows, every pair of special doubles and of special ticks as
the ends of each axis, boxes that end some least doubles beside an anchor plane. A zero's sign is open, and fractions are compared
by value. Of a walk every byte of the table is compared, refused or not, with a plain walk over the original's box_state.

Walks are made by either tie rule, the systematic ones by each of them; among these are boxes whose longest sides tie or
miss it by a tick, at levels that are graded along each axis and that are not graded. Some are asked by a rule that is
none, which is refused by 1, with every other row of the refusal table broken beside.

Half of the descriptions are of the network and half of the primitive surface, which the original does not know: there document 02's
lines stand in its place.

COUNT layer reports by chance, of tables that walks leave, that are made by hand or that are broken in one place; and a systematic
part: chains, numbers of cells, states, depths, boxes and volumes of a table, runs and reports, each at its limits, and every pair of
refusals. Every byte of the report and of the table is compared, refused or not, with a plain report from document 02's words.

`added N` counts requests that document 01 refuses by N where the original has no such refusal; ours must be that refusal.
The exit status is 1 where an answer differs. Where the original is not at hand only the lent slices and the layer reports are
compared.";

fn number(argument: Option<String>, default: u64) -> Option<u64> {
    argument.map_or(Some(default), |word| word.parse().ok())
}

/// Lends slices of right and wrong lengths to every call; the number of faults.
fn check_slices(seed: u64) -> u64 {
    let calls = Call::ALL.iter().map(|call| slices::check(*call, seed));
    let checked: Vec<_> = calls.chain([lent_report::check(seed)]).collect();
    let made: u64 = checked.iter().map(|(made, _)| made).sum();
    let faults: Vec<_> = checked.into_iter().flat_map(|(_, faults)| faults).collect();
    println!("lent slices: {made} calls, {} faults", faults.len());
    for fault in faults.iter().take(10) {
        println!("  {fault}");
    }
    faults.len() as u64
}

/// Compares every call, those on a description where the original is at hand; the numbers of cases and of differences.
fn compare(count: u64, seed: u64) -> (u64, u64) {
    println!("{}", report::head());
    let mut tallies = Vec::new();
    for call in Call::ALL.iter().filter(|_| reference::AT_HAND) {
        let tally = tally::call(*call, count, seed);
        println!("{}", report::row(call.name(), &tally));
        tallies.push((call.name(), tally));
    }
    let layers = tally::layers(count, seed);
    println!("{}", report::row(LayerRequest::NAME, &layers));
    if reference::AT_HAND {
        println!("\nWhat document 01 adds, by the smallest request found where the original does otherwise:");
    }
    for (name, tally) in &tallies {
        report::otherwise(name, tally).iter().for_each(|text| println!("  {text}"));
    }
    let listed = tallies.iter().flat_map(|(name, tally)| report::differences(name, tally));
    let listed: Vec<_> = listed.chain(report::differences(LayerRequest::NAME, &layers)).collect();
    if !listed.is_empty() {
        println!("\nUnlisted differences:");
    }
    listed.iter().for_each(|text| println!("  {text}"));
    println!();
    let calls = tallies.iter().map(|(_, tally)| (tally.cases, tally.different()));
    calls.fold((layers.cases, layers.different()), |(cases, different), call| (cases + call.0, different + call.1))
}

fn main() -> ExitCode {
    if std::env::args().nth(1).as_deref() == Some("--help") {
        println!("{HELP}");
        return ExitCode::SUCCESS;
    }
    let mut arguments = std::env::args().skip(1);
    let numbers = (number(arguments.next(), COUNT), number(arguments.next(), SEED));
    let ((Some(count), Some(seed)), None) = (numbers, arguments.next()) else {
        eprintln!("{HELP}");
        return ExitCode::from(2);
    };
    let faults = check_slices(seed);
    if !reference::AT_HAND {
        println!("the comparison with the original is skipped: {}", reference::MISSING);
    }
    let (cases, differences) = compare(count, seed);
    println!("differ: {cases} cases, {} differences", differences + faults);
    ExitCode::from(u8::from(differences + faults > 0))
}

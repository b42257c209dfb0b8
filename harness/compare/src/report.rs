//! The text of a comparison.

use crate::tally::{Asked, Otherwise, Tally};
use request::{Answer, Request};

pub fn head() -> String {
    format!(
        "{:16}{:>10}{:>10}{:>10}{:>10}{:>10}{:>10}{:>10}{:>10}{:>10}",
        "call", "cases", "values", "kind 2", "refusals", "none", "added 1", "added 6", "added 9", "added 10"
    )
}

/// A call's counts: cases, compared by value, those of kind 2 among them, refusals and none compared, and what document 01 adds.
pub fn row<R>(call: &str, tally: &Tally<R>) -> String {
    let added = [1, 6, 9, 10].map(|n| tally.added.get(&n).copied().unwrap_or(0));
    let counts = [tally.cases, tally.values, tally.primitive, tally.refusals, tally.none];
    let numbers = counts.iter().chain(&added).map(|n| format!("{n:>10}"));
    format!("{call:16}{}", numbers.collect::<String>())
}

fn shown(request: &impl Asked) -> String {
    let judged = request.judge();
    let (ours, original) = (&judged.ours, &judged.original);
    let bytes: String = bytes(ours, original).iter().map(|text| format!("\n    {text}")).collect();
    let document = judged.primitive || matches!(original, Answer::Reported(_));
    let beside = if document { "document 02" } else { "original" };
    format!("    {request}\n    here: {ours}\n    {beside}: {original}{bytes}")
}

/// What two answers leave in bytes: its name, ours and the other's.
type Left<'a> = (&'a str, &'a [u8], &'a [u8]);

/// Where those bytes first differ, which the answers' text need not show.
fn bytes(ours: &Answer, original: &Answer) -> Vec<String> {
    let left: Vec<Left> = match (ours, original) {
        (Answer::Walked(a), Answer::Walked(b)) => vec![("table", &a.table, &b.table)],
        (Answer::Reported(a), Answer::Reported(b)) => {
            vec![("report", &a.report, &b.report), ("table", &a.table, &b.table)]
        }
        _ => vec![],
    };
    left.into_iter().filter_map(first_other).collect()
}

fn first_other((name, ours, plain): Left) -> Option<String> {
    let at = ours.iter().zip(plain).position(|(a, b)| a != b)?;
    Some(format!("byte {at} of the {name} is {} here, and {} by the plain one", ours[at], plain[at]))
}

/// What the original does where document 01 adds a refusal, each with the smallest request found.
pub fn otherwise(name: &str, tally: &Tally<Request>) -> Vec<String> {
    let listed = tally.otherwise.iter().map(|(key, sample)| {
        let (number, count) = (key.0, sample.count);
        let does = match key.1 {
            Otherwise::Found => "finds values",
            Otherwise::None => "finds nothing",
            Otherwise::RefusedByAnother => "refuses by another number",
            Otherwise::Panicked => "panics",
            // Its types cannot hold the request, so there is nothing to show.
            Otherwise::Unmade => return format!("{name}, added {number}: the original cannot be asked {count} times"),
        };
        let shown = tally.smallest_otherwise(*key).map(|request| shown(&request));
        format!("{name}, added {number}: the original {does} {count} times\n{}", shown.unwrap_or_default())
    });
    listed.collect()
}

/// The unlisted differences, each with the smallest request found.
pub fn differences<R: Asked>(name: &str, tally: &Tally<R>) -> Vec<String> {
    let listed = tally.differences.iter().filter_map(|(kinds, sample)| {
        let request = tally.smallest_difference(kinds)?;
        let number = request.judge().refusal;
        let asked = number.map_or("no refusal".into(), |n| format!("refusal {n}"));
        let count = sample.count;
        Some(format!("{name}: {count} differences of this kind; the documents ask for {asked}\n{}", shown(&request)))
    });
    listed.collect()
}

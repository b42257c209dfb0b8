//! What the static library promises of a walk's lent slices: lengths are tested before all else, slices may start at
//! any byte, a slice without entries may be null, and nothing beside the table is touched.

use crate::placed::Placed;
use crate::{cases, ours};
use gyroid_cells::raw::{self, LENGTH};
use request::{Answer, Call, Request, Walked, unwritten};
use std::ptr::null_mut;

/// Bytes on either side of what is lent; an odd number, so that no slot is aligned.
pub const MARGIN: usize = 61;
/// The lengths of the description and of the bounds.
const LENGTHS: [[usize; 2]; 9] = [[18, 6], [17, 6], [19, 6], [0, 6], [18, 0], [18, 5], [18, 7], [17, 5], [19, 7]];

/// Lends the first entries of the description and of the bounds, and a table; the status.
pub fn lend(request: &Request, [length, lent]: [usize; 2], table: &mut [u8]) -> u32 {
    let more = |row: &[i64]| row.iter().map(|n| *n as u64).chain([0]).collect::<Vec<_>>();
    let mut d = Placed::new(&more(&request.description), 1);
    let mut bounds = Placed::new(&more(&request.whole), 1);
    let (depth, rule) = (request.depth, request.rule);
    let (at, room) = (if table.is_empty() { null_mut() } else { table.as_mut_ptr() }, table.len());
    // Every pointer is of as many entries as the length beside it says.
    unsafe { raw::gyroid_walk(d.first(length), length, bounds.first(lent), lent, depth, rule, at, room) }
}

/// Bytes amid their margins.
pub fn amid(bytes: &[u8]) -> Vec<u8> {
    let margin = unwritten(MARGIN);
    [&margin, bytes, &margin].concat()
}

/// What these lengths ask for, where `walked` is the answer to the right ones.
fn expected(lengths: [usize; 2], walked: Walked) -> Walked {
    let table = unwritten(walked.table.len());
    match lengths {
        [18, 6] => walked,
        [_, 6] => Walked { status: 1, table },
        _ => Walked { status: LENGTH, table },
    }
}

fn wrong(request: &Request, lengths: [usize; 2], walked: Walked) -> Option<String> {
    let mut around = amid(&unwritten(request.table));
    let status = lend(request, lengths, &mut around[MARGIN..][..request.table]);
    let expected = expected(lengths, walked);
    let left = around == amid(&expected.table);
    (status != expected.status || !left).then(|| {
        let asked = expected.status;
        format!("{request}\n    lengths {lengths:?}: status {status}, not {asked}; the bytes are as asked for: {left}")
    })
}

/// Lends slices of right and wrong lengths for the first cases; how many calls were made, and what was wrong.
pub fn check(seed: u64) -> (u64, Vec<String>) {
    let mut made = 0;
    let mut faults = Vec::new();
    for request in (0..200).map(|index| cases::by_chance(Call::Walk, seed, index)) {
        let Answer::Walked(walked) = ours::answer(&request) else { unreachable!("a walk's answer") };
        for lengths in LENGTHS {
            made += 1;
            faults.extend(wrong(&request, lengths, walked.clone()));
        }
    }
    (made, faults)
}

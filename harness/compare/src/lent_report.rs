//! What the static library promises of a layer report's lent slices: they may start at any byte, one without bytes may be
//! null, the table is only read, and nothing beside the report is touched.

use crate::lent_table::{MARGIN, amid};
use crate::{layer_cases, layer_chances, ours};
use gyroid_cells::raw;
use request::{Answer, LayerRequest, unwritten};
use std::ptr::null_mut;

/// Where a slice starts; null where it is empty.
fn start(slice: &mut [u8]) -> *mut u8 {
    if slice.is_empty() { null_mut() } else { slice.as_mut_ptr() }
}

/// Lends a table and a report; the status. The table could be written too, so that a change of it is seen.
pub fn lend(request: &LayerRequest, table: &mut [u8], report: &mut [u8]) -> u32 {
    let (bytes, room) = (table.len(), report.len());
    // Both slices are alive for the call, and lent to it alone.
    unsafe { raw::gyroid_layers(start(table), bytes, request.low, request.high, start(report), room) }
}

/// Lends both amid margins of an odd number of bytes, and says what is not as in `ours`.
fn wrong(request: &LayerRequest) -> Option<String> {
    let Answer::Reported(ours) = ours::layers(request) else { unreachable!("a layer report") };
    let [mut table, mut report] = [&request.table, &unwritten(request.report)].map(|bytes| amid(bytes));
    let within = |around: &[u8]| MARGIN..around.len() - MARGIN;
    let (inner, room) = (within(&table), within(&report));
    let status = lend(request, &mut table[inner], &mut report[room]);
    let kept = table == amid(&request.table);
    let left = report == amid(&ours.report);
    (status != ours.status || !kept || !left).then(|| {
        let asked = ours.status;
        format!(
            "{request}\n    at odd addresses: status {status}, not {asked}; table kept: {kept}, report alike: {left}"
        )
    })
}

/// Lends slices for the named cases and for the first by chance; how many calls were made, and what was wrong.
pub fn check(seed: u64) -> (u64, Vec<String>) {
    let chances = (0..200).map(|index| layer_chances::by_chance(seed, index));
    let requests: Vec<_> = layer_cases::named().into_iter().chain(chances).collect();
    (requests.len() as u64, requests.iter().filter_map(wrong).collect())
}

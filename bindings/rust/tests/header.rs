//! bindings/gyroid.h says the same as this crate: version, statuses, surfaces, states, pieces, tie rules, refusals.

use gyroid_cells::{Description, LAYER, Piece, Refusal, SLOT, State, Surface, TieRule, graded, raw};
use std::collections::BTreeMap;

const HEADER: &str = include_str!("../../gyroid.h");

/// The constants of the header's enums, by name.
fn constants() -> BTreeMap<&'static str, u32> {
    let pairs = HEADER.split(['{', '}', ',', '\n']).filter_map(|part| part.trim().split_once(" = "));
    pairs.filter_map(|(name, number)| Some((name, number.split(' ').next()?.parse().ok()?))).collect()
}

/// What a macro stands for.
fn macro_text(name: &str) -> &'static str {
    let start = format!("#define {name} ");
    HEADER.lines().find_map(|line| line.strip_prefix(&start)).unwrap_or_else(|| panic!("{name} is missing")).trim()
}

#[test]
fn version() {
    assert_eq!(macro_text("GYROID_VERSION"), format!("\"{}\"", env!("CARGO_PKG_VERSION")));
    let parts = ["MAJOR", "MINOR", "PATCH"].map(|part| macro_text(&format!("GYROID_VERSION_{part}")));
    assert_eq!(parts.join("."), env!("CARGO_PKG_VERSION"));
}

#[test]
fn numbers() {
    let constants = constants();
    let same = |name: &str, number: u32| assert_eq!(constants.get(name), Some(&number), "{name}");
    same("GYROID_FOUND", raw::FOUND);
    same("GYROID_NONE", raw::NONE);
    same("GYROID_LENGTH", raw::LENGTH);
    same("GYROID_SLOT", SLOT as u32);
    same("GYROID_LAYER", LAYER as u32);
    same("GYROID_NETWORK", Surface::Network as u32);
    same("GYROID_PRIMITIVE", Surface::Primitive as u32);
    same("GYROID_START", Piece::Start as u32);
    same("GYROID_RAMP", Piece::Ramp as u32);
    same("GYROID_END", Piece::End as u32);
    same("GYROID_TIES_TO_GRADE_AXIS", TieRule::GradeAxis as u32);
    same("GYROID_TIES_TO_LOWEST_AXIS", TieRule::LowestAxis as u32);
    same("GYROID_INSIDE", State::Inside as u32);
    same("GYROID_OUTSIDE", State::Outside as u32);
    same("GYROID_UNSETTLED", State::Unsettled as u32);
}

/// The kinds that have a name in the header are those that no call refuses by 1, and the sheet is the one refused by 3.
#[test]
fn kinds() {
    let constants = constants();
    let refusal = |kind| graded(&Description { kind, ..Description::constant(10240, 0) }).err().map(Refusal::number);
    let named = ["GYROID_NETWORK", "GYROID_SHEET", "GYROID_PRIMITIVE"].map(|name| constants[name]);
    assert_eq!(named.map(|kind| refusal(kind.into())), [None, Some(constants["GYROID_REFUSED_SHEET"]), None]);
    let others = (-5..9).filter(|kind| named.iter().all(|name| i64::from(*name) != *kind));
    others.for_each(|kind| assert_eq!(refusal(kind), Some(constants["GYROID_REFUSED_ENTRY"]), "{kind}"));
}

/// The status of a walk by this rule, of a box that is not halved.
fn walked(rule: u32) -> u32 {
    let (core, bounds) = (Description::constant(10240, 2048).entries(), [0, 0, 0, 512, 512, 512]);
    let mut table = [0; 2 * SLOT];
    let (at, length) = (table.as_mut_ptr(), table.len());
    // The slices are arrays of their own, alive for the call.
    unsafe { raw::gyroid_walk(core.as_ptr(), core.len(), bounds.as_ptr(), bounds.len(), 0, rule, at, length) }
}

/// The tie rules that have a name in the header are those by which a walk is not refused.
#[test]
fn tie_rules() {
    let constants = constants();
    let named = constants.iter().filter(|(name, _)| name.starts_with("GYROID_TIES_TO_"));
    let mut numbers: Vec<u32> = named.map(|(_, number)| *number).collect();
    numbers.sort();
    let rules: Vec<u32> = (0..9).chain([u32::MAX]).filter(|rule| walked(*rule) == raw::FOUND).collect();
    assert_eq!(numbers, rules);
    assert_eq!(walked(2), constants["GYROID_REFUSED_ENTRY"]);
}

/// Every refusal of the crate has a name in the header, and every name there is one of them.
#[test]
fn refusals() {
    let constants = constants();
    let named = constants.iter().filter(|(name, _)| name.starts_with("GYROID_REFUSED_"));
    let mut numbers: Vec<u32> = named.map(|(_, number)| *number).collect();
    numbers.sort();
    numbers.dedup();
    let refusals: Vec<u32> = (0..200).filter(|number| Refusal::try_from(*number).is_ok()).collect();
    assert_eq!(numbers, refusals);
    assert_eq!(constants["GYROID_REFUSED_SHEET"], 3);
    assert_eq!(constants["GYROID_REFUSED_ROOM"], 13);
    let layers = ["TABLE", "LAYERS", "REPORT"].map(|name| constants[format!("GYROID_REFUSED_{name}").as_str()]);
    assert_eq!(layers, [15, 16, 17]);
}

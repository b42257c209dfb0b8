//! The walk as a service calls it: document 01's listing, the tie rules, and each way that a table is left.

use gyroid_cells::{Bounds, Cell, Description, Head, SLOT, State, Surface, Table, TieRule, raw, walk};

const CUBE: Bounds = Bounds { low: [0; 3], high: [1024; 3] };

fn core() -> Description {
    Description::constant(10240, 2048)
}

fn cell(state: State, depth: u8, low: [i64; 3], high: [i64; 3]) -> Cell {
    Cell { state, depth, bounds: Bounds { low, high } }
}

/// The refusal's number, and the table, of which every byte was 7.
fn refused(core: Description, bounds: Bounds, depth: i64, length: usize) -> (u32, Vec<u8>) {
    let mut bytes = vec![7; length];
    let refusal = walk(&core, bounds, depth, TieRule::default(), &mut bytes).unwrap_err();
    (refusal.number(), bytes)
}

#[test]
fn listing() {
    // One slot and a part of one more than the walk wants.
    let mut bytes = [7; 4 * SLOT + 5];
    let table = walk(&core(), CUBE, 1, TieRule::LowestAxis, &mut bytes).unwrap();
    assert_eq!(table.head(), Head { first: 1, cells: 2, evaluated: 3, solid: 536870912, open: 536870912 });
    let cells = [
        cell(State::Inside, 1, [0, 0, 0], [512, 1024, 1024]),
        cell(State::Unsettled, 1, [512, 0, 0], [1024, 1024, 1024]),
    ];
    assert_eq!(table.cells().collect::<Vec<_>>(), cells);

    // The bytes may be kept, and read again.
    assert_eq!(bytes[28..40], [0, 0, 0, 0, 2, 0, 0, 0, 1, 1, 0, 0]);
    assert!(bytes[3 * SLOT..].iter().all(|byte| *byte == 0));
    assert_eq!(Table::read(&bytes).unwrap().cells().collect::<Vec<_>>(), cells);
}

/// The listing's cube is open all over in the primitive surface of the same period and level.
#[test]
fn the_primitive_surface() {
    let mut bytes = [7; 2 * SLOT];
    let table = walk(&core().with_surface(Surface::Primitive), CUBE, 1, TieRule::default(), &mut bytes).unwrap();
    assert_eq!(table.head(), Head { first: 1, cells: 1, evaluated: 1, solid: 0, open: 1 << 30 });
    assert_eq!(table.cells().collect::<Vec<_>>(), [cell(State::Outside, 0, CUBE.low, CUBE.high)]);
}

/// A core graded along one axis: the level goes from −256 counts to `end`.
fn along(axis: usize, end: i64) -> Description {
    let [mut from, mut to] = [[0; 3]; 2];
    (from[axis], to[axis]) = (-5120, 5120);
    Description::linear(10240, from, to, -256, end)
}

/// The high corners of the cells of a box about the origin, which the surface crosses, in walk order.
fn highs(core: Description, spans: [i64; 3], depth: i64, rule: TieRule) -> Vec<[i64; 3]> {
    let about = Bounds { low: spans.map(|span| -span / 2), high: spans.map(|span| span / 2) };
    let mut bytes = [7; 16 * SLOT];
    let table = walk(&core, about, depth, rule, &mut bytes).unwrap();
    table.cells().map(|cell| cell.bounds.high).collect()
}

/// The high corner of the lower half, where the box is halved once.
fn lower(core: Description, spans: [i64; 3], rule: TieRule) -> [i64; 3] {
    let highs = highs(core, spans, 1, rule);
    assert_eq!(highs.len(), 2);
    highs[0]
}

#[test]
fn a_cube_is_cut_across_its_grade_axis_first() {
    for surface in [Surface::Network, Surface::Primitive] {
        let cut = |axis, rule| lower(along(axis, 256).with_surface(surface), [9216; 3], rule);
        let across = [[0, 4608, 4608], [4608, 0, 4608], [4608, 4608, 0]];
        assert_eq!([0, 1, 2].map(|axis| cut(axis, TieRule::default())), across);
        assert_eq!([0, 1, 2].map(|axis| cut(axis, TieRule::LowestAxis)), [across[0]; 3]);
    }
}

/// Once the grade axis is cut it is shorter than the others, and the lower of those is next.
#[test]
fn the_second_cut_is_across_the_lowest_axis_of_those_left() {
    let first = |rule| highs(along(2, 256), [2048; 3], 2, rule)[0];
    assert_eq!((first(TieRule::GradeAxis), first(TieRule::LowestAxis)), ([0, 1024, 0], [0, 0, 1024]));
}

/// A longer side goes first, a tie of two others goes to the lowest of them, and equal ends are no grade.
#[test]
fn the_grade_axis_decides_ties_alone() {
    let by_default = |core, spans| lower(core, spans, TieRule::default());
    assert_eq!(by_default(along(2, 256), [2048, 2050, 2048]), [1024, 0, 1024]);
    assert_eq!(by_default(along(2, 256), [2048, 2048, 2046]), [0, 1024, 1023]);
    assert_eq!(by_default(along(2, 256), [2046, 2048, 2048]), [1023, 1024, 0]);
    assert_eq!(by_default(along(2, -256), [2048; 3]), [0, 1024, 1024]);
    let unused = Description { level_kind: 0, ..along(2, 256) };
    assert_eq!(by_default(unused, [2048; 3]), [0, 1024, 1024]);
}

/// What the static library answers to a rule by its number, and the table, of which every byte was 7.
fn by_number(core: Description, bounds: [i64; 6], depth: i64, rule: u32) -> (u32, [u8; 96]) {
    let d = core.entries();
    let mut table = [7; 96];
    let (at, length) = (table.as_mut_ptr(), table.len());
    // The slices are arrays of their own, alive for the call.
    let status = unsafe { raw::gyroid_walk(d.as_ptr(), d.len(), bounds.as_ptr(), 6, depth, rule, at, length) };
    (status, table)
}

/// Whatever else is wrong: by a rule, a period of 0 is refused by 2, a flat box by 11, a depth of 25 by 12.
#[test]
fn a_rule_that_is_none_is_refused_by_1() {
    let (cube, flat) = ([0, 0, 0, 1024, 1024, 1024], [0, 0, 0, 1024, 0, 1024]);
    let no_period = Description::constant(0, 0);
    let cases = [(core(), cube, 1, 0), (no_period, cube, 1, 2), (core(), flat, 1, 11), (core(), cube, 25, 12)];
    for (core, bounds, depth, otherwise) in cases {
        for rule in [0, 1] {
            assert_eq!(by_number(core, bounds, depth, rule).0, otherwise);
        }
        for rule in [2, u32::MAX] {
            assert_eq!(by_number(core, bounds, depth, rule), (1, [7; 96]));
        }
    }
}

#[test]
fn a_table_that_fits_and_one_that_is_a_byte_short() {
    assert!(walk(&core(), CUBE, 1, TieRule::default(), &mut [7; 3 * SLOT]).is_ok());
    assert_eq!(refused(core(), CUBE, 1, 3 * SLOT - 1), (13, vec![0; 3 * SLOT - 1]));
    assert_eq!(refused(core(), CUBE, 0, 63), (13, vec![0; 63]));
    assert_eq!(refused(core(), CUBE, 0, 0), (13, vec![]));
}

#[test]
fn other_refusals_leave_the_table() {
    let flat = Bounds { high: [1024, 0, 1024], ..CUBE };
    let far = Bounds { high: [1024, 1024, (1 << 20) + 1], ..CUBE };
    let kept = |number| (number, vec![7; 96]);
    assert_eq!(refused(core(), far, -1, 96), kept(1));
    assert_eq!(refused(Description::constant(0, 0), CUBE, 1, 96), kept(2));
    assert_eq!(refused(Description { kind: 3, ..core() }, flat, -1, 96), kept(1));
    assert_eq!(refused(Description { kind: 1, ..core() }, flat, 1, 96), kept(3));
    assert_eq!(refused(Description::linear(10240, [0; 3], [9, 9, 0], 0, 1), CUBE, 1, 96), kept(4));
    assert_eq!(refused(Description::linear(10240, [0; 3], [9, 0, 0], 0, 1), CUBE, 1, 96), kept(5));
    assert_eq!(refused(core(), flat, -1, 96), kept(11));
    assert_eq!(refused(core(), CUBE, -1, 96), kept(12));
    assert_eq!(refused(core(), CUBE, 25, 0), (12, vec![]));
}

//! The layer report as a service calls it: document 01's listing layer by layer, and each way that a report is left.

use gyroid_cells::{Bounds, Description, LAYER, Layer, Refusal, SLOT, Table, TieRule, layers, walk};

/// The table of document 01's listing: the lower half in x of a cube is inside, and the upper one is unsettled.
fn listing() -> [u8; 3 * SLOT] {
    let (core, cube) = (Description::constant(10240, 2048), Bounds { low: [0; 3], high: [1024; 3] });
    let mut bytes = [7; 3 * SLOT];
    walk(&core, cube, 1, TieRule::default(), &mut bytes).unwrap();
    bytes
}

/// A changed table: a 32-bit number at a place.
fn with(mut bytes: [u8; 3 * SLOT], place: usize, number: i32) -> [u8; 3 * SLOT] {
    bytes[place..][..4].copy_from_slice(&number.to_le_bytes());
    bytes
}

/// The refusal's number; of the report every byte was 7, and stays.
fn refused(table: &[u8], [low, high]: [i64; 2], length: usize) -> u32 {
    let mut report = vec![7; length];
    let number = layers(table, low, high, &mut report).map_err(Refusal::number).unwrap_err();
    assert!(report.iter().all(|byte| *byte == 7));
    number
}

#[test]
fn every_layer_of_the_listing() {
    let bytes = listing();
    let mut report = [7; 1024 * LAYER];
    let found = Table::read(&bytes).unwrap().layers(0, 1024, &mut report).unwrap();
    assert_eq!(found.len(), 1024);
    for (z, layer) in (0..).zip(found) {
        assert_eq!(layer, Layer { z, inside: 512 * 1024, outside: 0, unsettled: 512 * 1024 });
        assert_eq!(layer.area(), 1024 * 1024);
    }
}

#[test]
fn layers_outside_the_cells_are_empty() {
    let areas = |low| {
        let mut report = [7; 4 * LAYER];
        let found = layers(&listing(), low, low + 4, &mut report).unwrap();
        found.map(|layer| (layer.z, layer.area())).collect::<Vec<_>>()
    };
    let full = 1024 * 1024;
    assert_eq!(areas(-2), [(-2, 0), (-1, 0), (0, full), (1, full)]);
    assert_eq!(areas(1022), [(1022, full), (1023, full), (1024, 0), (1025, 0)]);
    assert!(areas(-1 << 20).iter().all(|(_, area)| *area == 0));
}

#[test]
fn later_bytes_stay() {
    let mut report = [7; 2 * LAYER + 5];
    assert_eq!(layers(&listing(), 1023, 1025, &mut report).unwrap().len(), 2);
    assert_eq!(report[..LAYER], [0, 0, 8, 0, 0, 0, 0, 0, 0, 0, 0, 0, 0, 0, 0, 0, 0, 0, 8, 0, 0, 0, 0, 0]);
    assert_eq!(report[LAYER..], [[0; LAYER].as_slice(), &[7; 5]].concat());
}

#[test]
fn tables_that_are_not_sound() {
    let table = listing();
    let unsound = |table: &[u8]| refused(table, [0, 1], LAYER) == 15;
    let last = 2 * SLOT;
    assert!(unsound(&[]) && unsound(&[0; SLOT]) && unsound(&table[..3 * SLOT - 1]));
    // No cell, one more than the chain has, a chain that ends early, one that runs on, one that comes back.
    assert!(unsound(&with(table, 4, 0)) && unsound(&with(table, 4, 3)) && unsound(&with(table, SLOT, 0)));
    assert!(unsound(&with(table, last, 3)) && unsound(&with(table, last, 1)));
    // A state that is none, a depth above 24, a span below 1, a coordinate beyond its limit.
    assert!(unsound(&with(table, last + 4, 4)) && unsound(&with(table, last + 4, 3 + 256 * 25)));
    assert!(unsound(&with(table, last + 20, 512)) && unsound(&with(table, last + 20, (1 << 20) + 1)));
}

/// Slot 0's evaluated and volumes, the two bytes behind the depth, and the order of the slots are not tested.
#[test]
fn tables_that_are_sound_all_the_same() {
    let mut table = listing();
    table[8..SLOT].fill(7);
    table[SLOT + 6..][..2].fill(7);
    let swapped = [&table[..SLOT], &table[2 * SLOT..], &table[SLOT..2 * SLOT]].concat();
    let swapped = with(swapped.try_into().unwrap(), 0, 2);
    for table in [table, with(table, 2 * SLOT + 4, 3 + 256 * 24), with(swapped, 2 * SLOT, 1)] {
        let mut report = [7; LAYER];
        assert_eq!(layers(&table, 0, 1, &mut report).unwrap().next().unwrap().area(), 1024 * 1024);
    }
}

#[test]
fn refusals_in_their_order() {
    let table = listing();
    let limit = 1 << 20;
    for run in [[0, 0], [1, 0], [i64::MAX, i64::MIN], [-limit - 1, 0], [limit, limit + 1], [i64::MIN, i64::MAX]] {
        assert_eq!(refused(&table, run, 0), 16);
        assert_eq!(refused(&[], run, 0), 15);
    }
    assert_eq!(refused(&table, [0, 2], 2 * LAYER - 1), 17);
    assert_eq!(refused(&table, [-limit, limit], 0), 17);
    assert_eq!(refused(&[], [0, 2], 0), 15);
}

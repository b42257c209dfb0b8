//! A caller in another float state gets the answers of the default one and finds its own state again, exception flags
//! and all.

use gyroid_cells::*;
use std::arch::asm;

const DEFAULT: u32 = 0x1F80;
/// Denormals taken for zero; results that are denormal made zero.
const DAZ: u32 = 1 << 6;
const FTZ: u32 = 1 << 15;
/// The exceptions' flags, and their masks.
const FLAGS: u32 = 0x3F;
const MASKS: u32 = 0x1F80;

fn read() -> u32 {
    let mut state = 0_u32;
    unsafe { asm!("stmxcsr [{}]", in(reg) &raw mut state, options(nostack, preserves_flags)) };
    state
}

fn write(state: u32) {
    unsafe { asm!("ldmxcsr [{}]", in(reg) &raw const state, options(nostack)) };
}

/// What work answers in a state, and the state that it leaves. No double is computed here in between.
fn under<T>(state: u32, work: impl FnOnce() -> T) -> (T, u32) {
    let own = read();
    write(state);
    let found = work();
    let left = read();
    write(own);
    (found, left)
}

/// States that a caller may be in: denormals, the three other roundings, flags that stand, exceptions that trap.
fn states() -> Vec<u32> {
    let control = [DAZ, FTZ, DAZ | FTZ, 1 << 13, 1 << 14, 3 << 13, DAZ | FTZ | 3 << 13];
    let mut states: Vec<u32> = control.iter().map(|bits| DEFAULT | bits).collect();
    states.extend([DEFAULT, DEFAULT | FLAGS, DEFAULT ^ MASKS]);
    states
}

/// A ramp and a box on its start plane, where the ends of intervals about 0 are denormals. The box is unsettled; where
/// denormals are taken for zero it is marked outside.
const RAMP: ([i64; 3], [i64; 3]) = ([0; 3], [0, 0, 20480]);
const PART: Bounds = Bounds { low: [1280, 8960, 0], high: [1440, 9280, 320] };

fn ramp() -> Description {
    Description::linear(10240, RAMP.0, RAMP.1, -256, 256)
}

fn world() -> [Interval; 3] {
    [0, 1, 2].map(|i| Interval::new(PART.low[i] as f64 / 1024.0, PART.high[i] as f64 / 1024.0))
}

/// The table of a walk by the library as it is, without a guard.
fn unguarded() -> [u8; 64] {
    let (core, bounds, rule) = (ramp().entries(), [1280, 8960, 0, 1440, 9280, 320], TieRule::default() as u32);
    let mut table = [0; 64];
    let (at, length) = (table.as_mut_ptr(), table.len());
    let status =
        unsafe { raw::gyroid_walk(core.as_ptr(), core.len(), bounds.as_ptr(), bounds.len(), 0, rule, at, length) };
    assert_eq!(status, raw::FOUND);
    table
}

fn guarded(depth: i64) -> Vec<u8> {
    let mut table = vec![7; 2048 * SLOT];
    walk(&ramp(), PART, depth, TieRule::default(), &mut table).unwrap();
    table
}

#[test]
fn the_library_as_it_is_takes_the_state_that_it_finds() {
    let state = |table: &[u8; 64]| State::try_from(u32::from(table[36])).unwrap();
    assert_eq!(state(&unguarded()), State::Unsettled);
    let (table, _) = under(DEFAULT | DAZ, unguarded);
    assert_eq!(state(&table), State::Outside);
}

#[test]
fn walks() {
    for depth in [0, 8] {
        let table = guarded(depth);
        for state in states() {
            let (found, left) = under(state, || guarded(depth));
            assert!(found == table, "depth {depth}, state {state:#x}");
            assert_eq!(left, state);
        }
    }
}

/// In every state a call answers as in the default one, and leaves the state.
fn same<T: PartialEq + std::fmt::Debug>(call: impl Fn() -> Result<T, Refusal>) {
    let answer = call();
    assert!(answer.is_ok());
    for state in states() {
        let (found, left) = under(state, &call);
        assert_eq!((&found, left), (&answer, state));
    }
}

#[test]
fn every_other_call() {
    let (core, world, corner) = (ramp(), world(), world().map(|side| Interval::point(side.lo)));
    let point = corner.map(|side| side.lo);
    same(|| grade_range(&core, PART));
    same(|| level_piece(&core, PART));
    same(|| jet(&core, corner));
    same(|| affine_jet(&core, corner));
    same(|| derivatives(&core, world, Piece::Ramp));
    same(|| residual(&core, world));
    same(|| affine_residual(&core, world));
    same(|| box_state(&core, world));
    same(|| facet_residual(&core, [corner, world, corner]));
    same(|| curvature(&core));
    same(|| lipschitz(&core));
    same(|| saturated(&core));
    same(|| graded(&core));
    same(|| planes(&core));
    same(|| fast_distance(&core, point));
    same(|| fast(&core, point));
}

/// The layer report has no guard, and needs none.
#[test]
fn layer_reports() {
    let table = guarded(8);
    same(|| layers(&table, PART.low[2], PART.high[2], &mut [0; 320 * LAYER]).map(|layers| layers.collect::<Vec<_>>()));
}

#[test]
fn refusals() {
    let walked = || walk(&ramp(), PART, 25, TieRule::default(), &mut []).map(|table| table.len());
    let refused = || walked().map_err(Refusal::number);
    for state in states() {
        assert_eq!(under(state, refused), (Err(12), state));
    }
}

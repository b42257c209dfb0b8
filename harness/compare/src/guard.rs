//! What the guard of the float state costs: a call of the bindings, which sets the default state and restores the
//! caller's, beside the same call of the static library itself.

use crate::entries::PLAIN;
use gyroid_cells::{Description, Interval, box_state, raw};
use std::hint::black_box;
use std::time::{Duration, Instant};

const ROUNDS: usize = 5;
const CALLS: u32 = 100_000;

/// The best time of one call by each way.
pub struct Cost {
    pub guarded: Duration,
    pub plain: Duration,
}

/// A box of half a millimetre each way.
const WORLD: [Interval; 3] = [Interval { lo: 0.0, hi: 0.5 }; 3];

fn guarded() {
    let core = Description::from_entries(black_box(PLAIN));
    let _ = black_box(box_state(&core, black_box(WORLD)));
}

fn plain() {
    let (d, ends) = (black_box(PLAIN), black_box(WORLD).map(|side| [side.lo, side.hi]));
    let (world, mut out) = (ends.as_flattened(), [0]);
    // The slices are alive for the call, and `out` is lent to it alone.
    let status =
        unsafe { raw::gyroid_box_state(d.as_ptr(), d.len(), world.as_ptr(), world.len(), out.as_mut_ptr(), out.len()) };
    black_box((status, out));
}

fn timed(call: fn()) -> Duration {
    let start = Instant::now();
    (0..CALLS).for_each(|_| call());
    start.elapsed() / CALLS
}

/// Makes calls by both ways, in turns.
pub fn cost() -> Cost {
    let mut cost = Cost { guarded: Duration::MAX, plain: Duration::MAX };
    for _ in 0..ROUNDS {
        cost.guarded = timed(guarded).min(cost.guarded);
        cost.plain = timed(plain).min(cost.plain);
    }
    cost
}

//! Numbers that boundaries are made of.

use crate::entries::{COUNTS, RAMP, SATURATED, TICKS};

/// Special doubles: every boundary of the format, of document 01 and of the series, with its neighbours and either sign.
pub fn doubles() -> Vec<f64> {
    let far = (1_u64 << 40) as f64;
    let two_pi = std::f64::consts::TAU;
    let sizes = [
        0.0,
        f64::from_bits(1),
        f64::MIN_POSITIVE.next_down(),
        f64::MIN_POSITIVE,
        1.0 / 1024.0,
        0.5,
        0.8,
        1.0,
        two_pi,
        two_pi.next_up(),
        10.0,
        1024.0,
        far.next_down(),
        far,
        far.next_up(),
        f64::MAX,
        f64::INFINITY,
    ];
    let mut all: Vec<f64> = sizes.iter().flat_map(|v| [*v, -v]).collect();
    all.push(f64::NAN);
    all
}

/// Special whole numbers: every limit of documents 01 and 02, and one more or one less.
pub fn whole() -> Vec<i64> {
    let mut all = vec![0, i64::MIN, i64::MAX];
    let saturated = SATURATED.map(|(_, level)| [level - 1, level]);
    let sizes = [1, 2, 3, RAMP, RAMP + 1, COUNTS, COUNTS + 1, 10240, TICKS - 1, TICKS, TICKS + 1, 1 << 32];
    for size in sizes.iter().chain(saturated.as_flattened()) {
        all.extend([*size, -size]);
    }
    all
}

//! Where a description's entries stand, and the limits of documents 01 and 02.

use request::Description;
use std::ops::RangeInclusive;

pub const PERIOD: usize = 0;
pub const KIND: usize = 1;
pub const LEVEL_KIND: usize = 2;
pub const FROM: usize = 3;
pub const TO: usize = 6;
pub const START: usize = 9;
pub const END: usize = 10;
pub const W: usize = 11;
/// The first of x, y, z of the rotation and of the translation: all are 0 in the part frame.
pub const X: usize = 12;

pub const NETWORK: i64 = 0;
pub const SHEET: i64 = 1;
pub const PRIMITIVE: i64 = 2;
pub const CONSTANT: i64 = 0;
pub const LINEAR: i64 = 1;
pub const DISTANCE: i64 = 2;

/// The tie rules: ties go to the grade axis, which is the default, or to the lowest axis.
pub const GRADE_AXIS: u32 = 0;
pub const LOWEST_AXIS: u32 = 1;

/// Coordinates, period and frame entries are at most this in size.
pub const TICKS: i64 = 1 << 20;
/// Levels, in counts.
pub const COUNTS: i64 = 4096;
/// The ends of a ramp, in counts.
pub const RAMP: i64 = 256;
/// The constant level from which each surface saturates, in counts.
pub const SATURATED: [(i64, i64); 2] = [(NETWORK, 1536), (PRIMITIVE, 3072)];

/// A network of period 10 mm in the part frame, at the constant level 0.
pub const PLAIN: Description = [10240, 0, 0, 0, 0, 0, 0, 0, 0, 0, 0, 1, 0, 0, 0, 0, 0, 0];

/// The same with the primitive surface.
pub fn primitive(mut d: Description) -> Description {
    d[KIND] = PRIMITIVE;
    d
}

/// The limits of an entry.
pub fn limits(entry: usize) -> RangeInclusive<i64> {
    match entry {
        KIND => NETWORK..=PRIMITIVE,
        LEVEL_KIND => CONSTANT..=DISTANCE,
        START | END => -COUNTS..=COUNTS,
        _ => -TICKS..=TICKS,
    }
}

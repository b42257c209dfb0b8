//! The static library's functions as they are. bindings/gyroid.h says what each takes and answers. They compute in the
//! float state that they find: who calls them sees to it that it is the default one, but for [`gyroid_layers`], which
//! computes with whole numbers alone.
//!
//! ```
//! use gyroid_cells::{Description, raw};
//!
//! let core = Description::constant(10240, 2048).entries();
//! let mut graded = [7];
//! // Both slices are arrays of their own, alive for the call.
//! let status = unsafe { raw::gyroid_graded(core.as_ptr(), core.len(), graded.as_mut_ptr(), graded.len()) };
//! assert_eq!((status, graded), (raw::FOUND, [0]));
//! ```
//!
//! # Safety
//!
//! Every pointer must be valid for the number of entries that follows it, for reading, and `out`, which is a walk's
//! table, and `report` for writing; one with the number 0 may be anything. `out` and `report` must not overlap another
//! slice.

/// A call on a description alone.
pub type OnDescription<T> = unsafe extern "C" fn(*const i64, usize, *mut T, usize) -> u32;
/// A call on a description and a slice of `A`: whole ticks, or doubles.
pub type OnSlice<A, T> = unsafe extern "C" fn(*const i64, usize, *const A, usize, *mut T, usize) -> u32;

/// The status of a call that wrote its values.
pub const FOUND: u32 = 0;
/// The status of a call that found nothing.
pub const NONE: u32 = 100;
/// The status of a call that was lent a slice of the wrong length.
pub const LENGTH: u32 = 101;

macro_rules! calls {
    ($($name:ident($($argument:ident: $kind:ty),*) -> $out:ty;)*) => {
        unsafe extern "C" {
            $(
                #[doc = concat!("`", stringify!($name), "` of bindings/gyroid.h.")]
                pub fn $name(
                    description: *const i64,
                    description_length: usize,
                    $($argument: $kind,)*
                    out: *mut $out,
                    out_length: usize,
                ) -> u32;
            )*
        }
    };
}

calls! {
    gyroid_grade_range(bounds: *const i64, bounds_length: usize) -> i64;
    gyroid_level_piece(bounds: *const i64, bounds_length: usize) -> i64;
    gyroid_jet(world: *const f64, world_length: usize) -> f64;
    gyroid_affine_jet(world: *const f64, world_length: usize) -> f64;
    gyroid_derivatives(world: *const f64, world_length: usize, piece: u32) -> f64;
    gyroid_residual(world: *const f64, world_length: usize) -> f64;
    gyroid_affine_residual(world: *const f64, world_length: usize) -> f64;
    gyroid_box_state(world: *const f64, world_length: usize) -> i64;
    gyroid_facet_residual(corners: *const f64, corners_length: usize) -> f64;
    gyroid_curvature() -> f64;
    gyroid_lipschitz() -> f64;
    gyroid_saturated() -> i64;
    gyroid_graded() -> i64;
    gyroid_planes() -> i64;
    gyroid_fast_distance(point: *const f64, point_length: usize) -> f64;
    gyroid_fast(point: *const f64, point_length: usize) -> f64;
    gyroid_walk(bounds: *const i64, bounds_length: usize, depth: i64, rule: u32) -> u8;
}

unsafe extern "C" {
    /// `gyroid_layers` of bindings/gyroid.h. It takes no description.
    pub fn gyroid_layers(
        table: *const u8,
        table_length: usize,
        low: i64,
        high: i64,
        report: *mut u8,
        report_length: usize,
    ) -> u32;
}

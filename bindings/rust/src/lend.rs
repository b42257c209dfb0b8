//! Lends slices to the static library, in the default float state where it computes with doubles, and reads its status.
//! All that is unsafe in this crate stands here and in float_state.rs.

use crate::float_state::in_default;
use crate::raw::{self, FOUND, NONE, OnDescription, OnSlice};
use crate::{Description, Refusal};

/// The values of a call, or none.
pub(crate) type Answer<T, const N: usize> = Result<Option<[T; N]>, Refusal>;

/// Whether a call found its values.
fn found(status: u32) -> Result<bool, Refusal> {
    match status {
        FOUND => Ok(true),
        NONE => Ok(false),
        _ => Err(Refusal::try_from(status)
            .unwrap_or_else(|_| panic!("status {status}, which no call answers to slices of the right lengths"))),
    }
}

fn read<T, const N: usize>(status: u32, out: [T; N]) -> Answer<T, N> {
    Ok(found(status)?.then_some(out))
}

/// What a call that never finds nothing answers.
pub(crate) fn always<T, const N: usize>(answer: Answer<T, N>) -> Result<[T; N], Refusal> {
    answer.map(|found| found.expect("this call always finds its values"))
}

pub(crate) fn on_description<T: Copy + Default, const N: usize>(
    call: OnDescription<T>,
    description: &Description,
) -> Answer<T, N> {
    let d = description.entries();
    let mut out = [T::default(); N];
    // Both slices are arrays of their own, alive for the call.
    let status = in_default(|| unsafe { call(d.as_ptr(), d.len(), out.as_mut_ptr(), N) });
    read(status, out)
}

pub(crate) fn on_slice<A, T: Copy + Default, const N: usize>(
    call: OnSlice<A, T>,
    description: &Description,
    lent: &[A],
) -> Answer<T, N> {
    let d = description.entries();
    let mut out = [T::default(); N];
    // The slices are alive for the call, and `out` is an array of its own.
    let status = in_default(|| unsafe { call(d.as_ptr(), d.len(), lent.as_ptr(), lent.len(), out.as_mut_ptr(), N) });
    read(status, out)
}

pub(crate) fn derivatives(description: &Description, world: &[f64; 6], piece: u32) -> Answer<f64, 24> {
    let d = description.entries();
    let mut out = [0.0; 24];
    // As above.
    let status = in_default(|| unsafe {
        raw::gyroid_derivatives(d.as_ptr(), d.len(), world.as_ptr(), world.len(), piece, out.as_mut_ptr(), out.len())
    });
    read(status, out)
}

pub(crate) fn walk(
    description: &Description,
    bounds: &[i64; 6],
    depth: i64,
    rule: u32,
    table: &mut [u8],
) -> Result<(), Refusal> {
    let d = description.entries();
    let length = table.len();
    // As above; the table is the caller's, and lent to this call alone.
    let status = in_default(|| unsafe {
        raw::gyroid_walk(d.as_ptr(), d.len(), bounds.as_ptr(), bounds.len(), depth, rule, table.as_mut_ptr(), length)
    });
    assert!(found(status)?, "a walk always finds its cells");
    Ok(())
}

/// The report computes with whole numbers alone, which the float state does not change, so it is made in the caller's.
pub(crate) fn layers(table: &[u8], low: i64, high: i64, report: &mut [u8]) -> Result<(), Refusal> {
    let length = report.len();
    // Both slices are the caller's, alive for the call, and the report is lent to it alone.
    let status = unsafe { raw::gyroid_layers(table.as_ptr(), table.len(), low, high, report.as_mut_ptr(), length) };
    assert!(found(status)?, "a layer report always finds its areas");
    Ok(())
}

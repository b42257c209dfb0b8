//! Writes the bytes of the table of one walk whose mark hangs on denormals, for bindings/float_state/check: `plain`, by
//! the library as it is, or `guarded`, by this crate's call.

use gyroid_cells::{Bounds, Description, Refusal, SLOT, TieRule, raw, walk};
use std::error::Error;
use std::io::{self, Write};

type Table = [u8; 4 * SLOT];

/// As the program `cells` walks.
const RULE: TieRule = TieRule::LowestAxis;

fn core() -> Description {
    Description::linear(10240, [0; 3], [0, 0, 20480], -256, 256)
}

fn plain(table: &mut Table) -> u32 {
    let (d, bounds) = (core().entries(), [1280, 8960, 0, 1440, 9280, 320]);
    let (at, length) = (table.as_mut_ptr(), table.len());
    // The slices are arrays of their own, alive for the call.
    unsafe { raw::gyroid_walk(d.as_ptr(), d.len(), bounds.as_ptr(), bounds.len(), 0, RULE as u32, at, length) }
}

fn guarded(table: &mut Table) -> u32 {
    let part = Bounds { low: [1280, 8960, 0], high: [1440, 9280, 320] };
    walk(&core(), part, 0, RULE, table).err().map_or(raw::FOUND, Refusal::number)
}

fn main() -> Result<(), Box<dyn Error>> {
    let mut table = [0; 4 * SLOT];
    let status = match std::env::args().nth(1).as_deref() {
        Some("plain") => plain(&mut table),
        Some("guarded") => guarded(&mut table),
        _ => return Err("float_state plain|guarded".into()),
    };
    if status != raw::FOUND {
        return Err(format!("status {status}").into());
    }
    io::stdout().write_all(&table)?;
    Ok(())
}

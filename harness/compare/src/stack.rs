//! The stack that a walk of depth 24 takes, measured: a process of its own uses up some of its stack and then walks; a crash says
//! that too little was left. No function of the library has a frame as large as the guard page below a stack, so none steps over it.

use crate::entries::*;
use crate::race;
use request::{Call, Request, unwritten};
use std::env;
use std::hint::black_box;
use std::process::{Command, Stdio};
use std::thread;

/// The argument by which a program that measures calls itself.
pub const FLAG: &str = "--stack";
/// The stack of the thread that walks: far more than enough.
const STACK: usize = 1 << 20;
/// The measure's grain, in bytes.
const GRAIN: usize = 64;

/// A box of 2^24 tick cubes about the surface, across an anchor plane of a ramp: it has cells of depth 24, and few cells.
fn deepest() -> Request {
    let mut request = Request::new(Call::Walk, PLAIN);
    let d = &mut request.description;
    (d[PERIOD], d[LEVEL_KIND], d[TO], d[END]) = (TICKS, LINEAR, 10240, RAMP);
    request.whole = [-1 << 17, -4, -4, 1 << 17, 4, 4];
    request.depth = 24;
    request.table = 1 << 20;
    request
}

/// Whether the walk does what it is meant to: a cell of one tick cube is 24 halvings deep.
fn reaches(request: &Request) -> bool {
    let mut table = unwritten(request.table);
    let status = race::ours(request, &mut table);
    let cube = |cell: gyroid_cells::Cell| (0..3).all(|i| cell.bounds.high[i] - cell.bounds.low[i] == 1);
    let found = gyroid_cells::Table::read(&table).is_some_and(|table| table.cells().any(cube));
    status == 0 && found
}

/// Works with this many bytes of the stack used up below `top`.
#[inline(never)]
fn below(top: usize, bytes: usize, work: &mut dyn FnMut()) {
    let here = [0_u8; GRAIN / 4];
    let used = top - black_box(&here).as_ptr().addr();
    if used < bytes {
        below(top, bytes, work);
    } else {
        work();
    }
    black_box(&here);
}

/// What the process of its own does: uses up so many bytes, then walks, or does nothing.
pub fn child(walks: bool, bytes: usize) {
    let request = deepest();
    // Lent from another thread's memory, before there is a stack below which it could lie.
    let mut table = unwritten(request.table);
    let mut work = move || {
        if walks {
            black_box(race::ours(&request, &mut table));
        }
    };
    let run = move || {
        let top = [0_u8; 1];
        below(black_box(&top).as_ptr().addr(), bytes, &mut work);
    };
    let thread = thread::Builder::new().stack_size(STACK).spawn(run);
    thread.expect("a thread can be made").join().expect("a walk does not panic");
}

/// Whether a process of its own ends well with so many bytes used up.
fn survives(walks: bool, bytes: usize) -> Result<bool, String> {
    let program = env::current_exe().map_err(|why| why.to_string())?;
    let arguments = [FLAG.into(), u8::from(walks).to_string(), bytes.to_string()];
    let status = Command::new(program).args(arguments).stderr(Stdio::null()).status();
    status.map(|status| status.success()).map_err(|why| why.to_string())
}

/// The most bytes that can be used up, to the grain.
fn most(walks: bool) -> Result<usize, String> {
    let (mut fits, mut breaks) = (0, STACK);
    if !survives(walks, fits)? || survives(walks, breaks)? {
        return Err("no size of the stack tells".into());
    }
    while breaks - fits > GRAIN {
        let middle = fits.midpoint(breaks);
        if survives(walks, middle)? {
            fits = middle;
        } else {
            breaks = middle;
        }
    }
    Ok(fits)
}

/// The bytes of stack that a walk of depth 24 takes.
pub fn measure() -> Result<usize, String> {
    if !reaches(&deepest()) {
        return Err("the walk does not come to depth 24".into());
    }
    Ok(most(false)? - most(true)?)
}

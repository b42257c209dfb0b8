//! The float state of a call. The proofs speak of IEEE 754 as a processor starts: round to nearest, denormals kept.
//! Another library of the process may have set it otherwise, so each call that computes with doubles sets that state and
//! leaves the caller's as it was.

use core::arch::asm;

#[cfg(not(target_arch = "x86_64"))]
compile_error!("gyroid_cells links a static library for x86-64, and knows the float state of x86-64 alone");

/// MXCSR as a processor starts: round to nearest, denormals kept, every exception masked and none flagged.
const DEFAULT: u32 = 0x1F80;
/// Its flags of past exceptions, on which no result depends.
const FLAGS: u32 = 0x3F;

fn read() -> u32 {
    let mut state = 0_u32;
    // Stores MXCSR in a number of its own.
    unsafe { asm!("stmxcsr [{}]", in(reg) &raw mut state, options(nostack, preserves_flags)) };
    state
}

fn write(state: u32) {
    // `state` is the default or was read from MXCSR, so it has none of the bits that the instruction does not take.
    // Only a call of the library, which computes with doubles in its own code, stands between two of these.
    unsafe { asm!("ldmxcsr [{}]", in(reg) &raw const state, options(nostack)) };
}

/// The caller's state, its exception flags among it; dropped, it is the thread's again.
struct Caller(u32);

impl Caller {
    /// Keeps the state that is found and sets the default one.
    fn set_aside() -> Self {
        let caller = Self(read());
        // A write takes longer than a test.
        if caller.0 & !FLAGS != DEFAULT {
            write(DEFAULT);
        }
        caller
    }
}

impl Drop for Caller {
    fn drop(&mut self) {
        if read() != self.0 {
            write(self.0);
        }
    }
}

/// Makes a call in the default state.
pub(crate) fn in_default<T>(call: impl FnOnce() -> T) -> T {
    let _caller = Caller::set_aside();
    call()
}

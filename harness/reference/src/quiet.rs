//! Catches a panic of the original without a word on standard error; every other panic is as loud as before.

use std::cell::Cell;
use std::panic::{self, AssertUnwindSafe};
use std::sync::Once;
use std::thread;

thread_local! {
    static QUIET: Cell<bool> = const { Cell::new(false) };
}

fn hook() {
    let loud = panic::take_hook();
    panic::set_hook(Box::new(move |info| {
        if !QUIET.get() {
            loud(info);
        }
    }));
}

pub fn caught<T>(ask: impl FnOnce() -> T) -> thread::Result<T> {
    static HOOK: Once = Once::new();
    HOOK.call_once(hook);
    QUIET.set(true);
    // A request is read only, so nothing half done is seen after a panic.
    let answer = panic::catch_unwind(AssertUnwindSafe(ask));
    QUIET.set(false);
    answer
}

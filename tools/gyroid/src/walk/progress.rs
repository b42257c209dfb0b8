//! How far a walk is, on a terminal: the share of the volume that is walked, the cells so far and the time left. Where
//! standard error is no terminal, silence.

use super::join::WalkedPart;
use crate::lengths::grouped;
use std::io::{self, IsTerminal, Write};
use std::time::{Duration, Instant};

pub struct Progress {
    shown: bool,
    start: Instant,
    last: Instant,
    walked: u64,
    volume: u64,
    cells: usize,
    printed: bool,
}

/// A short walk needs no word.
const FIRST: Duration = Duration::from_millis(500);
const BETWEEN: Duration = Duration::from_millis(100);

/// Shown where standard error is a terminal.
pub fn shown() -> Progress {
    Progress::new(io::stderr().is_terminal())
}

impl Progress {
    pub fn new(shown: bool) -> Self {
        let now = Instant::now();
        Self { shown, start: now, last: now + FIRST - BETWEEN, walked: 0, volume: 0, cells: 0, printed: false }
    }

    /// So many tick cubes are to be walked.
    pub fn start(&mut self, volume: u64) {
        self.volume = volume;
    }

    pub fn more(&mut self, part: &WalkedPart) {
        self.walked += part.volume();
        self.cells += part.cells();
        let now = Instant::now();
        if self.shown && now > self.last + BETWEEN {
            self.last = now;
            self.printed = true;
            eprint!("\r\x1b[K{}", said(self.walked, self.volume, self.cells, self.start.elapsed()));
            // Nothing depends on it.
            let _ = io::stderr().flush();
        }
    }

    /// Clears the line.
    pub fn end(&mut self) {
        if self.printed {
            eprint!("\r\x1b[K");
        }
    }
}

/// `walked 43 %, 123,456 cells, 12 s left`.
fn said(walked: u64, volume: u64, cells: usize, took: Duration) -> String {
    let share = walked as f64 / volume.max(1) as f64;
    let left = took.as_secs_f64() * (1.0 - share) / share.max(1e-9);
    format!("walked {:.0} %, {} cells, {:.0} s left", 100.0 * share, grouped(cells as u64), left.ceil())
}

#[cfg(test)]
mod tests {
    use super::*;

    #[test]
    fn share_cells_and_time_left() {
        assert_eq!(said(1, 4, 123_456, Duration::from_secs(10)), "walked 25 %, 123,456 cells, 30 s left");
        assert_eq!(said(4, 4, 7, Duration::from_secs(10)), "walked 100 %, 7 cells, 0 s left");
    }
}

//! A file that is written, and the number of its bytes.

use crate::output;
use crate::trouble::Trouble;
use std::io::{self, Write};
use std::path::Path;

struct Measured<'a> {
    to: &'a mut dyn Write,
    bytes: u64,
}

impl Write for Measured<'_> {
    fn write(&mut self, bytes: &[u8]) -> io::Result<usize> {
        let count = self.to.write(bytes)?;
        self.bytes += count as u64;
        Ok(count)
    }

    fn flush(&mut self) -> io::Result<()> {
        self.to.flush()
    }
}

/// Writes a file by `fill` and answers how many bytes it has.
pub fn write(file: &Path, fill: impl FnOnce(&mut dyn Write) -> io::Result<()>) -> Result<u64, Trouble> {
    let mut bytes = 0;
    output::write(file, |to| {
        let mut measured = Measured { to, bytes: 0 };
        fill(&mut measured)?;
        bytes = measured.bytes;
        Ok(())
    })?;
    Ok(bytes)
}

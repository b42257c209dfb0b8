//! Files that a command writes. One stands under its name only when it is whole: it is written beside it, under another
//! name, and then renamed.

use crate::trouble::Trouble;
use std::fs::{self, File};
use std::io::{self, BufWriter, Write};
use std::path::{Path, PathBuf};
use std::process;

/// Writes a file by `fill`. A device or a pipe, which is no file to be renamed, is written as it is.
pub fn write(path: &Path, fill: impl FnOnce(&mut dyn Write) -> io::Result<()>) -> Result<(), Trouble> {
    written(path, fill).map_err(|error| Trouble::file("write", path, error))
}

fn written(path: &Path, fill: impl FnOnce(&mut dyn Write) -> io::Result<()>) -> io::Result<()> {
    // A link's own file is replaced, and not the link.
    let real = fs::canonicalize(path).unwrap_or_else(|_| path.into());
    match fs::metadata(&real) {
        Ok(there) if there.is_dir() => return Err(io::Error::other("it is a directory")),
        Ok(there) if !there.is_file() => return filled(File::create(&real)?, fill).map(drop),
        _ => {}
    }
    let beside = beside(&real)?;
    let whole = File::create(&beside).and_then(|file| filled(file, fill)).and_then(|file| file.sync_all());
    let named = whole.and_then(|()| fs::rename(&beside, &real));
    if named.is_err() {
        // It may not be there; what matters is told already.
        let _ = fs::remove_file(&beside);
    }
    named
}

fn filled(file: File, fill: impl FnOnce(&mut dyn Write) -> io::Result<()>) -> io::Result<File> {
    let mut buffered = BufWriter::with_capacity(1 << 16, file);
    fill(&mut buffered)?;
    buffered.into_inner().map_err(io::IntoInnerError::into_error)
}

/// The name under which a file is written until it is whole: hidden, of this process alone, in the same directory.
fn beside(path: &Path) -> io::Result<PathBuf> {
    let name = path.file_name().ok_or_else(|| io::Error::other("it names no file"))?;
    Ok(path.with_file_name(format!(".{}.{}.unfinished", name.to_string_lossy(), process::id())))
}

//! Finds the static library and links it. It stands in target/staticlib of the project, or in the directory that
//! GYROID_ARCHIVE_DIR names. An archive that is there is used as it is; the project's own is made where it is missing.

use std::os::unix::process::parent_id;
use std::path::{Path, PathBuf};
use std::process::Command;
use std::time::SystemTime;
use std::{env, fs};

const ARCHIVE: &str = "libcapi.a";

/// Has the project's own script prove the library and make the archive; the error says what to do.
fn make(root: &Path) -> Result<(), String> {
    let status = Command::new(root.join(".ci/build")).arg("capi").current_dir(root).status();
    let why = match status {
        Ok(status) if status.success() => return Ok(()),
        Ok(status) => format!("failed: {status}"),
        Err(error) => format!("cannot run: {error}"),
    };
    Err(format!(
        "{ARCHIVE} is missing, and `.ci/build capi`, which makes it, {why}. \
         Put rt on the path, or name the archive's directory by GYROID_ARCHIVE_DIR"
    ))
}

/// When a file of a directory was last changed.
fn newest(directory: &Path) -> Option<SystemTime> {
    let entries = fs::read_dir(directory).ok()?.flatten();
    let times = entries.filter_map(|entry| {
        let path = entry.path();
        if path.is_dir() { newest(&path) } else { path.metadata().ok()?.modified().ok() }
    });
    times.max()
}

/// Says so where a source is newer than the archive: nothing is proved again unasked.
fn warn_of_newer_sources(root: &Path, archive: &Path) {
    let crates = root.join("crates");
    println!("cargo::rerun-if-changed={}", crates.display());
    let names = fs::read_dir(crates).into_iter().flatten().flatten();
    let changed = names.filter_map(|name| newest(&name.path().join("src"))).max();
    let made = archive.metadata().and_then(|archive| archive.modified()).ok();
    if changed > made {
        println!("cargo::warning={ARCHIVE} is older than the sources: `.ci/build capi` makes it anew");
    }
}

/// The directory that GYROID_ARCHIVE_DIR names. A relative one is read from where cargo was started, which is the
/// working directory of cargo, this program's parent; this program itself runs in the package's directory.
fn named(directory: PathBuf) -> Result<PathBuf, String> {
    if directory.is_absolute() {
        return Ok(directory);
    }
    // Asked again from another place, the same name is another directory.
    println!("cargo::rerun-if-env-changed=PWD");
    match fs::read_link(format!("/proc/{}/cwd", parent_id())) {
        Ok(started) => Ok(started.join(directory)),
        Err(error) => Err(format!(
            "GYROID_ARCHIVE_DIR is the relative {}, and it cannot be told where cargo was started: {error}. \
             Name the directory from the root",
            directory.display()
        )),
    }
}

fn directory() -> Result<PathBuf, String> {
    if let Some(directory) = env::var_os("GYROID_ARCHIVE_DIR") {
        return named(directory.into());
    }
    let root = Path::new(env!("CARGO_MANIFEST_DIR")).join("../..");
    let directory = root.join("target/staticlib");
    if !directory.join(ARCHIVE).is_file() {
        make(&root)?;
    }
    warn_of_newer_sources(&root, &directory.join(ARCHIVE));
    Ok(directory)
}

fn main() {
    println!("cargo::rerun-if-env-changed=GYROID_ARCHIVE_DIR");
    let found = directory().and_then(|directory| {
        let archive = directory.join(ARCHIVE);
        if archive.is_file() { Ok((directory, archive)) } else { Err(format!("{} is missing", archive.display())) }
    });
    match found {
        Ok((directory, archive)) => {
            println!("cargo::rerun-if-changed={}", archive.display());
            println!("cargo::rustc-link-search=native={}", directory.display());
            println!("cargo::rustc-link-lib=static=capi");
            // For a package that links more from there.
            println!("cargo::metadata=directory={}", directory.display());
        }
        Err(why) => println!("cargo::error={why}"),
    }
}

//! A relative GYROID_ARCHIVE_DIR is read from where cargo was started, whatever PWD says and wherever the package lies.

use std::fs;
use std::path::{Path, PathBuf};
use std::process::{Command, Output};

/// An archive without members: enough to build the crate, not to link it.
const EMPTY: &[u8] = b"!<arch>\n";

/// A directory of this test's own, without anything in it.
fn fresh(name: &str) -> PathBuf {
    let directory = Path::new(env!("CARGO_TARGET_TMPDIR")).join(name);
    let _ = fs::remove_dir_all(&directory);
    fs::create_dir_all(&directory).unwrap();
    directory
}

/// Builds the crate from a place, with this archive directory.
fn build(from: &Path, archive_dir: &str) -> Output {
    let manifest = Path::new(env!("CARGO_MANIFEST_DIR")).join("Cargo.toml");
    let mut cargo = Command::new(env!("CARGO"));
    cargo.args(["build", "--offline", "--lib", "--manifest-path"]).arg(manifest).arg("--target-dir").arg("built");
    cargo.current_dir(from).env("GYROID_ARCHIVE_DIR", archive_dir).env("PWD", "/");
    cargo.output().unwrap()
}

#[test]
fn found_from_where_cargo_was_started() {
    let here = fresh("found");
    fs::create_dir(here.join("kept")).unwrap();
    fs::write(here.join("kept/libcapi.a"), EMPTY).unwrap();
    let built = build(&here, "kept");
    assert!(built.status.success(), "{}", String::from_utf8_lossy(&built.stderr));
}

#[test]
fn missing_is_said_by_its_whole_path() {
    let here = fresh("missing");
    let built = build(&here, "nowhere");
    assert!(!built.status.success());
    let wanted = fs::canonicalize(&here).unwrap().join("nowhere/libcapi.a is missing");
    let said = String::from_utf8_lossy(&built.stderr).into_owned();
    assert!(said.contains(wanted.to_str().unwrap()), "{said}");
}

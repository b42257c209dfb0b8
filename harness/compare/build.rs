//! Links libtwice.a, the walk in two passes that `bench` measures. It stands beside libcapi.a, where the bindings say; the
//! project's own is made where it is missing.

use std::env;
use std::path::{Path, PathBuf};
use std::process::Command;

/// Has the project's own script prove and make it. What comes of it is seen by the archive.
fn make() {
    let root = Path::new(env!("CARGO_MANIFEST_DIR")).join("../..");
    let _ = Command::new(root.join(".ci/build")).arg("twice").current_dir(root).status();
}

fn main() {
    let directory = PathBuf::from(env::var_os("DEP_CAPI_DIRECTORY").expect("the bindings say where libcapi.a stands"));
    let archive = directory.join("libtwice.a");
    if !archive.is_file() && env::var_os("GYROID_ARCHIVE_DIR").is_none() {
        make();
    }
    if !archive.is_file() {
        println!("cargo::error={} is missing: `.ci/build twice` makes it", archive.display());
    }
    println!("cargo::rerun-if-changed={}", archive.display());
    println!("cargo::rustc-link-search=native={}", directory.display());
    println!("cargo::rustc-link-lib=static=twice");
}

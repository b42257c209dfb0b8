//! Fetches the original's two files and sets the cfg `original` where both are at hand. Their text is not changed but for the
//! comment at the head, which `include!` accepts only as a plain one.

use std::path::{Path, PathBuf};
use std::{env, fs};

const FILES: [&str; 2] = ["gyroid", "grade"];

/// The directory of the original's documents: ../shared/docs/src, seen from the project's root, or what GYROID_ORIGINAL names.
fn documents() -> PathBuf {
    let named = env::var_os("GYROID_ORIGINAL").unwrap_or("../shared/docs/src".into());
    Path::new(env!("CARGO_MANIFEST_DIR")).join("../..").join(named)
}

fn plain_head(text: &str) -> String {
    let head = text.lines().take_while(|line| line.starts_with("//!")).count();
    let lines = text.lines().enumerate();
    lines.map(|(i, line)| if i < head { line.replacen("//!", "//", 1) } else { line.into() } + "\n").collect()
}

/// Copies one file to where the crate includes it from; false where it is not at hand.
fn fetch(file: &str) -> bool {
    let from = documents().join(format!("crates/catallax-field/src/{file}.rs.txt"));
    println!("cargo::rerun-if-changed={}", from.display());
    let Ok(text) = fs::read_to_string(from) else {
        return false;
    };
    let out = PathBuf::from(env::var_os("OUT_DIR").expect("cargo sets OUT_DIR"));
    fs::write(out.join(format!("{file}.rs")), plain_head(&text)).expect("OUT_DIR is writable");
    true
}

fn main() {
    println!("cargo::rerun-if-env-changed=GYROID_ORIGINAL");
    println!("cargo::rustc-check-cfg=cfg(original)");
    // Both are asked, so that both are watched.
    if FILES.map(fetch) == [true; 2] {
        println!("cargo::rustc-cfg=original");
    }
}

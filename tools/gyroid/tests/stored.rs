//! Pictures, reports and exports are those that are stored, byte for byte. Made anew, where a change means to change
//! them, by the commands of `STORED`, below the project's root and in the names that stand there.

mod support;

use std::fs;
use std::path::Path;
use support::Scratch;

/// A file of the project, and the words that make it from a table.
const STORED: [(&str, &str, &str); 6] = [
    ("docs/cut.png", "core.table", "cut core.table --z 10.0 -o FILE"),
    ("tools/gyroid/tests/stored/cut.svg", "small.table", "cut small.table --y 2.5 --colour depth -o FILE"),
    ("tools/gyroid/tests/stored/layers.csv", "small.table", "layers small.table --from 1.0 --to 1.0625 -o FILE"),
    ("tools/gyroid/tests/stored/layers.svg", "small.table", "layers small.table --plot FILE"),
    ("tools/gyroid/tests/stored/small.vtk", "small.table", "export small.table -o FILE"),
    ("tools/gyroid/tests/stored/small.stl", "small.table", "export small.table -o FILE"),
];

/// Each table by the words that walk it; `PART` is docs/core.part.
const TABLES: [(&str, &[&str]); 2] = [
    ("core.table", &["walk", "--part", "PART", "-o", "core.table"]),
    ("small.table", &["walk", "--part", "PART", "--box", "0 0 0 to 5 5 5 mm", "--depth", "7", "-o", "small.table"]),
];

#[test]
fn pictures_reports_and_exports_are_those_that_are_stored() {
    let scratch = Scratch::new("stored");
    let root = Path::new(env!("CARGO_MANIFEST_DIR")).join("../..");
    let part = root.join("docs/core.part").into_os_string().into_string().unwrap();
    for (_, words) in TABLES {
        scratch.run(&words.iter().map(|word| if *word == "PART" { &part } else { *word }).collect::<Vec<_>>()).done();
    }
    for (stored, _, words) in STORED {
        let name = Path::new(stored).file_name().unwrap().to_str().unwrap();
        scratch.run(&words.split(' ').map(|word| if word == "FILE" { name } else { word }).collect::<Vec<_>>()).done();
        let made = fs::read(scratch.path(name)).unwrap();
        assert!(
            made == fs::read(root.join(stored)).unwrap(),
            "{stored} is another than the one made by gyroid {words}"
        );
    }
}

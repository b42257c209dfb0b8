//! `gyroid export`: each form of file, and each sentence that says why there is none.

mod support;

use std::fs;
use support::Scratch;

/// Document 01's listing: an inside cell and an unsettled one, half a cubic millimetre each.
const LISTING: &str = "10240 0 0 0 0 0 0 0 2048 0 0 0 0 1024 1024 1024 1";

/// A directory with the listing's table.
fn listing(name: &str) -> Scratch {
    let scratch = Scratch::new(name);
    scratch.run(&["walk", "--line", LISTING, "-o", "core.table"]).done();
    scratch
}

/// Writes a table of slots, a head first.
fn table(scratch: &Scratch, slots: &[[i32; 8]]) {
    scratch.write("core.table", slots.as_flattened().iter().flat_map(|n| n.to_le_bytes()).collect::<Vec<u8>>());
}

fn export(scratch: &Scratch, words: &[&str]) -> support::Ran {
    scratch.run(&[&["export", "core.table"], words].concat())
}

#[test]
fn vtk() {
    let scratch = listing("export-vtk");
    assert_eq!(export(&scratch, &["-o", "core.vtk"]).done(), "core.vtk: 2 cells, 1.000 mm³ in all, 476 bytes\n");
    let bytes = fs::read(scratch.path("core.vtk")).unwrap();
    assert_eq!(bytes.len(), 476);
    assert!(bytes.starts_with(b"# vtk DataFile Version 3.0\n"));
    let only = export(&scratch, &["-o", "one.vtk", "--only", "unsettled"]).done();
    assert_eq!(only, "one.vtk: 1 cell, 0.500 mm³ unsettled, 384 bytes\n");
}

#[test]
fn stl() {
    let scratch = listing("export-stl");
    let said = export(&scratch, &["-o", "core.stl"]).done();
    assert_eq!(said, "core.stl: 12 triangles, 0.500 mm³ inside, 684 bytes\n");
    assert_eq!(fs::read(scratch.path("core.stl")).unwrap().len(), 84 + 12 * 50);
    let may = export(&scratch, &["-o", "may.STL", "--only=inside+unsettled"]).done();
    assert_eq!(may, "may.STL: 20 triangles, 1.000 mm³ inside or unsettled, 1,084 bytes\n");
}

#[test]
fn obj() {
    let scratch = listing("export-obj");
    let said = export(&scratch, &["-o", "core.obj", "--only", "unsettled"]).done();
    assert_eq!(said, "core.obj: 12 triangles, 0.500 mm³ unsettled, 209 bytes\n");
    let text = fs::read_to_string(scratch.path("core.obj")).unwrap();
    let points: Vec<&str> = text.lines().filter(|line| line.starts_with("v ")).collect();
    assert_eq!((points[0], points[7], points.len()), ("v 0.5 0 0", "v 1 1 1", 8));
    assert_eq!((text.lines().filter(|line| line.starts_with("f ")).count(), text.len()), (12, 209));
}

/// The chain goes from slot 2 to slot 1.
#[test]
fn csv() {
    let scratch = Scratch::new("export-csv");
    table(&scratch, &[[2, 2, 3, 0, 0, 0, 0, 0], [0, 2 + 256 * 24, -4, 0, 1, -2, 3, 7], [1, 3, 0, 0, 0, 1, 1, 1]]);
    let head = "slot,state,depth,low_x,low_y,low_z,high_x,high_y,high_z\n";
    assert_eq!(export(&scratch, &["-o", "core.csv"]).done(), "core.csv: 2 cells, 0.000 mm³ in all, 109 bytes\n");
    let all = fs::read_to_string(scratch.path("core.csv")).unwrap();
    assert_eq!(all, format!("{head}2,unsettled,0,0,0,0,1,1,1\n1,outside,24,-4,0,1,-2,3,7\n"));
    export(&scratch, &["-o", "core.csv", "--only", "outside"]).done();
    let outside = fs::read_to_string(scratch.path("core.csv")).unwrap();
    assert_eq!(outside, format!("{head}1,outside,24,-4,0,1,-2,3,7\n"));
}

#[test]
fn the_same_bytes_each_time() {
    let scratch = Scratch::new("export-same");
    let walk = ["walk", "--period", "10 mm", "--surface", "primitive", "--level", "0", "--box", "0 0 0 to 10 10 10 mm"];
    scratch.run(&[&walk[..], &["--depth", "12", "-o", "core.table"]].concat()).done();
    for ending in ["vtk", "stl", "obj", "csv"] {
        let [one, other] = ["one", "other"].map(|name| {
            let file = format!("{name}.{ending}");
            export(&scratch, &["-o", &file]).done();
            fs::read(scratch.path(&file)).unwrap()
        });
        assert!(one.len() > 1000 && one == other, "{ending}");
    }
}

#[test]
fn words_that_are_off() {
    let scratch = listing("export-words");
    let missing = "export: -o is missing: name the file to write, which ends in .vtk, .csv, .stl or .obj";
    export(&scratch, &[]).said(2, missing);
    for name in ["core.ply", "core", "core.stl.gz"] {
        let sentence = format!("export: {name} ends in none of .vtk, .csv, .stl and .obj, which say what to write");
        export(&scratch, &["-o", name]).said(2, &sentence);
    }
    for text in ["solid", "inside+", "inside,outside"] {
        let takes = "it takes inside, outside or unsettled, or some of them joined as in inside+unsettled";
        let sentence = format!("export: --only {text} names no states; {takes}");
        export(&scratch, &["-o", "core.stl", "--only", text]).said(2, &sentence);
    }
    scratch.run(&["export", "-o", "core.stl"]).said(2, "export: the table is missing");
    let two = "export: it takes one operand, the table; what is more.table for?";
    export(&scratch, &["more.table", "-o", "core.stl"]).said(2, two);
    assert_eq!(scratch.files(), ["core.table"]);
}

#[test]
fn files_that_cannot_be_read_or_written() {
    let scratch = listing("export-files");
    let none = scratch.run(&["export", "none.table", "-o", "core.stl"]);
    none.said(2, "cannot read none.table: No such file or directory (os error 2)");
    let nowhere = export(&scratch, &["-o", "none/core.stl"]);
    nowhere.said(2, "cannot write none/core.stl: No such file or directory (os error 2)");
    scratch.write("core.table", [0; 96]);
    let zero = "core.table is no sound table (refused 15): it records no cell. Make it anew with `gyroid walk`";
    export(&scratch, &["-o", "core.stl"]).said(1, zero);
    assert_eq!(scratch.files(), ["core.table"]);
}

#[test]
fn no_cell_of_the_chosen_states() {
    let scratch = Scratch::new("export-none");
    table(&scratch, &[[1, 1, 1, 0, 0, 0, 0, 0], [0, 2, 0, 0, 0, 1, 1, 1]]);
    let surface = "core.table has no inside cell, so there is no surface to write; --only chooses other states";
    export(&scratch, &["-o", "core.stl"]).said(2, surface);
    export(&scratch, &["-o", "core.obj"]).said(2, surface);
    let nothing =
        "core.table has no inside or unsettled cell, so there is nothing to write; --only chooses other states";
    export(&scratch, &["-o", "core.vtk", "--only", "unsettled+inside"]).said(2, nothing);
    assert_eq!(scratch.files(), ["core.table"]);
}

/// An inside cell and an outside one that have a tick cube in common: the cells can be written, but not a surface.
#[test]
fn cells_that_overlap() {
    let scratch = Scratch::new("export-overlap");
    table(&scratch, &[[1, 2, 3, 0, 0, 0, 0, 0], [2, 1, 0, 0, 0, 2, 2, 2], [0, 2, 1, 1, 1, 3, 3, 3]]);
    let sentence = "core.table has cells that overlap, so there is no surface to write: \
                    the inside cell from 0, 0, 0 to 2, 2, 2 and the outside cell from 1, 1, 1 to 3, 3, 3, in ticks; \
                    cells of a walk never do, so walk again, or write .vtk or .csv";
    export(&scratch, &["-o", "core.stl"]).said(2, sentence);
    export(&scratch, &["-o", "core.obj", "--only", "outside"]).said(2, sentence);
    assert_eq!(scratch.files(), ["core.table"]);
    export(&scratch, &["-o", "core.vtk"]).done();
    export(&scratch, &["-o", "core.csv"]).done();
    assert_eq!(scratch.files(), ["core.csv", "core.table", "core.vtk"]);
}

#[cfg(target_os = "linux")]
#[test]
fn standard_output_that_cannot_be_written() {
    let scratch = listing("export-full");
    let full = fs::File::create("/dev/full").unwrap();
    let mut program = std::process::Command::new(env!("CARGO_BIN_EXE_gyroid"));
    program.args(["export", "core.table", "-o", "core.stl"]).current_dir(scratch.path("")).stdout(full);
    let ended = program.output().unwrap();
    let said = "gyroid: cannot write to standard output: No space left on device (os error 28)\n";
    assert_eq!((ended.status.code(), &*String::from_utf8_lossy(&ended.stderr)), (Some(2), said));
}

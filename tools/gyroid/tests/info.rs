//! `gyroid info`, and the program's own words: help, version, what is no command.

mod support;

use support::Scratch;

/// Document 01's listing.
const LISTING: &str = "10240 0 0 0 0 0 0 0 2048 0 0 0 0 1024 1024 1024 1";

#[test]
fn what_a_table_says() {
    let scratch = Scratch::new("info");
    scratch.run(&["walk", "--line", LISTING, "-o", "cube.table"]).done();
    let wanted = "\
cube.table: a sound table
2 cells, up to 1 halving deep, in 96 bytes
box 1 mm by 1 mm by 1 mm, its low corner at 0 mm, 0 mm, 0 mm
marked 50.00 % of 1.000 mm³
  solid                  0.500 mm³    50.00 %  in 1 cell inside
  open                   0.000 mm³     0.00 %  in 0 cells outside
  unsettled              0.500 mm³    50.00 %  in 1 cell unsettled
solid fraction 50.00 % at least, 100.00 % at most
slot 0: first cell in slot 1, 2 cells, 3 boxes evaluated,
  volumes 0.500 mm³ (536870912 tick cubes) inside and 0.500 mm³ (536870912 tick cubes) not inside
no two cells overlap
";
    assert_eq!(scratch.run(&["info", "cube.table"]).done(), wanted);
}

#[test]
fn cells_that_overlap_are_said() {
    let scratch = Scratch::new("overlap");
    let slots: [[i32; 8]; 3] = [[1, 2, 3, 0, 0, 0, 0, 0], [2, 1, 0, 0, 0, 2, 2, 2], [0, 2, 1, 1, 1, 3, 3, 3]];
    scratch.write("two.table", slots.as_flattened().iter().flat_map(|n| n.to_le_bytes()).collect::<Vec<u8>>());
    let said = scratch.run(&["info", "two.table"]).done();
    let overlap = "cells overlap, as no walk's do: (0, 0, 0) to (2, 2, 2) and (1, 1, 1) to (3, 3, 3) ticks\n";
    assert!(said.ends_with(overlap), "{said}");
}

#[test]
fn a_table_beside_the_walk_of_its_part_file() {
    let scratch = Scratch::new("beside");
    let part = "period 10 mm\nlevel 0\nbox 0 0 0 to 5 5 5 mm\ndepth 9\n";
    scratch.write("core.part", part);
    scratch.write("other.part", part.replace("depth 9", "depth 8"));
    scratch.write("steep.part", part.replace("level 0", "level 0 at z 0 mm to 0.25 at z 1 mm"));
    scratch.run(&["walk", "--part", "core.part", "-o", "core.table"]).done();
    let info = |part: &str| scratch.run(&["info", "core.table", "--part", part]);
    assert!(info("core.part").done().ends_with("\nevery byte is as the walk of core.part leaves it\n"));
    let remedy = "Walk it again, or find the part file that it was walked by";
    let differs = |part: &str, place: &str| {
        info(part).said(1, &format!("core.table is not the table that a walk of {part} leaves: {place}. {remedy}"));
    };
    // Spare bytes are no difference, a mark is.
    let mut bytes = std::fs::read(scratch.path("core.table")).unwrap();
    bytes.extend([0; 40]);
    scratch.write("core.table", &bytes);
    info("core.part").done();
    let outside = (1..bytes.len() / 32).find(|slot| bytes[32 * slot + 4] == 2).unwrap();
    bytes[32 * outside + 4] = 3;
    scratch.write("core.table", &bytes);
    differs("core.part", &format!("byte {}, in slot {outside}, is 3 and not 2", 32 * outside + 4));
    let cells = u32::from_le_bytes([bytes[4], bytes[5], bytes[6], bytes[7]]);
    scratch.run(&["walk", "--part", "other.part", "-o", "other.table"]).done();
    let fewer = std::fs::read(scratch.path("other.table")).unwrap()[4];
    differs("other.part", &format!("byte 4, in slot 0, is {} and not {fewer}", cells % 256));
    info("steep.part").said(
        1,
        "refused 5: the level changes by 256 counts over 1024 ticks (1 mm), which is too steep: ten ticks or more are wanted \
         for each count, 2560 ticks (2.5 mm) for this change. Move the anchors further apart, or bring start and end nearer.",
    );
    info("none.part").said(2, "cannot read none.part: No such file or directory (os error 2)");
}

#[test]
fn files_that_are_no_sound_table() {
    let scratch = Scratch::new("unsound");
    let info = |name: &str| scratch.run(&["info", name]);
    info("none.table").said(2, "cannot read none.table: No such file or directory (os error 2)");
    scratch.write("text.table", "these are no bytes of a table, but a text of a few lines and more than 64 bytes\n");
    info("text.table").said(
        1,
        "text.table is no sound table (refused 15): it records 1918967909 cells, which want 61406973120 bytes, and has 80. \
         Make it anew with `gyroid walk`",
    );
    scratch.write("zero.table", [0; 96]);
    info("zero.table")
        .said(1, "zero.table is no sound table (refused 15): it records no cell. Make it anew with `gyroid walk`");
    scratch.run(&["info"]).said(2, "info: the table is missing");
    let two = scratch.run(&["info", "a.table", "b.table"]);
    two.said(2, "info: it takes one operand, the table; what is b.table for?");
}

#[test]
fn help_and_what_is_no_command() {
    let scratch = Scratch::new("help");
    let commands = "walk, explain, cut, layers, export, info";
    scratch.run(&[]).said(2, &format!("say a command: {commands}; gyroid --help says more"));
    scratch.run(&["wlak"]).said(2, &format!("there is no command `wlak`; the commands are {commands}"));
    let help = scratch.run(&["--help"]).done();
    for command in commands.split(", ") {
        assert!(help.contains(&format!("gyroid {command} ")), "{command}");
        let own = scratch.run(&[command, "--help"]).done();
        assert!(own.starts_with(&format!("gyroid {command} ")), "{own}");
    }
    assert_eq!(scratch.run(&["--version"]).done(), "gyroid 0.1.0\n");
}

#[cfg(target_os = "linux")]
#[test]
fn standard_output_that_cannot_be_written() {
    let scratch = Scratch::new("full");
    scratch.run(&["walk", "--line", LISTING, "-o", "cube.table"]).done();
    for words in [&["--help"][..], &["info", "cube.table"], &["explain", "5"], &["walk", "--line", LISTING, "--list"]] {
        let full = std::fs::File::create("/dev/full").unwrap();
        let mut program = std::process::Command::new(env!("CARGO_BIN_EXE_gyroid"));
        let ended = program.args(words).current_dir(scratch.path("")).stdout(full).output().unwrap();
        assert_eq!(ended.status.code(), Some(2), "{words:?}");
        let said = "gyroid: cannot write to standard output: No space left on device (os error 28)\n";
        assert_eq!(String::from_utf8(ended.stderr).unwrap(), said, "{words:?}");
    }
}

#[cfg(unix)]
#[test]
fn words_and_input_that_cannot_be_read() {
    use std::os::unix::ffi::OsStrExt;
    let run = |words: &[&std::ffi::OsStr], input: std::fs::File| {
        let mut program = std::process::Command::new(env!("CARGO_BIN_EXE_gyroid"));
        let ended = program.args(words).stdin(input).output().unwrap();
        (ended.status.code(), String::from_utf8(ended.stderr).unwrap())
    };
    let [explain, line, dash] = ["explain", "--line", "-"].map(std::ffi::OsStr::new);
    let directory = || std::fs::File::open(std::env::temp_dir()).unwrap();
    let no_text = (Some(2), "gyroid: explain: the value of --line is no text\n".into());
    assert_eq!(run(&[explain, line, std::ffi::OsStr::from_bytes(&[0xFF])], directory()), no_text);
    let no_input = (Some(2), "gyroid: cannot read standard input: Is a directory (os error 21)\n".into());
    assert_eq!(run(&[explain, line, dash], directory()), no_input);
}

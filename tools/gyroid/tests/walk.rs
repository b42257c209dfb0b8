//! `gyroid walk`: the table of one call by any number of threads; part file, options and line; every sentence.

mod support;

use gyroid_cells::{Bounds, Description, SLOT, Surface, TieRule};
use std::fs;
use support::{Scratch, lines_list};

const CORE: &str = "\
# A filter core of 20 mm, with a ramp along z.
period   10 mm
surface  network            # or primitive
level    -0.25 at z 0 mm to 0.25 at z 20 mm
box      0 0 0 to 20 20 20 mm
depth    12
ties     grade axis
";

fn core() -> (Description, Bounds) {
    (Description::linear(10240, [0; 3], [0, 0, 20480], -256, 256), Bounds { low: [0; 3], high: [20480; 3] })
}

/// The table of one call of the library, with a slot for each cell.
fn one_call(description: &Description, bounds: Bounds, depth: i64, rule: TieRule) -> Vec<u8> {
    let mut bytes = vec![0; 700_000 * SLOT];
    let cells = gyroid_cells::walk(description, bounds, depth, rule, &mut bytes).unwrap().len();
    assert!(bytes[(cells + 1) * SLOT..].iter().all(|byte| *byte == 0));
    bytes.truncate((cells + 1) * SLOT);
    bytes
}

#[test]
fn a_core_of_480_000_cells_is_the_same_table_by_any_number_of_threads_and_by_one_call() {
    let scratch = Scratch::new("threads");
    let (description, bounds) = core();
    let finer = Description { period: 5120, ..description };
    let wanted = one_call(&finer, bounds, 20, TieRule::GradeAxis);
    assert_eq!(wanted.len() / SLOT - 1, 477_760);
    scratch.write("core.part", CORE);
    for threads in ["1", "2", "4"] {
        let words = "walk --part core.part --depth 20 -o core.table --threads".split(' ');
        scratch.run(&words.chain([threads, "--period", "5 mm"]).collect::<Vec<_>>()).done();
        assert!(fs::read(scratch.path("core.table")).unwrap() == wanted, "{threads} threads");
    }
}

#[test]
fn the_table_of_one_call_for_both_surfaces_and_rules_and_every_depth() {
    let scratch = Scratch::new("depths");
    let (description, bounds) = core();
    scratch.write("core.part", CORE);
    for (surface, name) in [(Surface::Network, "network"), (Surface::Primitive, "primitive")] {
        for (rule, ties) in [(TieRule::GradeAxis, "grade axis"), (TieRule::LowestAxis, "lowest axis")] {
            for depth in [0, 1, 2, 8, 9, 10, 11, 14] {
                let wanted = one_call(&description.with_surface(surface), bounds, depth, rule);
                let depth = depth.to_string();
                let words = ["walk", "--part", "core.part", "-o", "core.table"];
                let others = ["--surface", name, "--ties", ties, "--depth", &*depth];
                scratch.run(&[&words[..], &others].concat()).done();
                assert!(fs::read(scratch.path("core.table")).unwrap() == wanted, "{name}, {ties}, depth {depth}");
            }
        }
    }
    // Cells that are settled before there are parts enough: at depths 1, 2, 3 and so on.
    let near = ["walk", "--period", "10 mm", "--level", "-128 counts", "--box", "0 0 0 to 1 1 1 mm", "--depth", "18"];
    scratch.run(&[&near[..], &["-o", "near.table"]].concat()).done();
    let cube = Bounds { low: [0; 3], high: [1024; 3] };
    let wanted = one_call(&Description::constant(10240, -128), cube, 18, TieRule::GradeAxis);
    assert_eq!(wanted[wanted.len() - SLOT + 4..][..2], [2, 1], "the last cell is outside, at depth 1");
    assert!(fs::read(scratch.path("near.table")).unwrap() == wanted);
    // Down to tick cubes, which are not halved.
    let tiny = ["walk", "--period", "1 tick", "--level", "0", "--box", "-4 7 -2 to 1 10 3 ticks", "--depth", "24"];
    scratch.run(&[&tiny[..], &["--small", "-o", "tiny.table"]].concat()).done();
    let wanted =
        one_call(&Description::constant(1, 0), Bounds { low: [-4, 7, -2], high: [1, 10, 3] }, 24, TieRule::GradeAxis);
    assert!(fs::read(scratch.path("tiny.table")).unwrap() == wanted);
}

#[test]
fn part_file_options_and_line_order_the_same() {
    let scratch = Scratch::new("orders");
    scratch.write("core.part", CORE);
    let level = "-256 counts at z 0 ticks to 256 counts at z 20480 ticks";
    let options = ["--period", "10240ticks", "--level", level, "--box", "0 0 0 to 20.0 20 20mm", "--depth", "12"];
    let numbers = "10240 1 0 0 0 0 0 20480 -256 256 0 0 0 20480 20480 20480 12";
    scratch.run(&["walk", "--part", "core.part", "-o", "part.table"]).done();
    scratch.run(&[&["walk", "-o", "options.table"], &options[..]].concat()).done();
    scratch.run(&["walk", "--line", numbers, "--ties", "grade axis", "-o", "line.table"]).done();
    let [part, options, line] =
        ["part.table", "options.table", "line.table"].map(|name| fs::read(scratch.path(name)).unwrap());
    let (description, bounds) = core();
    assert!(part == one_call(&description, bounds, 12, TieRule::GradeAxis));
    assert!(part == options && part == line);
    // A part file as an editor of another system keeps it, and in another order.
    let lines: Vec<&str> = CORE.lines().rev().collect();
    scratch.write("other.part", format!("\u{feff}{}", lines.join("\r\n")));
    scratch.run(&["walk", "--part", "other.part", "-o", "other.table"]).done();
    assert!(fs::read(scratch.path("other.table")).unwrap() == part);
    // A line alone is walked as `cells` does.
    scratch.run(&["walk", "--line", numbers, "-o", "line.table"]).done();
    let lowest = one_call(&description, bounds, 12, TieRule::LowestAxis);
    assert!(lowest != part && fs::read(scratch.path("line.table")).unwrap() == lowest);
}

#[test]
fn the_listing_is_that_of_cells_for_every_line_of_the_list() {
    let scratch = Scratch::new("listing");
    let mut listed = 0;
    for (text, printed) in lines_list() {
        let ran = scratch.fed(&["walk", "--line", "-", "--list", "--small"], &text);
        match printed.strip_prefix("refused ") {
            None => assert_eq!(ran.done(), printed),
            // Its table grows, so nothing is refused by 13.
            Some("13\n") => assert!(ran.done().lines().count() > 2047),
            Some(number) => {
                assert_eq!((ran.exit, &*ran.out), (1, ""));
                assert!(ran.err.starts_with(&format!("gyroid: refused {}: ", number.trim_end())), "{}", ran.err);
            }
        }
        listed += 1;
    }
    assert_eq!(listed, 108);
}

#[test]
fn the_summary_says_cells_marked_volume_solid_open_and_unsettled() {
    let scratch = Scratch::new("summary");
    let words = "walk --small --line -o cube.table --threads 1".replace("--line", "--line=LINE");
    let line = "10240 0 0 0 0 0 0 0 2048 0 0 0 0 1024 1024 1024 1";
    let words: Vec<String> = words.split(' ').map(|word| word.replace("LINE", line)).collect();
    let said = scratch.run(&words.iter().map(String::as_str).collect::<Vec<_>>()).done();
    let (first, rest) = said.split_once('\n').unwrap();
    assert!(first.starts_with("cube.table: walked in ") && first.ends_with(" s by 1 thread"), "{first}");
    let wanted = "\
2 cells, up to 1 halving deep, in 96 bytes
box 1 mm by 1 mm by 1 mm, its low corner at 0 mm, 0 mm, 0 mm
marked 50.00 % of 1.000 mm³
  solid                  0.500 mm³    50.00 %  in 1 cell inside
  open                   0.000 mm³     0.00 %  in 0 cells outside
  unsettled              0.500 mm³    50.00 %  in 1 cell unsettled
solid fraction 50.00 % at least, 100.00 % at most
";
    assert_eq!(rest, wanted);
}

#[test]
fn a_file_stands_under_its_name_only_when_it_is_whole() {
    let scratch = Scratch::new("whole");
    scratch.write("core.part", CORE);
    let walk = |out: &str| scratch.run(&["walk", "--part", "core.part", "-o", out]);
    walk("nowhere/core.table").said(2, "cannot write nowhere/core.table: No such file or directory (os error 2)");
    walk(".").said(2, "cannot write .: it is a directory");
    walk("nowhere/..").said(2, "cannot write nowhere/..: it names no file");
    assert_eq!(scratch.files(), ["core.part"]);
    // What stands there stays until the other is whole: here the other cannot be written at all.
    scratch.write("core.table", "before");
    walk("/dev/full").said(2, "cannot write /dev/full: No space left on device (os error 28)");
    assert_eq!(fs::read(scratch.path("core.table")).unwrap(), b"before");
    walk("core.table").done();
    assert_eq!(scratch.files(), ["core.part", "core.table"]);
    assert_eq!(fs::read(scratch.path("core.table")).unwrap()[0], 1);
    // A refused order writes nothing.
    let refused = scratch.run(&["walk", "--part", "core.part", "--depth", "25", "-o", "deep.table"]);
    refused.said(1, "refused 12: the depth is 25; it is 0 to 24.");
    assert_eq!(scratch.files(), ["core.part", "core.table"]);
}

#[test]
fn words_that_are_off() {
    let scratch = Scratch::new("words");
    scratch.write("core.part", CORE);
    let walk = |words: &[&str]| scratch.run(&[&["walk", "--part", "core.part"], words].concat());
    walk(&[]).said(2, "walk: say where the table goes, `-o core.table`, or `--list` to print its cells");
    walk(&["core.table"]).said(2, "walk: it takes options alone; what is core.table for?");
    walk(&["-o"]).said(2, "walk: -o wants a value behind it");
    walk(&["--list", "--list"]).said(2, "walk: --list is given twice");
    walk(&["--list=yes"]).said(2, "walk: --list takes no value");
    walk(&["--line", "1", "--list"]).said(2, "walk: --part and --line both say what to walk; give one of them");
    walk(&["--list", "--threads", "0"]).said(2, "walk: --threads is 1 to 256, and not `0`");
    let options =
        "--part, --line, --period, --surface, --level, --box, --depth, --ties, -o, --list, --threads, --small";
    walk(&["--dept", "3"]).said(2, &format!("walk: there is no option --dept; the options are {options}"));
    walk(&["--list", "--depth", "deep"]).said(2, "walk: --depth: `deep` is no whole number; it is 0 to 24");
    scratch
        .run(&["walk", "--part", "none.part", "--list"])
        .said(2, "cannot read none.part: No such file or directory (os error 2)");
    scratch.run(&["walk", "--line", "10240 0,", "--list"]).said(
        1,
        "refused 14: Byte 8 is ','; expected was one space behind number 2 of 17, the level kind and then x of `from`. \
         Single spaces stand between the numbers.",
    );
}

#[test]
fn lines_of_a_part_file_that_cannot_be_read() {
    let scratch = Scratch::new("parts");
    let part = |line: &str, other: &str| {
        assert!(CORE.contains(line));
        scratch.write("core.part", CORE.replace(line, other));
        scratch.run(&["walk", "--part", "core.part", "--list"])
    };
    part("period   10 mm", "period 10.3 mm").said(
        2,
        "core.part, line 2: period: 10.3 mm is no whole number of ticks (1/1024 mm); the nearest are 10.2998046875 mm \
         (10547 ticks) and 10.30078125 mm (10548 ticks)",
    );
    part("period   10 mm", "period 10")
        .said(2, "core.part, line 2: period: `10` has no unit; write `10 mm` or `10 ticks` (1024 ticks are 1 mm)");
    let example = "write, for example, `10.5 mm` or `10752 ticks`";
    part("period   10 mm", "period ten mm")
        .said(2, "core.part, line 2: period: `ten mm` is no number; write, for example, `10.5`");
    part("period   10 mm", "period 10 cm")
        .said(2, &format!("core.part, line 2: period: `10 cm` is no length; {example}"));
    part("period   10 mm", "period 10.5 ticks")
        .said(2, "core.part, line 2: period: `10.5 ticks`: ticks are a whole number; 1 mm is 1024 ticks");
    part("period   10 mm", "peroid 10 mm")
        .said(2, "core.part, line 2: there is no key `peroid`; the keys are period, surface, level, box, depth, ties");
    part("period   10 mm", "depth 12").said(2, "core.part, line 6: depth stands there twice");
    part("period   10 mm", "").said(2, "core.part: the period is missing; say, for example, `period 10 mm`");
    part("network ", "gyroid ")
        .said(2, "core.part, line 3: surface: `gyroid` is no surface; it is network (the gyroid) or primitive");
    let form = "write, for example, `0.25` or `-0.25 at z 0 mm to 0.25 at z 20 mm`";
    let level = "-0.25 at z 0 mm to 0.25 at z 20 mm";
    part(level, "0.3").said(
        2,
        "core.part, line 4: level: 0.3 is no whole number of counts (1/1024); the nearest are 0.2998046875 (307 counts) and \
         0.30078125 (308 counts)",
    );
    part(level, "0.25 at z 0 mm")
        .said(2, &format!("core.part, line 4: level: `0.25 at z 0 mm` has one anchor, and a ramp has two; {form}"));
    part(level, "0.25 at z 0 mm to 0.5")
        .said(2, &format!("core.part, line 4: level: `0.5` is no level at a place; {form}"));
    part(level, "0 at z 0 mm to 0.25 at x 20 mm").said(
        2,
        &format!(
            "core.part, line 4: level: `0 at z 0 mm to 0.25 at x 20 mm` names two axes, and a ramp goes along one; {form}"
        ),
    );
    part(level, "1.5 counts")
        .said(2, "core.part, line 4: level: `1.5 counts`: counts are a whole number; a level of 1 is 1024 counts");
    part(level, "1 mm")
        .said(2, "core.part, line 4: level: `1 mm` is no level; write, for example, `0.25` or `256 counts`");
    part("0 0 0 to 20 20 20 mm", "0 0 to 20 20 20 mm").said(
        2,
        "core.part, line 5: box: `0 0 to 20 20 20 mm` is no box; write three lows and three highs, as \
         `0 0 0 to 20 20 20 mm`",
    );
    part("0 0 0 to 20 20 20 mm", "20 20 20 mm").said(
        2,
        "core.part, line 5: box: `20 20 20 mm` is no box; write three lows and three highs, as `0 0 0 to 20 20 20 mm`",
    );
    part("0 0 0 to 20 20 20 mm", "0 0 0 to 20 20 20.01 mm").said(
        2,
        "core.part, line 5: box: 20.01 mm is no whole number of ticks (1/1024 mm); the nearest are 20.009765625 mm (20490 \
         ticks) and 20.0107421875 mm (20491 ticks)",
    );
    part("0 0 0 to 20 20 20 mm", "0 0 0 to 20 20 20")
        .said(2, "core.part, line 5: box: `0` has no unit; write `0 mm` or `0 ticks` (1024 ticks are 1 mm)");
    part(&format!("level    {level}"), "").said(
        2,
        "core.part: the level is missing; say, for example, `level 0.25` or `level -0.25 at z 0 mm to 0.25 at z 20 mm`",
    );
    part("box      0 0 0 to 20 20 20 mm", "")
        .said(2, "core.part: the box is missing; say, for example, `box 0 0 0 to 20 20 20 mm`");
    part("depth    12", "").said(2, "core.part: the depth is missing; say, for example, `depth 20`");
    part("grade axis", "z").said(2, "core.part, line 7: ties: `z` is no tie rule; it is `grade axis` or `lowest axis`");
    scratch.write("bytes.part", [0xFF]);
    let ran = scratch.run(&["walk", "--part", "bytes.part", "--list"]);
    ran.said(2, "cannot read bytes.part: stream did not contain valid UTF-8");
}

#[test]
fn millimetres_typed_as_ticks_are_asked_about() {
    let scratch = Scratch::new("ticks");
    let asked = |line: &str, what: &str| {
        let words = ["walk", "--line", line, "--list"];
        let remedy = "Write the length in mm, or add --small if so small a core is meant";
        scratch.run(&words).said(2, &format!("walk: {what}. {remedy}"));
        scratch.run(&[&words[..], &["--small"]].concat()).done();
    };
    asked(
        "10240 0 0 0 0 0 0 0 0 0 0 0 0 20 20 30 3",
        "the box is 20 by 20 by 30 ticks, 0.029296875 mm at most: millimetres typed as ticks? 30 mm are 30720 ticks",
    );
    asked(
        "10 0 0 0 0 0 0 0 0 0 0 0 0 20480 20480 20480 3",
        "the period is 10 ticks, 0.009765625 mm: millimetres typed as ticks? 10 mm are 10240 ticks",
    );
    // A millimetre is no mistake, nor is a box that is small on one axis, nor millimetres that are written as such.
    let walk = |line: &str| scratch.run(&["walk", "--list", "--line", line]).done();
    walk("1024 0 0 0 0 0 0 0 0 0 0 0 0 1024 1024 1024 3");
    walk("1024 0 0 0 0 0 0 0 0 0 0 0 0 1024 1 1 3");
    let small = ["--period", "0.5 mm", "--level", "0", "--box", "0 0 0 to 0.5 0.5 0.5 mm", "--depth", "3"];
    scratch.run(&[&["walk", "--list"], &small[..]].concat()).done();
}

#[test]
fn refusals_of_the_library_in_words() {
    let scratch = Scratch::new("refusals");
    scratch.write("core.part", CORE);
    let walk = |words: &[&str]| scratch.run(&[&["walk", "--list", "--part", "core.part"], words].concat());
    walk(&["--surface", "sheet"])
        .said(1, "refused 3: the surface is a sheet (kind 1), which is not offered; take network or primitive.");
    walk(&["--level", "256"]).said(
        1,
        "refused 1: start is 262144 counts (a level of 256); levels lie from -4096 to 4096 counts (-4 to 4). Were 256 counts \
         meant?",
    );
    walk(&["--box", "0 0 0 to 20480 20 20 mm"]).said(
        1,
        "refused 1: x of the box's high is 20971520 ticks (20480 mm); it lies from -1048576 to 1048576 ticks (-1024 mm to \
         1024 mm). Were 20480 ticks meant?",
    );
    walk(&["--level", "-0.25 at z 0 mm to 0.25 at z 4 mm"]).said(
        1,
        "refused 5: the level changes by 512 counts over 4096 ticks (4 mm), which is too steep: ten ticks or more are wanted \
         for each count, 5120 ticks (5 mm) for this change. Move the anchors further apart, or bring start and end nearer.",
    );
}

//! `gyroid explain`: the number of the program `cells` for every text of its list, and every sentence.

mod support;

use gyroid_cells::{Bounds, Description, TieRule, walk};
use support::{Scratch, lines_list};

#[test]
fn every_line_of_the_list_has_the_number_of_cells() {
    let scratch = Scratch::new("explain");
    let mut seen = [0; 15];
    for (text, printed) in lines_list() {
        let ran = scratch.fed(&["explain", "--line", "-"], &text);
        let (first, words) = ran.out.split_once('\n').unwrap();
        match printed.strip_prefix("refused ") {
            None => assert_eq!((first, ran.exit), ("accepted", 0)),
            Some(number) => {
                assert_eq!((first, ran.exit), (printed.trim_end(), 1), "{}", text.escape_ascii());
                seen[number.trim_end().parse::<usize>().unwrap()] += 1;
            }
        }
        assert!(!words.trim().is_empty() && ran.err.is_empty());
    }
    assert_eq!(seen, [0, 14, 6, 2, 2, 3, 0, 0, 0, 0, 0, 3, 4, 3, 50]);
}

#[test]
fn a_line_that_wants_a_larger_table() {
    let scratch = Scratch::new("larger");
    let ran = scratch.run(&["explain", "--line", "10240 0 0 0 0 0 0 0 0 0 -5120 -5120 -5120 5120 5120 5120 16"]);
    let wanted = "\
refused 13
The walk has 18,240 cells, which want 583,712 bytes: 9 times the 65,536 of `cells`.
The greatest depth that fits it is 11, with 1,728 cells.
`gyroid walk` takes a table as large as it must.
";
    assert_eq!((ran.exit, &*ran.out), (1, wanted));
    let (core, bounds) = (Description::constant(10240, 0), Bounds { low: [-5120; 3], high: [5120; 3] });
    let cells =
        |depth, bytes| walk(&core, bounds, depth, TieRule::LowestAxis, &mut vec![0; bytes]).map(|table| table.len());
    assert_eq!((cells(16, 583_712), cells(11, 65_536)), (Ok(18_240), Ok(1_728)));
    assert_eq!([cells(16, 583_711), cells(12, 65_536)].map(|answer| answer.unwrap_err().number()), [13, 13]);
}

#[test]
fn a_line_of_the_command_and_an_accepted_one() {
    let scratch = Scratch::new("accepted");
    let listing = "10240 0 0 0 0 0 0 0 2048 0 0 0 0 1024 1024 1024 1";
    assert_eq!(scratch.run(&["explain", "--line", listing]).done(), "accepted\n`cells` prints 2 cells.\n");
    let ran = scratch.run(&["explain", "--line", &listing.replace("10240", "0")]);
    assert_eq!((ran.exit, &*ran.out), (1, "refused 2\nthe period is 0 ticks; it must be above 0.\n"));
}

#[test]
fn numbers() {
    let scratch = Scratch::new("numbers");
    for number in (1..=17).chain([100, 101]) {
        let said = scratch.run(&["explain", &number.to_string()]).done();
        let what = if number < 100 { "refused" } else { "status" };
        assert!(said.starts_with(&format!("{what} {number}\n")) && said.contains("\nWhat to do: "), "{said}");
    }
    for number in ["0", "18", "five", "-1"] {
        let ran = scratch.run(&["explain", number]);
        assert_eq!((ran.exit, &*ran.out), (2, ""));
    }
    let words = scratch.run(&["explain", "18"]);
    words.said(2, "explain: no call and no program refuses by `18`; the numbers are 1 to 17");
    let say = "explain: say a number, `gyroid explain 5`, or a line, `gyroid explain --line '..'`";
    scratch.run(&["explain"]).said(2, say);
    scratch.run(&["explain", "5", "6"]).said(2, say);
    scratch.run(&["explain", "5", "--line", "1"]).said(2, say);
}

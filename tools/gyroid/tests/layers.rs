//! `gyroid layers` as it is run: its list, its plot, its line and its messages.

mod support;

use std::fs;
use std::path::{Path, PathBuf};
use support::{Ran, Scratch};

const HEAD: &str = "layer,z_mm,inside,outside,unsettled,inside_mm2,outside_mm2,unsettled_mm2,inside_share\n";

/// A square millimetre from -2 to 1 ticks in z: half inside below 0, a quarter above, and the rest of it unsettled and
/// outside.
fn parts(scratch: &Scratch) -> PathBuf {
    scratch.table(&[
        (1, 0, [0, 0, -2], [512, 1024, 0]),
        (2, 0, [512, 0, -2], [1024, 1024, 0]),
        (1, 0, [0, 0, 0], [256, 1024, 1]),
        (3, 0, [256, 0, 0], [1024, 1024, 1]),
    ])
}

fn layers(scratch: &Scratch, table: &Path, words: &[&str]) -> Ran {
    let table = table.to_str().expect("a name");
    scratch.run(&[&["layers", table], words].concat())
}

/// A name in the directory, as a word.
fn word(scratch: &Scratch, name: &str) -> String {
    scratch.path(name).to_str().expect("a name").into()
}

fn text(scratch: &Scratch, name: &str) -> String {
    fs::read_to_string(scratch.path(name)).expect("a file")
}

#[test]
fn a_line_for_each_layer() {
    let scratch = Scratch::new("list");
    let (table, list) = (parts(&scratch), word(&scratch, "layers.csv"));
    let line = layers(&scratch, &table, &["-o", &list]).done();
    let run = "3 layers from -0.001953125 mm to 0.0009765625 mm in z";
    let least = "inside 25.00 % of the area at least, in the layer at 0 mm";
    let greatest = "and 50.00 % at most, in the layer at -0.001953125 mm";
    assert_eq!(line, format!("{run}: {least}, {greatest}\n"));
    let lines = [
        "-2,-0.001953125,524288,524288,0,0.500000,0.500000,0.000000,0.500000\n",
        "-1,-0.0009765625,524288,524288,0,0.500000,0.500000,0.000000,0.500000\n",
        "0,0,262144,0,786432,0.250000,0.000000,0.750000,0.250000\n",
    ];
    assert_eq!(text(&scratch, "layers.csv"), HEAD.to_string() + &lines.concat());
}

#[test]
fn a_part_of_the_layers() {
    let scratch = Scratch::new("part");
    let (table, list) = (parts(&scratch), word(&scratch, "layers.csv"));
    // -0.0005 mm lies in layer -1, and 0.002 mm in layer 2, which is not listed.
    let line = layers(&scratch, &table, &["-o", &list, "--from", "-0.0005", "--to=0.002mm"]).done();
    assert!(line.starts_with("3 layers from -0.0009765625 mm to 0.001953125 mm in z: inside 25.00 %"), "{line}");
    let text = text(&scratch, "layers.csv");
    let last = "1,0.0009765625,0,0,0,0.000000,0.000000,0.000000,\n";
    assert!(text.starts_with(&format!("{HEAD}-1,")) && text.ends_with(last), "{text}");
    let line = layers(&scratch, &table, &["-o", &list, "--from", "5ticks", "--to", "6ticks"]).done();
    assert_eq!(line, "1 layer from 0.0048828125 mm to 0.005859375 mm in z, which no cell crosses\n");
}

#[test]
fn a_plot_beside_the_list_or_alone() {
    let scratch = Scratch::new("plot");
    let (table, list, plot) = (parts(&scratch), word(&scratch, "layers.csv"), word(&scratch, "layers.svg"));
    layers(&scratch, &table, &["-o", &list, "--plot", &plot]).done();
    assert!(text(&scratch, "layers.csv").starts_with(HEAD));
    let both = text(&scratch, "layers.svg");
    // Two of three layers are alike: one step of two thirds of the height.
    assert!(both.contains(r##"<path fill="#24528a" shape-rendering="crispEdges" d="M"##), "{both}");
    assert!(both.contains(">25.00 % to 50.00 %</text>") && both.ends_with("</svg>\n"), "{both}");
    fs::remove_file(&list).expect("the list");
    layers(&scratch, &table, &["--plot", &plot]).done();
    assert!(text(&scratch, "layers.svg") == both && !Path::new(&list).exists());
}

#[test]
fn runs_that_the_library_refuses() {
    let scratch = Scratch::new("refused");
    let (table, list) = (parts(&scratch), word(&scratch, "layers.csv"));
    for (words, run) in [
        (["--from", "0", "--to", "0"], "from 0 mm to 0 mm"),
        (["--from", "1", "--to", "-1mm"], "from 1 mm to -1 mm"),
        (["--from", "-1025", "--to", "1"], "from -1025 mm to 1 mm"),
        (["--from", "0", "--to", "1048577ticks"], "from 0 mm to 1024.0009765625 mm"),
        (["--from", "-9223372036854775808ticks", "--to", "9223372036854775807ticks"], "from -9007199254740992 mm to "),
    ] {
        let (status, message) = layers(&scratch, &table, &[&words[..], &["-o", &list]].concat()).trouble();
        let start = format!("gyroid: layers: there is no report {run}");
        let end = "(refused 16): the layer run is empty or leaves the coordinate limits; give a --from below --to, \
                   both between -1024 mm and 1024 mm\n";
        assert!(status == 1 && message.starts_with(&start) && message.ends_with(end), "{message}");
    }
    assert!(!Path::new(&list).exists());
}

#[test]
fn words_that_are_off() {
    let scratch = Scratch::new("words");
    let (table, list) = (parts(&scratch), word(&scratch, "layers.csv"));
    let remedy = "give millimetres, such as 10.5 or 10.5mm, or whole ticks, such as 10752ticks";
    for (words, message) in [
        (&[][..], "there is nothing to write; give -o layers.csv, --plot layers.svg, or both"),
        (&["-o", "a.svg", "--plot", "a.svg"], "-o and --plot name the same file; give each one of its own"),
        (&["--plot", "layers.png"], "--plot layers.png does not end in .svg, which is what a plot is"),
        (&["-o", &list, "--from", "low"], &format!("--from low is no position; {remedy}")),
        (&["-o", &list, "--to", "1.5ticks"], &format!("--to 1.5ticks is no position; {remedy}")),
    ] {
        let found = layers(&scratch, &table, words).trouble();
        assert_eq!(found, (2, format!("gyroid: layers: {message}\n")));
    }
}

#[test]
fn files_that_cannot_be_read_or_written() {
    let scratch = Scratch::new("files");
    let (table, list) = (parts(&scratch), word(&scratch, "layers.csv"));
    let (status, message) = layers(&scratch, &scratch.path("none.table"), &["-o", &list]).trouble();
    assert!(status == 2 && message.contains("cannot read"), "{message}");
    for option in ["-o", "--plot"] {
        let (status, message) = layers(&scratch, &table, &[option, &word(&scratch, "none/layers.svg")]).trouble();
        assert!(status == 2 && message.contains("cannot write"), "{message}");
    }
    fs::write(scratch.path("bad.table"), [0; 64]).expect("a file");
    let (status, message) = layers(&scratch, &scratch.path("bad.table"), &["-o", &list]).trouble();
    assert!(status == 1 && message.contains("refused 15"), "{message}");
}

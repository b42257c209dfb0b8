//! `gyroid cut` as it is run: its pictures, decoded, its line and its messages.

#[path = "../src/cut/inflate.rs"]
mod inflate;
mod support;

use std::collections::HashMap;
use std::fs;
use std::path::{Path, PathBuf};
use support::{Ran, Scratch};

/// The colours of the states, of the frame and of the stripes.
const INSIDE: [u8; 3] = [36, 82, 138];
const OUTSIDE: [u8; 3] = [246, 244, 239];
const UNSETTLED: [u8; 3] = [240, 160, 32];
const FRAME: [u8; 3] = [84, 88, 94];
const STRIPES: [[u8; 3]; 2] = [[190, 190, 190], [226, 226, 226]];

/// Inside on the left, outside below on the right, unsettled above it up to 3/4, and nothing above that; in the upper
/// millimetre in z one cell. In y the box goes from -1 mm to 0.
fn parts(scratch: &Scratch) -> PathBuf {
    scratch.table(&[
        (1, 1, [0, -1024, 0], [512, 0, 1024]),
        (2, 2, [512, -1024, 0], [1024, -512, 1024]),
        (3, 3, [512, -512, 0], [1024, -256, 1024]),
        (2, 1, [0, -1024, 1024], [1024, 0, 2048]),
    ])
}

fn cut(scratch: &Scratch, table: &Path, words: &[&str], picture: &Path) -> Ran {
    let picture = picture.to_str().expect("a name");
    scratch.run(&[&["cut", table.to_str().expect("a name")], words, &["-o", picture]].concat())
}

/// A decoded PNG: its width and its colours, row by row.
struct Pixels {
    width: usize,
    colours: Vec<[u8; 3]>,
}

impl Pixels {
    fn read(path: &Path) -> Self {
        let file = fs::read(path).expect("a picture");
        assert_eq!(file[..8], b"\x89PNG\r\n\x1A\n"[..]);
        let chunks = chunks(&file[8..]);
        let head = &chunks["IHDR"];
        let number = |at: usize| u32::from_be_bytes(head[at..at + 4].try_into().expect("4 bytes")) as usize;
        assert_eq!(head[8..], [8, 3, 0, 0, 0]);
        let palette: Vec<[u8; 3]> =
            chunks["PLTE"].chunks_exact(3).map(|colour| [colour[0], colour[1], colour[2]]).collect();
        let (width, height) = (number(0), number(4));
        let bytes = inflate::zlib_bytes(&chunks["IDAT"]);
        assert_eq!(bytes.len(), (width + 1) * height);
        let rows = bytes.chunks(width + 1).inspect(|row| assert_eq!(row[0], 0, "a row without a filter"));
        Self { width, colours: rows.flat_map(|row| &row[1..]).map(|index| palette[usize::from(*index)]).collect() }
    }

    fn at(&self, x: usize, y: usize) -> [u8; 3] {
        self.colours[y * self.width + x]
    }

    /// The pixels of the cells, from the left and from the bottom: those within the frame, which is two pixels wide.
    fn cells(&self) -> (usize, usize, impl Fn(usize, usize) -> [u8; 3]) {
        let framed = (0..self.colours.len()).filter(|scratch| self.colours[*scratch] == FRAME);
        let (columns, rows): (Vec<usize>, Vec<usize>) =
            framed.map(|scratch| (scratch % self.width, scratch / self.width)).unzip();
        let ends = |scratchs: &[usize]| {
            (scratchs.iter().min().expect("a frame") + 2, scratchs.iter().max().expect("a frame") - 1)
        };
        let ((left, right), (top, bottom)) = (ends(&columns), ends(&rows));
        (right - left, bottom - top, move |x, up| self.at(left + x, bottom - 1 - up))
    }
}

/// The chunks of a PNG by their kinds; their checksums are computed bit by bit.
fn chunks(mut bytes: &[u8]) -> HashMap<String, Vec<u8>> {
    let mut chunks = HashMap::new();
    while !bytes.is_empty() {
        let length = u32::from_be_bytes(bytes[..4].try_into().expect("4 bytes")) as usize;
        let (kind, content, check) = (&bytes[4..8], &bytes[8..8 + length], &bytes[8 + length..12 + length]);
        let mut rest = u32::MAX;
        for byte in &bytes[4..8 + length] {
            rest ^= u32::from(*byte);
            (0..8).for_each(|_| rest = (rest >> 1) ^ if rest & 1 == 1 { 0xEDB8_8320 } else { 0 });
        }
        assert_eq!(check, (!rest).to_be_bytes());
        chunks.insert(String::from_utf8_lossy(kind).into_owned(), content.to_vec());
        bytes = &bytes[12 + length..];
    }
    chunks
}

#[test]
fn pixels_across_z() {
    let scratch = Scratch::new("z");
    let (table, picture) = (parts(&scratch), scratch.path("cut.png"));
    let line = cut(&scratch, &table, &["--z", "0.5", "--size", "200", "--no-borders"], &picture).done();
    let shares = "3 cells, inside 57.14 %, outside 28.57 %, unsettled 14.29 % of its area";
    assert_eq!(line, format!("{}: the layer from 0.5 mm to 0.5009765625 mm in z, {shares}\n", picture.display()));
    let pixels = Pixels::read(&picture);
    let (width, height, at) = pixels.cells();
    assert_eq!((width, height), (200, 200));
    for (x, up, colour) in [
        (0, 0, INSIDE),
        (99, 199, INSIDE),
        (100, 0, OUTSIDE),
        (199, 99, OUTSIDE),
        (100, 100, UNSETTLED),
        (199, 149, UNSETTLED),
    ] {
        assert_eq!(at(x, up), colour, "{x} {up}");
    }
    assert!(STRIPES.contains(&at(100, 150)) && STRIPES.contains(&at(199, 199)));
}

#[test]
fn borders_are_thin_lines() {
    let scratch = Scratch::new("borders");
    let (table, picture) = (parts(&scratch), scratch.path("cut.png"));
    cut(&scratch, &table, &["--z", "0ticks", "--size", "200"], &picture).done();
    let pixels = Pixels::read(&picture);
    let (_, _, at) = pixels.cells();
    assert_eq!((at(99, 20), at(101, 20)), (INSIDE, OUTSIDE));
    assert!(![INSIDE, OUTSIDE].contains(&at(100, 20)));
    assert_eq!((at(150, 99), at(150, 101)), (OUTSIDE, UNSETTLED));
    assert!(![OUTSIDE, UNSETTLED].contains(&at(150, 100)));
}

#[test]
fn other_axes_and_proportions() {
    let scratch = Scratch::new("axes");
    let (table, picture) = (parts(&scratch), scratch.path("cut.png"));
    // Across y: x to the right and z upwards, twice as high as wide.
    let line = cut(&scratch, &table, &["--y", "-0.001", "--size", "200", "--no-borders"], &picture).done();
    assert!(
        line.contains("from -0.001953125 mm to -0.0009765625 mm in y, 2 cells, inside 33.33 %, outside 66.67 %"),
        "{line}"
    );
    let pixels = Pixels::read(&picture);
    let (width, height, at) = pixels.cells();
    assert_eq!((width, height), (100, 200));
    assert_eq!((at(49, 99), at(99, 100)), (INSIDE, OUTSIDE));
    assert!(STRIPES.contains(&at(99, 99)));
    // Across x: y to the right and z upwards.
    cut(&scratch, &table, &["--x", "1023 ticks", "--size", "200", "--no-borders"], &picture).done();
    let pixels = Pixels::read(&picture);
    let (_, _, at) = pixels.cells();
    assert_eq!((at(49, 0), at(50, 0), at(74, 99), at(99, 100)), (OUTSIDE, UNSETTLED, UNSETTLED, OUTSIDE));
    assert!(STRIPES.contains(&at(75, 0)));
}

#[test]
fn colours_by_depth_keep_the_states_apart() {
    let scratch = Scratch::new("depth");
    let (table, picture) = (parts(&scratch), scratch.path("cut.png"));
    cut(&scratch, &table, &["--z", "0", "--size", "100", "--no-borders", "--colour", "depth"], &picture).done();
    let pixels = Pixels::read(&picture);
    let (_, _, at) = pixels.cells();
    // The table has depths 1 to 3: the ends and the middle of the scales.
    assert_eq!((at(0, 0), at(99, 0), at(99, 60)), ([16, 37, 74], [218, 216, 212], [245, 163, 28]));
}

#[test]
fn rectangles_of_an_svg() {
    let scratch = Scratch::new("svg");
    let (table, picture) = (parts(&scratch), scratch.path("cut.SVG"));
    cut(&scratch, &table, &["--z", "0", "--no-borders"], &picture).done();
    let svg = fs::read_to_string(&picture).expect("a picture");
    let cells = [
        r#"viewBox="0 0 1024 1024" preserveAspectRatio="none" shape-rendering="crispEdges">"#,
        r##"<g fill="#24528a">"##,
        r#"<rect x="0" y="0" width="512" height="1024"/>"#,
        "</g>",
        r##"<g fill="#f0a020">"##,
        r#"<rect x="512" y="256" width="512" height="256"/>"#,
        "</g>",
        r##"<g fill="#f6f4ef">"##,
        r#"<rect x="512" y="512" width="512" height="512"/>"#,
        "</g>\n</svg>\n</svg>\n",
    ];
    assert!(svg.ends_with(&cells.join("\n")), "{svg}");
    for text in ["z = 0 mm, tick layer 0", "inside", "57.14 %", "no cell", "-1 mm", "0.2 mm"] {
        assert!(svg.contains(&format!(">{text}</text>")), "{text} in {svg}");
    }
}

#[test]
fn the_same_words_give_the_same_bytes() {
    let scratch = Scratch::new("same");
    let table = parts(&scratch);
    for name in ["cut.png", "cut.svg"] {
        let twice = [0, 1].map(|_| {
            cut(&scratch, &table, &["--z", "0", "--colour=depth"], &scratch.path(name)).done();
            fs::read(scratch.path(name)).expect("a picture")
        });
        assert_eq!(twice[0], twice[1]);
    }
}

#[test]
fn a_layer_that_no_cell_crosses_is_drawn_empty() {
    let scratch = Scratch::new("empty");
    let table = scratch.table(&[(1, 1, [0; 3], [10; 3]), (1, 1, [0, 0, 20], [10, 10, 30])]);
    let line = cut(&scratch, &table, &["--z", "15ticks", "--size", "100"], &scratch.path("cut.png")).done();
    assert!(line.ends_with("the layer from 0.0146484375 mm to 0.015625 mm in z, which no cell crosses\n"), "{line}");
    let pixels = Pixels::read(&scratch.path("cut.png"));
    let (width, height, at) = pixels.cells();
    assert!((0..width).all(|x| (0..height).all(|up| STRIPES.contains(&at(x, up)))));
}

#[test]
fn positions_outside_the_cells() {
    let scratch = Scratch::new("outside");
    let table = parts(&scratch);
    for (words, range) in [
        (
            ["--z", "2.0"],
            "--z 2.0 lies outside the table's cells; give a position from 0 mm up to, and below, 2 mm in z\n",
        ),
        (
            ["--z", "-1ticks"],
            "--z -1ticks lies outside the table's cells; give a position from 0 mm up to, and below, 2 mm in z\n",
        ),
        (
            ["--y", "0"],
            "--y 0 lies outside the table's cells; give a position from -1 mm up to, and below, 0 mm in y\n",
        ),
        (["--x", "99999999999999999999"], "give a position from 0 mm up to, and below, 1 mm in x\n"),
    ] {
        let (status, message) = cut(&scratch, &table, &words, &scratch.path("cut.png")).trouble();
        assert!(status == 2 && message.starts_with("gyroid: cut: --") && message.ends_with(range), "{message}");
    }
    assert!(!scratch.path("cut.png").exists());
}

#[test]
fn words_that_are_off() {
    let scratch = Scratch::new("words");
    let table = parts(&scratch);
    let (table, png) = (table.to_str().expect("a name"), scratch.path("cut.png"));
    let png = png.to_str().expect("a name");
    for (words, message) in [
        (&["-o", png][..], "which layer? Give --x, --y or --z with a position, such as --z 10.0 for 10 mm in z"),
        (
            &["--x", "1", "--z", "1", "-o", png],
            "--x and --z are both given; a picture shows one layer, so leave one of them out",
        ),
        (
            &["--z", "ten", "-o", png],
            "--z ten is no position; give millimetres, such as 10.5 or 10.5mm, or whole ticks, such as 10752ticks",
        ),
        (&["--z", "0"], "-o is missing; name the picture, such as -o cut.png or -o cut.svg"),
        (&["--z", "0", "-o", "cut.gif"], "cut.gif ends neither in .png nor in .svg; give it one of these endings"),
        (&["--z", "0", "-o", "png"], "png ends neither in .png nor in .svg; give it one of these endings"),
        (&["--z", "0", "-o", png, "--size", "99"], "--size 99 is no whole number of pixels from 100 to 8000"),
        (&["--z", "0", "-o", png, "--size", "8001"], "--size 8001 is no whole number of pixels from 100 to 8000"),
        (&["--z", "0", "-o", png, "--size", "big"], "--size big is no whole number of pixels from 100 to 8000"),
        (&["--z", "0", "-o", png, "--colour", "red"], "--colour red is neither state nor depth"),
    ] {
        let (status, found) = scratch.run(&[&["cut", table], words].concat()).trouble();
        assert_eq!((status, found), (2, format!("gyroid: cut: {message}\n")));
    }
    let (status, message) = scratch.run(&["cut", "--z", "0", "-o", png]).trouble();
    assert_eq!((status, message.as_str()), (2, "gyroid: cut: the table's file is missing\n"));
    assert!(!Path::new(png).exists());
}

#[test]
fn files_that_cannot_be_read_or_written() {
    let scratch = Scratch::new("files");
    let table = parts(&scratch);
    let (status, message) =
        cut(&scratch, &scratch.path("none.table"), &["--z", "0"], &scratch.path("cut.png")).trouble();
    assert!(status == 2 && message.contains("cannot read") && message.contains("none.table"), "{message}");
    let (status, message) = cut(&scratch, &table, &["--z", "0"], &scratch.path("none/cut.png")).trouble();
    assert!(status == 2 && message.contains("cannot write") && message.contains("none/cut.png"), "{message}");
    fs::write(scratch.path("bad.table"), [0; 64]).expect("a file");
    let (status, message) =
        cut(&scratch, &scratch.path("bad.table"), &["--z", "0"], &scratch.path("cut.png")).trouble();
    assert!(status == 1 && message.contains("refused 15"), "{message}");
}

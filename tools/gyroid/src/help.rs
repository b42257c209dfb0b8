//! What `--help` prints: the commands on one screen, and the options of each.

use std::ffi::OsString;

const VERSION: &str = concat!("gyroid ", env!("CARGO_PKG_VERSION"), "\n");

const GENERAL: &str = "\
gyroid: marks a filter core against a graded surface, by a proved library

  gyroid walk --part core.part -o core.table     mark a box, cell by cell
  gyroid explain 5                               a refusal in words
  gyroid explain --line '10240 0 .. 1'           why `cells` refuses a line
  gyroid cut core.table --z 10.0 -o cut.png      a picture of a layer
  gyroid layers core.table --plot layers.svg     the areas of each layer
  gyroid export core.table -o core.vtk           for ParaView and slicers
  gyroid info core.table                         what a table says

A part file has a line for each of these; # begins a comment:
  period 10 mm
  surface network                                or primitive
  level -0.25 at z 0 mm to 0.25 at z 20 mm       or, constant: level 0.25
  box 0 0 0 to 20 20 20 mm                       or in ticks, 1/1024 mm
  depth 20                                       halvings at most, 0 to 24
  ties grade axis                                or lowest axis

gyroid COMMAND --help has the options of a command. The exit status is 0 where
it is done, 1 where it is refused and 2 for a wrong word or a file's trouble.
";

const COMMANDS: [(&str, &str); 6] = [
    (
        "walk",
        "\
gyroid walk (--part FILE | --line LINE | the options below) (-o TABLE | --list)

  --part FILE        lines of a key and its value: period, surface, level, box,
                     depth, ties
  --line LINE        the 17 numbers of the program `cells`, or - to read them
                     from standard input; a network, ties to the lowest axis
  --period '10 mm' --surface primitive --level '0.25' --depth 20
  --box '0 0 0 to 20 20 20 mm' --ties 'lowest axis'
                     each in place of its line, or without any
  -o TABLE           keeps the table there
  --list             prints what the program `cells` prints of it
  --threads N        so many at once; without it, one for each processor
  --small            a period or a box below 1 mm, in ticks, is meant
",
    ),
    (
        "explain",
        "\
gyroid explain NUMBER
gyroid explain --line LINE

  NUMBER             a refusal, 1 to 17, or a status of the calls for C
  --line LINE        the 17 numbers of the program `cells`, or - to read them
                     from standard input, byte for byte as `cells` does

The exit status is 1 where the line is refused.
",
    ),
    (
        "cut",
        "\
gyroid cut TABLE (--x | --y | --z) POSITION -o PICTURE.png

  --z POSITION       the layer in which it lies: 10.0, '10 mm' or 10240ticks
  -o PICTURE         .png or .svg
  --colour depth     cells by their depth, and not by their state alone
  --no-borders       without the borders of cells
  --size N           pixels of the longer side, 100 to 8000; 1000 without it
",
    ),
    (
        "layers",
        "\
gyroid layers TABLE [-o REPORT.csv] [--plot PLOT.svg]

  -o REPORT.csv      the areas inside, outside and unsettled of each tick layer
  --plot PLOT.svg    the same as a picture
  --from POSITION --to POSITION
                     the layers from that of the first up to that of the second,
                     which is left out; all of the table's without them
",
    ),
    (
        "export",
        "\
gyroid export TABLE -o FILE

  -o FILE            .vtk: all cells, with their state and depth
                     .stl, .obj: the faces between inside cells and the rest
                     .csv: a line for each cell
  --only STATES      these cells: inside, outside or unsettled, or some of
                     them joined, as inside+unsettled
",
    ),
    (
        "info",
        "\
gyroid info TABLE

  --part FILE        walks the part file too, and says whether every byte of
                     the table is as that walk leaves it

What slot 0 and the chain of a table say, and whether it is sound.
",
    ),
];

/// The text that the words ask for, if they ask for any.
pub fn asked(command: &str, rest: &[OsString]) -> Option<String> {
    match command {
        "--help" | "-h" | "help" => Some(GENERAL.into()),
        "--version" => Some(VERSION.into()),
        _ => {
            let help = rest.iter().any(|word| word == "--help" || word == "-h");
            let own = COMMANDS.into_iter().find(|(name, _)| *name == command && help);
            own.map(|(_, text)| text.into())
        }
    }
}

/// The commands' names.
pub fn commands() -> String {
    COMMANDS.map(|(name, _)| name).join(", ")
}

#[cfg(test)]
mod tests {
    use super::*;

    #[test]
    fn every_help_fits_a_screen() {
        for text in COMMANDS.map(|(_, text)| text).into_iter().chain([GENERAL]) {
            assert!(text.lines().count() <= 24, "{text}");
            assert!(text.lines().all(|line| line.chars().count() <= 80), "{text}");
        }
    }
}

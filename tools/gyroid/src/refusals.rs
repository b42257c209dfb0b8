//! Refusals in words. The number is always the library's, but for 14, which is of the line alone; the words say which
//! entry it is, its value, the limit and what to do.

mod order;
mod table;

pub use order::of_order;
pub use table::unsound;

/// What a number says and what to do, for `gyroid explain NUMBER`: the documents' refusals, and the two other statuses of
/// the calls for C.
pub const GENERAL: [(u32, &str); 19] = [
    (
        1,
        "An entry is outside its limits or kinds.\n\
         Coordinates and the period lie from -1048576 to 1048576 ticks (1024 mm either way), levels from -4096 to 4096\n\
         counts (-4 to 4); a surface is of kind 0, 1 or 2 and a level of kind 0, 1 or 2. Entries that are not used are\n\
         held to the limits too.\n\
         What to do: bring the entry within its limits. Were ticks typed as millimetres, or counts as levels?",
    ),
    (
        2,
        "The period is not above 0, or a linear level has its two anchors at one place.\n\
         What to do: give a period above 0. Move `from` or `to`, or make the level constant.",
    ),
    (
        3,
        "A sheet (kind 1), a level by distance (level kind 2), or a frame that is turned or moved.\n\
         What to do: take the network or the primitive surface, a constant or a linear level, and the part frame.",
    ),
    (
        4,
        "The anchors of a ramp differ on other than one axis.\n\
         What to do: let `from` and `to` differ in x alone, in y alone or in z alone.",
    ),
    (
        5,
        "An end of a ramp is outside -256 to 256 counts (-0.25 to 0.25), or the ramp is steeper than one count in ten\n\
         ticks.\n\
         What to do: bring start and end within the limits, or move the anchors further apart.",
    ),
    (6, "A low of a box is above its high, in `grade_range` or `level_piece`.\nWhat to do: exchange them."),
    (
        7,
        "`grade_range` was asked of a level by distance (level kind 2), which has no range.\n\
         What to do: take a constant or a linear level.",
    ),
    (
        8,
        "`grade_range` was asked of a linear level with its two anchors at one place.\n\
         What to do: move `from` or `to`, or make the level constant.",
    ),
    (
        9,
        "A double is no number, or a low of a box is above its high.\nWhat to do: exchange them, or find what made the NaN.",
    ),
    (10, "An end of a box or a point is beyond 2^40 in size.\nWhat to do: millimetres are meant; take a nearer place."),
    (
        11,
        "A span of the box is below one tick: a high is not above its low.\n\
         What to do: give each high above its low; where they are exchanged, exchange them again.",
    ),
    (12, "The depth is below 0 or above 24.\nWhat to do: give a depth from 0 to 24. Each halving takes one."),
    (
        13,
        "The table has too few slots: n cells want (n + 1) times 32 bytes. The program `cells` has 65536 bytes, for 2047\n\
         cells.\n\
         What to do: `gyroid walk` takes a table as large as it must. Or give a smaller depth or a smaller box.\n\
         `gyroid explain --line '..'` says how large a table the line wants.",
    ),
    (
        14,
        "The text is not the line of the program `cells`: 17 decimal numbers (a minus or none, 1 to 7 digits), single\n\
         spaces, a newline, and no byte after it.\n\
         What to do: `gyroid explain --line '..'` names the byte and what was expected there.",
    ),
    (
        15,
        "The bytes are no sound table: its chain, a state, a depth or a box is broken.\n\
         What to do: `gyroid info FILE` says what is broken. Make the table anew with `gyroid walk`.",
    ),
    (
        16,
        "The run of layers is empty, or leaves -1048576 to 1048576 ticks.\n\
         What to do: give a high above the low, both within 1024 mm of the origin.",
    ),
    (17, "The report has fewer than 24 bytes for each layer.\nWhat to do: lend 24 bytes for each layer of the run."),
    (
        100,
        "No refusal: the call found nothing. A status of the calls for C.\n\
         What to do: bindings/gyroid.h says of each call when it finds nothing.",
    ),
    (
        101,
        "No refusal: a slice that was lent is not of its length. A status of the calls for C.\n\
         What to do: bindings/gyroid.h says how many entries each call takes and leaves.",
    ),
];

/// The words of a number.
pub fn general(number: u32) -> Option<&'static str> {
    GENERAL.into_iter().find(|(named, _)| *named == number).map(|(_, words)| words)
}

#[cfg(test)]
mod tests {
    use super::*;

    #[test]
    fn every_number_of_the_library_has_words_and_a_remedy() {
        for number in (1..=17).chain([100, 101]) {
            assert!(general(number).is_some_and(|words| words.contains("\nWhat to do: ")), "{number}");
        }
        assert_eq!((general(0), general(18)), (None, None));
    }
}

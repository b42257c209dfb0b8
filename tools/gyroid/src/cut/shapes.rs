//! What a picture is made of besides its cells: filled areas and lines of text, at whole pixels from the left and from
//! the top.

/// Red, green and blue.
pub type Colour = [u8; 3];

#[derive(Clone, Copy, Debug, PartialEq)]
pub struct Area {
    pub x: i64,
    pub y: i64,
    pub width: i64,
    pub height: i64,
}

impl Area {
    pub fn right(&self) -> i64 {
        self.x + self.width
    }

    pub fn bottom(&self) -> i64 {
        self.y + self.height
    }

    /// The same with so much more on each side.
    pub fn wider(&self, by: i64) -> Self {
        Self { x: self.x - by, y: self.y - by, width: self.width + 2 * by, height: self.height + 2 * by }
    }
}

/// Which end of a text stands at its place, or its middle.
#[derive(Clone, Copy, Debug, PartialEq)]
pub enum Anchor {
    Start,
    Middle,
    End,
}

#[derive(Clone, Debug, PartialEq)]
pub enum Shape {
    Fill(Area, Colour),
    /// Stripes, where there is no cell.
    Hatch(Area),
    /// A text with its base line at `y`.
    Text {
        x: i64,
        y: i64,
        anchor: Anchor,
        text: String,
    },
}

/// Letters are this wide, with the gap behind them, and lines this far apart: in units, which are pixels in all but
/// large pictures.
pub const LETTER: i64 = 12;
pub const LINE: i64 = 26;
/// How high a digit stands.
pub const DIGIT: i64 = 14;
/// What is left about a picture, and between its parts.
pub const MARGIN: i64 = 24;
pub const GAP: i64 = 12;
/// A sample of a colour in a legend: its width and its height.
pub const SAMPLE: [i64; 2] = [36, 18];

/// The width of a text in units.
pub fn text_width(text: &str) -> i64 {
    LETTER * text.chars().count() as i64
}

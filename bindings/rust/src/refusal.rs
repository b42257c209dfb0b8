//! A refusal: the number of document 01 or 02, and what it says.

use crate::UnknownNumber;
use core::fmt;

/// Why a call could not work on its input, by document 01's number, 1 to 13, or by document 02's, 15 to 17. The first
/// that holds wins, in the documents' order.
///
/// A number that was kept is read back; one that no call answers is none. 14 is the program `cells`' own: a text that
/// is not its line.
///
/// ```
/// use gyroid_cells::Refusal;
///
/// let full = Refusal::try_from(13).unwrap();
/// assert_eq!(full.number(), 13);
/// assert_eq!(full.to_string(), "refused 13: the table has too few slots for the cells");
/// assert!(Refusal::try_from(0).is_err() && Refusal::try_from(14).is_err());
/// ```
#[derive(Clone, Copy, Debug, PartialEq, Eq, PartialOrd, Ord, Hash)]
pub struct Refusal(u32);

impl Refusal {
    /// The number of document 01 or 02.
    ///
    /// ```
    /// use gyroid_cells::{Description, graded};
    ///
    /// let refused = graded(&Description::constant(0, 2048)).unwrap_err();
    /// assert_eq!(refused.number(), 2);
    /// ```
    pub fn number(self) -> u32 {
        self.0
    }

    /// What the number says, in a few words.
    ///
    /// ```
    /// use gyroid_cells::Refusal;
    ///
    /// assert_eq!(Refusal::try_from(2).unwrap().text(), "the period is not above 0, or from = to");
    /// ```
    pub fn text(self) -> &'static str {
        match self.0 {
            1 => "an entry is outside its limits or kinds",
            2 => "the period is not above 0, or from = to",
            3 => "a sheet, a distance level, or a frame that is not the part frame",
            4 => "the anchors differ on other than one axis",
            5 => "an end is outside its range, or the slope is above 1/10",
            6 => "a low of the box is above its high",
            7 => "a distance level has no range",
            8 => "a linear level with from = to has no range",
            9 => "a double is a NaN, or a low is above its high",
            10 => "an end or a point is beyond 2^40 in size",
            11 => "a span of the box is below 1",
            12 => "the depth is below 0 or above 24",
            13 => "the table has too few slots for the cells",
            15 => "the table is not sound",
            16 => "the layer run is empty or leaves the coordinate limits",
            17 => "the report buffer holds fewer than 24 bytes a layer",
            other => unreachable!("{other} is no refusal"),
        }
    }
}

impl TryFrom<u32> for Refusal {
    type Error = UnknownNumber;

    fn try_from(number: u32) -> Result<Self, UnknownNumber> {
        if matches!(number, 1..=13 | 15..=17) { Ok(Self(number)) } else { Err(UnknownNumber(number)) }
    }
}

impl fmt::Display for Refusal {
    fn fmt(&self, f: &mut fmt::Formatter<'_>) -> fmt::Result {
        write!(f, "refused {}: {}", self.0, self.text())
    }
}

impl core::error::Error for Refusal {}

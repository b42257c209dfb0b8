//! Document 01's line, which the program `cells` reads: 17 decimal numbers (a minus or none, 1 to 7 digits), single
//! spaces, newline, and no byte after it. What is not this line is refused by 14, at a byte that is named here.

use gyroid_cells::{Bounds, Description};

/// The numbers of the line, in its order.
pub const NAMES: [&str; 17] = [
    "the period",
    "the level kind",
    "x of `from`",
    "y of `from`",
    "z of `from`",
    "x of `to`",
    "y of `to`",
    "z of `to`",
    "start",
    "end",
    "the low of x",
    "the low of y",
    "the low of z",
    "the high of x",
    "the high of y",
    "the high of z",
    "the depth",
];

/// What the numbers of a line ask for: a network in the part frame.
#[derive(Clone, Copy, Debug, PartialEq)]
pub struct Line {
    pub description: Description,
    pub bounds: Bounds,
    pub depth: i64,
}

/// Where a text is not the line: at a byte, counted from 1.
#[derive(Debug, PartialEq)]
pub struct Broken {
    byte: usize,
    found: Option<u8>,
    expected: String,
}

impl Line {
    pub fn read(bytes: &[u8]) -> Result<Self, Broken> {
        let mut text = Text { bytes, place: 0 };
        let mut n = [0; 17];
        for (i, name) in NAMES.into_iter().enumerate() {
            n[i] = text.number(i, name)?;
            text.separator(i, name)?;
        }
        match bytes.get(text.place) {
            None => Ok(Self::of(n)),
            Some(_) => {
                Err(text.broken("nothing, for the line has ended: one line is read, and no byte after it".into()))
            }
        }
    }

    fn of(n: [i64; 17]) -> Self {
        let three = |i: usize| [n[i], n[i + 1], n[i + 2]];
        let description = Description { level_kind: n[1], ..Description::linear(n[0], three(2), three(5), n[8], n[9]) };
        Self { description, bounds: Bounds { low: three(10), high: three(13) }, depth: n[16] }
    }
}

/// A text that is read from a place on.
struct Text<'a> {
    bytes: &'a [u8],
    place: usize,
}

impl Text<'_> {
    fn broken(&self, expected: String) -> Broken {
        Broken { byte: self.place + 1, found: self.bytes.get(self.place).copied(), expected }
    }

    fn take(&mut self, byte: u8) -> bool {
        let taken = self.bytes.get(self.place) == Some(&byte);
        self.place += usize::from(taken);
        taken
    }

    fn number(&mut self, i: usize, name: &str) -> Result<i64, Broken> {
        let minus = self.take(b'-');
        let rest = &self.bytes[self.place..];
        let digits = &rest[..rest.iter().take_while(|b| b.is_ascii_digit()).count()];
        if digits.is_empty() {
            let or_minus = if minus { "" } else { ", or a minus" };
            return Err(self.broken(format!("a digit of number {} of 17, {name}{or_minus}", i + 1)));
        }
        if digits.len() > 7 {
            self.place += 7;
            return Err(self.broken(format!("the end of number {} of 17, {name}: it has 7 digits at most", i + 1)));
        }
        self.place += digits.len();
        let number = digits.iter().fold(0, |n, digit| 10 * n + i64::from(digit - b'0'));
        Ok(if minus { -number } else { number })
    }

    fn separator(&mut self, i: usize, name: &str) -> Result<(), Broken> {
        let last = i + 1 == NAMES.len();
        if self.take(if last { b'\n' } else { b' ' }) {
            return Ok(());
        }
        let expected = if last { "a newline" } else { "one space" };
        let next = NAMES.get(i + 1).map(|next| format!(" and then {next}")).unwrap_or_default();
        Err(self.broken(format!("{expected} behind number {} of 17, {name}{next}", i + 1)))
    }
}

impl Broken {
    /// Which byte it is, what was expected there, and what the likely slip is.
    pub fn sentence(&self) -> String {
        let Self { byte, expected, .. } = self;
        let found = match self.found {
            None => return format!("The text ends before byte {byte}; expected was {expected}."),
            Some(found) => found,
        };
        let hint = match found {
            b'.' => " Ticks and level counts are whole numbers: 1 mm is 1024 ticks, a level of 1 is 1024 counts.",
            b'\r' => " Save the line with Unix line ends.",
            b',' | b';' | b'\t' => " Single spaces stand between the numbers.",
            b'+' => " A number above zero has no sign.",
            b' ' if expected.starts_with("a digit") => " No space stands before the first number, and one between two.",
            b'\n' if expected.starts_with("one space") || expected.starts_with("a digit") => " Numbers are missing.",
            0x80.. => " It is no plain ASCII character.",
            _ => "",
        };
        format!("Byte {byte} is {}; expected was {expected}.{hint}", shown(found))
    }
}

fn shown(byte: u8) -> String {
    match byte {
        b'\n' => "a newline".into(),
        b'\r' => "a carriage return".into(),
        b'\t' => "a tab".into(),
        b' ' => "a space".into(),
        0x21..=0x7E => format!("'{}'", char::from(byte)),
        _ => format!("0x{byte:02X}"),
    }
}

#[cfg(test)]
mod tests {
    use super::*;

    const LISTING: &str = "10240 0 0 0 0 0 0 0 2048 0 0 0 0 1024 1024 1024 1\n";

    #[test]
    fn the_numbers_of_a_line() {
        let line = Line::read(b"5120 1 1 2 3 4 5 6 -7 8 -9 10 11 12 13 14 -15\n").unwrap();
        assert_eq!(line.description, Description::linear(5120, [1, 2, 3], [4, 5, 6], -7, 8));
        assert_eq!(line.bounds, Bounds { low: [-9, 10, 11], high: [12, 13, 14] });
        assert_eq!(line.depth, -15);
        let kind = Line::read(LISTING.replace("10240 0", "10240 2").as_bytes()).unwrap().description.level_kind;
        assert_eq!(kind, 2);
        assert!(Line::read(LISTING.replace(" 0 ", " -0000000 ").as_bytes()).is_ok());
    }

    fn broken(text: &str) -> String {
        Line::read(text.as_bytes()).unwrap_err().sentence()
    }

    #[test]
    fn where_a_text_is_not_the_line() {
        let with = |old: &str, new: &str| broken(&LISTING.replacen(old, new, 1));
        let digit = "expected was a digit of number 1 of 17, the period, or a minus.";
        assert_eq!(broken(""), format!("The text ends before byte 1; {digit}"));
        assert_eq!(with("10240", "+10240"), format!("Byte 1 is '+'; {digit} A number above zero has no sign."));
        assert_eq!(
            with("10240", " 10240"),
            format!("Byte 1 is a space; {digit} No space stands before the first number, and one between two.")
        );
        assert_eq!(
            with("10240", "-"),
            "Byte 2 is a space; expected was a digit of number 1 of 17, the period. \
            No space stands before the first number, and one between two."
        );
        assert_eq!(
            with("10240", "10.5"),
            "Byte 3 is '.'; expected was one space behind number 1 of 17, the period and then the level kind. \
             Ticks and level counts are whole numbers: 1 mm is 1024 ticks, a level of 1 is 1024 counts."
        );
        assert_eq!(
            with("10240", "00010240"),
            "Byte 8 is '0'; expected was the end of number 1 of 17, the period: it has 7 digits at most."
        );
        assert_eq!(
            with("1024 1\n", "1024\n"),
            "Byte 48 is a newline; expected was one space behind number 16 of 17, the high of z and then the depth. \
             Numbers are missing."
        );
        assert_eq!(
            with(" 1\n", " 1"),
            "The text ends before byte 50; expected was a newline behind number 17 of 17, the depth."
        );
        assert_eq!(
            with(" 1\n", " 1\r\n"),
            "Byte 50 is a carriage return; expected was a newline behind number 17 of 17, the depth. \
             Save the line with Unix line ends."
        );
        assert_eq!(
            with(" 1\n", " 1\n\n"),
            "Byte 51 is a newline; expected was nothing, for the line has ended: one line is read, and no byte after it."
        );
        assert_eq!(
            with("10240 0", "10240,0"),
            "Byte 6 is ','; expected was one space behind number 1 of 17, the period and then the level kind. \
             Single spaces stand between the numbers."
        );
        assert_eq!(with("10240", "\u{feff}10240"), format!("Byte 1 is 0xEF; {digit} It is no plain ASCII character."));
    }
}

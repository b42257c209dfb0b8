//! A request for a layer report, which takes a table in place of a description, and what it leaves.

use crate::line::{length, whole};
use std::fmt;
use std::str::FromStr;

/// The bytes of a layer in a report.
pub const LAYER: usize = 24;

/// How a line says that a table has no byte.
const EMPTY: &str = "-";

/// The layers from `low` to `high` − 1 of a table.
#[derive(Clone, Debug, PartialEq, Eq)]
pub struct LayerRequest {
    pub low: i64,
    pub high: i64,
    /// The length of the report that is lent, in bytes.
    pub report: usize,
    /// The table's bytes.
    pub table: Vec<u8>,
}

impl LayerRequest {
    /// The call's name.
    pub const NAME: &str = "layers";

    /// The number of layers; 0 where the run is empty.
    pub fn layers(&self) -> usize {
        usize::try_from(self.high.saturating_sub(self.low)).unwrap_or(0)
    }
}

/// The byte of two hexadecimal digits.
fn byte(pair: &[u8]) -> Option<u8> {
    let [high, low] = *pair else { return None };
    let digit = |character: u8| char::from(character).to_digit(16);
    u8::try_from(16 * digit(high)? + digit(low)?).ok()
}

fn table(word: &str) -> Result<Vec<u8>, String> {
    if word == EMPTY {
        return Ok(Vec::new());
    }
    let bytes: Option<Vec<u8>> = word.as_bytes().chunks(2).map(byte).collect();
    let some = bytes.filter(|bytes| !bytes.is_empty());
    some.ok_or_else(|| format!("a table is two hexadecimal digits for each byte, or {EMPTY} where it has none"))
}

impl FromStr for LayerRequest {
    type Err = String;

    fn from_str(line: &str) -> Result<Self, String> {
        let words: Vec<&str> = line.split(' ').collect();
        let [Self::NAME, low, high, report, bytes] = words[..] else {
            return Err(format!("{} takes three numbers and a table", Self::NAME));
        };
        Ok(Self { low: whole(low)?, high: whole(high)?, report: length(report, "report")?, table: table(bytes)? })
    }
}

impl fmt::Display for LayerRequest {
    fn fmt(&self, f: &mut fmt::Formatter<'_>) -> fmt::Result {
        write!(f, "{} {} {} {} ", Self::NAME, self.low, self.high, self.report)?;
        if self.table.is_empty() {
            return write!(f, "{EMPTY}");
        }
        self.table.iter().try_for_each(|byte| write!(f, "{byte:02X}"))
    }
}

/// The status of a layer report, 0 or the refusal's number, and every byte of the report and of the table afterwards.
#[derive(Clone, Debug, PartialEq, Eq)]
pub struct Reported {
    pub status: u32,
    /// The number of layers that were asked for.
    pub layers: usize,
    pub report: Vec<u8>,
    pub table: Vec<u8>,
}

impl Reported {
    pub fn refused(&self) -> Option<u32> {
        (self.status != 0).then_some(self.status)
    }
}

impl fmt::Display for Reported {
    fn fmt(&self, f: &mut fmt::Formatter<'_>) -> fmt::Result {
        if let Some(number) = self.refused() {
            return write!(f, "refused {number}");
        }
        let areas = self.report.chunks_exact(8).take(LAYER / 8 * self.layers);
        let areas = areas.map(|area| u64::from_le_bytes(area.try_into().expect("8 bytes")).to_string());
        write!(f, "{}", areas.collect::<Vec<_>>().join(" "))
    }
}

#[cfg(test)]
mod tests {
    use super::*;

    fn error(line: &str) -> String {
        line.parse::<LayerRequest>().unwrap_err()
    }

    #[test]
    fn a_request_reads_what_it_prints() {
        for (text, table) in [("-", vec![]), ("00", vec![0]), ("FF0A80", vec![255, 10, 128])] {
            let request = LayerRequest { low: i64::MIN, high: -7, report: 24, table };
            assert_eq!(request.to_string(), format!("layers -9223372036854775808 -7 24 {text}"));
            assert_eq!(request.to_string().parse(), Ok(request.clone()));
            assert_eq!(request.to_string().replace('F', "f").parse(), Ok(request));
        }
    }

    #[test]
    fn what_is_no_request_is_named() {
        for line in ["layers", "layers 0 1 24", "layers 0 1 24 - ", "layers 0 1 24 00 00", "layer 0 1 24 -"] {
            assert_eq!(error(line), "layers takes three numbers and a table");
        }
        for word in ["", "0", "000", "0x", "+1", "é"] {
            let wanted = "a table is two hexadecimal digits for each byte, or - where it has none";
            assert_eq!(error(&format!("layers 0 1 24 {word}")), wanted);
        }
        assert_eq!(error("layers 0 1.5 24 -"), r#""1.5" is no whole number"#);
        assert_eq!(error("layers 0 1 -1 -"), r#""-1" is no report's length, which is 0 to 1073741824 bytes"#);
    }

    #[test]
    fn runs() {
        let layers = |low, high| LayerRequest { low, high, report: 0, table: vec![] }.layers();
        assert_eq!((layers(-1, 2), layers(2, 2), layers(i64::MAX, i64::MIN)), (3, 0, 0));
        assert_eq!(layers(i64::MIN, i64::MAX), i64::MAX as usize);
    }

    #[test]
    fn text() {
        let report = [1, 2, u64::MAX, 4, 5, 6].iter().flat_map(|area| area.to_le_bytes()).chain([7; 30]).collect();
        let reported = Reported { status: 0, layers: 2, report, table: vec![] };
        assert_eq!(reported.to_string(), "1 2 18446744073709551615 4 5 6");
        assert_eq!(Reported { status: 16, ..reported }.to_string(), "refused 16");
    }
}

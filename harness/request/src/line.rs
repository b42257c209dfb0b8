//! A request as a line: the call's name, the 18 entries, then what the call takes, with single spaces between.

use crate::{Call, Request, Shape, Value};
use std::fmt;
use std::str::FromStr;

/// A whole number in decimal: a minus or none, then digits.
pub(crate) fn whole(word: &str) -> Result<i64, String> {
    let digits = word.strip_prefix('-').unwrap_or(word);
    if digits.is_empty() || !digits.bytes().all(|b| b.is_ascii_digit()) {
        return Err(format!("{word:?} is no whole number"));
    }
    word.parse().map_err(|_| format!("{word:?} does not fit 64 bits"))
}

/// A double by the 16 hexadecimal digits of its bits.
fn double(word: &str) -> Result<f64, String> {
    if word.len() != 16 || !word.bytes().all(|b| b.is_ascii_hexdigit()) {
        return Err(format!("{word:?} is not 16 hexadecimal digits"));
    }
    let bits = u64::from_str_radix(word, 16).map_err(|error| error.to_string())?;
    Ok(f64::from_bits(bits))
}

/// The number of a piece or of a rule, whether there is such a one or not.
fn numbered(word: &str, what: &str) -> Result<u32, String> {
    u32::try_from(whole(word)?).map_err(|_| format!("{word:?} does not fit a {what}'s 32 bits"))
}

/// The longest table or report that a line can ask for: more bytes than the cells of most walks fill.
const LONGEST: usize = 1 << 30;

/// The length of what is lent, a table or a report.
pub(crate) fn length(word: &str, lent: &str) -> Result<usize, String> {
    let fits = usize::try_from(whole(word)?).ok().filter(|length| *length <= LONGEST);
    fits.ok_or_else(|| format!("{word:?} is no {lent}'s length, which is 0 to {LONGEST} bytes"))
}

impl FromStr for Request {
    type Err = String;

    fn from_str(line: &str) -> Result<Self, String> {
        let mut words = line.split(' ');
        let name = words.next().unwrap_or_default();
        let call = Call::ALL.iter().find(|call| call.name() == name);
        let call = *call.ok_or_else(|| format!("{name:?} is no call"))?;
        let shape = call.shape();
        let words: Vec<&str> = words.collect();
        let wanted = 18 + shape.whole() + shape.doubles() + shape.last();
        if words.len() != wanted {
            return Err(format!("{name} takes {wanted} numbers, not {}", words.len()));
        }
        let (entries, rest) = words.split_at(18);
        let (box_entries, rest) = rest.split_at(shape.whole());
        let (doubles, rest) = rest.split_at(shape.doubles());
        let mut request = Request::new(call, [0; 18]);
        for (entry, word) in request.description.iter_mut().zip(entries) {
            *entry = whole(word)?;
        }
        for (entry, word) in request.whole.iter_mut().zip(box_entries) {
            *entry = whole(word)?;
        }
        for (entry, word) in request.doubles.iter_mut().zip(doubles) {
            *entry = double(word)?;
        }
        match rest {
            [word] => request.piece = numbered(word, "piece")?,
            [depth, rule, table] => {
                (request.depth, request.rule) = (whole(depth)?, numbered(rule, "rule")?);
                request.table = length(table, "table")?;
            }
            _ => {}
        }
        Ok(request)
    }
}

impl fmt::Display for Request {
    fn fmt(&self, f: &mut fmt::Formatter<'_>) -> fmt::Result {
        write!(f, "{}", self.call.name())?;
        for entry in self.description.iter().chain(self.whole()) {
            write!(f, " {entry}")?;
        }
        for v in self.doubles() {
            write!(f, " {}", Value::Double(*v))?;
        }
        match self.call.shape() {
            Shape::WorldPiece => write!(f, " {}", self.piece),
            Shape::Walk => write!(f, " {} {} {}", self.depth, self.rule, self.table),
            _ => Ok(()),
        }
    }
}

#[cfg(test)]
mod tests {
    use super::*;

    const ENTRIES: &str = "10240 0 1 1 2 3 4 5 6 -7 8 1 0 0 0 -9223372036854775808 0 0";

    fn error(line: &str) -> String {
        line.parse::<Request>().unwrap_err()
    }

    #[test]
    fn every_call_reads_what_it_prints() {
        for &call in Call::ALL {
            let mut request = Request::new(call, std::array::from_fn(|i| 7 - i as i64));
            for i in 0..call.shape().whole() {
                request.whole[i] = i64::MAX - i as i64;
            }
            for i in 0..call.shape().doubles() {
                request.doubles[i] = 1.0 / (i as f64 - 3.0);
            }
            match call {
                Call::Derivatives => request.piece = u32::MAX,
                Call::Walk => (request.depth, request.rule, request.table) = (i64::MIN, u32::MAX, LONGEST),
                _ => {}
            }
            assert_eq!(request.to_string().parse(), Ok(request));
        }
    }

    #[test]
    fn either_case_is_read() {
        let line = format!("fast {ENTRIES} 7ff0000000000000 BFF0000000000000 000000000000000a");
        let request: Request = line.parse().unwrap();
        assert_eq!(request.doubles()[..2], [f64::INFINITY, -1.0]);
        assert_eq!(request.description[15], i64::MIN);
        assert_eq!(request.to_string(), line.replace('a', "A").replace("fAst", "fast").replace("7ff", "7FF"));
    }

    #[test]
    fn what_is_no_request_is_named() {
        assert_eq!(error(""), r#""" is no call"#);
        assert_eq!(error("turn 1"), r#""turn" is no call"#);
        assert_eq!(error("walk 1"), "walk takes 27 numbers, not 1");
        assert_eq!(error("graded 1"), "graded takes 18 numbers, not 1");
        assert_eq!(error(&format!("graded {ENTRIES} ")), "graded takes 18 numbers, not 19");
        assert_eq!(error(&format!("graded {}", ENTRIES.replace("10240", "+1"))), r#""+1" is no whole number"#);
        assert_eq!(error(&format!("graded {}", ENTRIES.replace("-7", "-"))), r#""-" is no whole number"#);
        assert_eq!(
            error(&format!("graded {}", ENTRIES.replace("-92", "-93"))),
            r#""-9323372036854775808" does not fit 64 bits"#
        );
        assert_eq!(error(&format!("fast {ENTRIES} 0 0 0")), r#""0" is not 16 hexadecimal digits"#);
        let zeros = ["0000000000000000"; 6].join(" ");
        assert_eq!(error(&format!("derivatives {ENTRIES} {zeros} -1")), r#""-1" does not fit a piece's 32 bits"#);
        let walk = |last: &str| error(&format!("walk {ENTRIES} 0 0 0 1 1 1 0 {last}"));
        assert_eq!(walk("-1 64"), r#""-1" does not fit a rule's 32 bits"#);
        assert_eq!(walk("4294967296 64"), r#""4294967296" does not fit a rule's 32 bits"#);
        let lengths = "is no table's length, which is 0 to 1073741824 bytes";
        assert_eq!(walk("1 -1"), format!(r#""-1" {lengths}"#));
        assert_eq!(walk("1 1073741825"), format!(r#""1073741825" {lengths}"#));
    }
}

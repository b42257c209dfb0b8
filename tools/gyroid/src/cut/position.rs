//! A position on an axis, in millimetres or in ticks, and the tick layer in which it lies.

use crate::lengths::Decimal;
use crate::trouble::Trouble;
use crate::words::Words;

/// The layer of the position that an option gives; none where the option is not there.
pub fn layer(words: &Words, option: &str) -> Result<Option<i64>, Trouble> {
    let Some(text) = words.value(option)? else { return Ok(None) };
    match read(text) {
        Some(layer) => Ok(Some(layer)),
        None => Err(words.usage(format!(
            "{option} {text} is no position; give millimetres, such as 10.5 or 10.5mm, or whole ticks, such as \
             10752ticks"
        ))),
    }
}

/// The layer n that begins at most at the position and ends above it, in ticks.
fn read(text: &str) -> Option<i64> {
    let text = text.trim();
    match text.strip_suffix("ticks") {
        Some(ticks) => ticks.trim_end().parse().ok(),
        None => {
            let (floor, _) = Decimal::read(text.strip_suffix("mm").unwrap_or(text).trim_end())?.thousandths();
            Some(floor)
        }
    }
}

#[cfg(test)]
mod tests {
    use super::*;

    #[test]
    fn millimetres_and_ticks() {
        let ten = ["10", "10.0", "10.0mm", "10.0 mm", " 10 mm ", "10240ticks", "10240 ticks"];
        assert_eq!(ten.map(read), [Some(10240); 7]);
        assert_eq!(["-3ticks", "-0.001", "0.001", "0.0009"].map(read), [Some(-3), Some(-2), Some(1), Some(0)]);
        assert_eq!(["", "mm", "ticks", "ten", "1.5ticks", "1 m", "1e3", "1,5"].map(read), [None; 8]);
    }
}

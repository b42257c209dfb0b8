//! Lengths as planners write them, millimetres or ticks of 1/1024 mm, and numbers as they are printed. All is exact: a
//! decimal is read digit by digit, and no double stands between.

use std::cmp::Ordering;

/// The ticks of a millimetre; a level's counts are as many to the unit.
pub const TICKS: i64 = 1024;

/// A decimal number as it was written: numerator / 10^places.
#[derive(Clone, Copy, Debug, PartialEq)]
pub struct Decimal {
    numerator: i128,
    places: u32,
}

impl Decimal {
    /// Reads a minus or none, digits, and at most one point with digits behind it.
    pub fn read(text: &str) -> Option<Self> {
        let (minus, digits) = text.strip_prefix('-').map_or((false, text), |rest| (true, rest));
        let (whole, part) = digits.split_once('.').unwrap_or((digits, "0"));
        let all = |digits: &str| !digits.is_empty() && digits.bytes().all(|b| b.is_ascii_digit());
        if !all(whole) || !all(part) || whole.len() + part.len() > 24 {
            return None;
        }
        let numerator: i128 = format!("{whole}{part}").parse().ok()?;
        Some(Self { numerator: if minus { -numerator } else { numerator }, places: part.len() as u32 })
    }

    /// The number times 1024, rounded down, and whether nothing was cut off.
    pub fn thousandths(self) -> (i64, bool) {
        let scale = 10_i128.pow(self.places);
        let scaled = self.numerator * i128::from(TICKS);
        let floor = scaled.div_euclid(scale).clamp(i64::MIN.into(), i64::MAX.into());
        (floor as i64, scaled.rem_euclid(scale) == 0)
    }
}

/// n/1024 as an exact decimal: `10.5`, `-0.0009765625`.
pub fn decimal(n: i64) -> String {
    decimal_over(n, 10)
}

/// n/2^bits as an exact decimal, for up to 38 bits.
pub fn decimal_over(n: i64, bits: u32) -> String {
    let minus = if n < 0 { "-" } else { "" };
    let (whole, rest) = (n.unsigned_abs() >> bits, n.unsigned_abs() % (1 << bits));
    // 1/2^bits is 5^bits / 10^bits.
    let part = format!("{:0width$}", u128::from(rest) * 5_u128.pow(bits), width = bits as usize);
    match part.trim_end_matches('0') {
        "" => format!("{minus}{whole}"),
        part => format!("{minus}{whole}.{part}"),
    }
}

/// `10.5 mm`.
pub fn mm(ticks: i64) -> String {
    format!("{} mm", decimal(ticks))
}

/// A whole number with commas: `480,000`.
pub fn grouped(number: u64) -> String {
    let digits = number.to_string();
    let first = digits.len() % 3;
    let (head, rest) = digits.split_at(first);
    let mut groups: Vec<&str> = if head.is_empty() { Vec::new() } else { vec![head] };
    groups.extend((0..rest.len() / 3).map(|i| &rest[3 * i..3 * i + 3]));
    groups.join(",")
}

/// So many of a thing: `1 cell`, `1,200 cells`.
pub fn counted(count: u64, what: &str) -> String {
    format!("{} {what}{}", grouped(count), if count == 1 { "" } else { "s" })
}

/// A share in per cent with two digits behind the point, rounded to nearest; `<0.01 %` and `>99.99 %` where it would
/// look like none or all.
pub fn per_cent(share: u64, whole: u64) -> String {
    let (share, whole) = (u128::from(share), u128::from(whole.max(1)));
    match ((share * 20_000 + whole) / (2 * whole), share.cmp(&0), share.cmp(&whole)) {
        (0, Ordering::Greater, _) => "<0.01 %".into(),
        (10_000, _, Ordering::Less) => ">99.99 %".into(),
        (n, _, _) => format!("{}.{:02} %", n / 100, n % 100),
    }
}

/// A volume of tick cubes in cubic millimetres, to three digits behind the point, rounded to nearest.
pub fn cubic_mm(cubes: u64) -> String {
    let n = (u128::from(cubes) * 1000 + (1 << 29)) >> 30;
    format!("{}.{:03} mm³", grouped((n / 1000) as u64), n % 1000)
}

#[cfg(test)]
mod tests {
    use super::*;

    #[test]
    fn decimals_digit_by_digit() {
        let read = |text: &str| Decimal::read(text).map(Decimal::thousandths);
        assert_eq!(read("10"), Some((10240, true)));
        assert_eq!(read("10.5"), Some((10752, true)));
        assert_eq!(read("-0.0009765625"), Some((-1, true)));
        assert_eq!(read("10.3"), Some((10547, false)));
        assert_eq!(read("-10.3"), Some((-10548, false)));
        assert_eq!(read("0.00000000000000000000001"), Some((0, false)));
        assert_eq!(read("99999999999999999999999"), Some((i64::MAX, true)));
        for text in ["", "-", ".5", "5.", "1.2.3", "+1", "1e3", "1,5", "- 1", "0000000000000000000000001"] {
            assert_eq!(read(text), None, "{text}");
        }
    }

    #[test]
    fn a_decimal_is_printed_as_it_is_read() {
        for n in [0, 1, -1, 512, -10240, 10547, 1 << 20, -(1 << 20), 12_345_678] {
            assert_eq!(Decimal::read(&decimal(n)).unwrap().thousandths(), (n, true));
        }
        assert_eq!((decimal(10752), mm(-1)), ("10.5".into(), "-0.0009765625 mm".into()));
        assert_eq!([-1, 2048, 3072].map(|n| decimal_over(n, 11)), ["-0.00048828125", "1", "1.5"]);
    }

    #[test]
    fn numbers_for_reading() {
        assert_eq!([0, 12, 123, 1234, 1_234_567].map(grouped), ["0", "12", "123", "1,234", "1,234,567"]);
        assert_eq!([0, 1, 1200].map(|count| counted(count, "cell")), ["0 cells", "1 cell", "1,200 cells"]);
        let of = |share| per_cent(share, 100_000);
        assert_eq!(
            [0, 1, 10, 50_000, 99_999, 100_000].map(of),
            ["0.00 %", "<0.01 %", "0.01 %", "50.00 %", ">99.99 %", "100.00 %"]
        );
        assert_eq!(per_cent(1 << 62, 1 << 63), "50.00 %");
        assert_eq!(per_cent(0, 0), "0.00 %");
        assert_eq!([0, 1 << 29, 1234 << 30].map(cubic_mm), ["0.000 mm³", "0.500 mm³", "1,234.000 mm³"]);
        assert_eq!(cubic_mm(1 << 63), "8,589,934,592.000 mm³");
    }
}

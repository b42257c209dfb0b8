//! The smallest request that still shows a thing: fewest entries that are not zero, then the smallest ones.

use crate::entries::{FROM, GRADE_AXIS, LOWEST_AXIS, TO};
use crate::walk;
use request::{LayerRequest, Request};

/// What makes one request smaller than another.
pub type Size = (usize, u128);

/// A request that can be made smaller, place by place.
pub trait Shrink: Clone {
    fn size(&self) -> Size;

    fn places(&self) -> usize;

    /// Requests that differ from this one in one place, and may be asked.
    fn variants(&self, place: usize) -> Vec<Self>;
}

/// The size of all numbers: how many are not zero, and the sum of their sizes.
fn total(numbers: impl Iterator<Item = (bool, u128)>) -> Size {
    numbers.fold((0, 0), |(count, sum), (some, size)| (count + usize::from(some), sum + size))
}

/// Whether a whole number is not zero, and its size.
fn whole_size(n: i64) -> (bool, u128) {
    (n != 0, 2 * u128::from(n.unsigned_abs()) + u128::from(n < 0))
}

/// Few significant bits and an exponent near zero are small; what is not finite is not.
fn double_size(v: f64) -> u128 {
    let sign = u128::from(v.is_sign_negative());
    if v == 0.0 {
        return sign;
    }
    if !v.is_finite() {
        return (1 << 20) + 2 * u128::from(v.is_nan()) + sign;
    }
    let places = 52 - (v.to_bits() | 1 << 52).trailing_zeros();
    let exponent = (v.to_bits() >> 52 & 0x7FF) as i32 - 1023;
    2 * u128::from(1 + places + exponent.unsigned_abs()) + sign
}

/// The lowest-axis rule, which does not look at the description, is plainer than the other, and either than none.
fn rule_size(rule: u32) -> (bool, u128) {
    match rule {
        LOWEST_AXIS => whole_size(0),
        GRADE_AXIS => whole_size(1),
        other => whole_size(other.into()),
    }
}

impl Shrink for Request {
    fn size(&self) -> Size {
        let whole = self.description.iter().chain(self.whole()).map(|n| whole_size(*n));
        let doubles = self.doubles().iter().map(|v| (*v != 0.0, double_size(*v)));
        let last = [self.piece.into(), self.depth, self.table as i64].map(whole_size);
        let last = last.into_iter().chain([rule_size(self.rule)]);
        total(whole.chain(doubles).chain(last))
    }

    fn places(&self) -> usize {
        PLACES
    }

    /// A smaller box may be a larger walk, which is not asked for.
    fn variants(&self, place: usize) -> Vec<Self> {
        variants(self, place).into_iter().filter(|smaller| walk::most_cells(smaller) <= 1 << 12).collect()
    }
}

/// The 32-bit numbers of a table; what is left of one at its end is none.
fn numbers(table: &[u8]) -> impl Iterator<Item = i64> {
    table.chunks_exact(4).map(|bytes| i32::from_le_bytes(bytes.try_into().expect("4 bytes")).into())
}

/// A table with a number in another's place.
fn with_number(table: &[u8], place: usize, number: i64) -> Vec<u8> {
    let mut table = table.to_vec();
    table[4 * place..][..4].copy_from_slice(&(number as i32).to_le_bytes());
    table
}

/// The ends of the run, the report's length and the table's, then the numbers of the table.
impl Shrink for LayerRequest {
    fn size(&self) -> Size {
        let lengths = [self.report, self.table.len()].map(|length| length as i64);
        total([self.low, self.high].into_iter().chain(lengths).chain(numbers(&self.table)).map(whole_size))
    }

    fn places(&self) -> usize {
        4 + self.table.len() / 4
    }

    fn variants(&self, place: usize) -> Vec<Self> {
        let lengths = |length: usize| smaller(length as i64).into_iter().filter_map(|n| usize::try_from(n).ok());
        match place {
            0 => smaller(self.low).into_iter().map(|low| Self { low, ..self.clone() }).collect(),
            1 => smaller(self.high).into_iter().map(|high| Self { high, ..self.clone() }).collect(),
            2 => lengths(self.report).map(|report| Self { report, ..self.clone() }).collect(),
            3 => {
                let shorter = lengths(self.table.len()).filter_map(|length| self.table.get(..length));
                shorter.map(|table| Self { table: table.to_vec(), ..self.clone() }).collect()
            }
            // A shorter table has fewer.
            _ => match numbers(&self.table).nth(place - 4) {
                Some(number) => {
                    let tables = smaller(number).into_iter().map(|n| with_number(&self.table, place - 4, n));
                    tables.map(|table| Self { table, ..self.clone() }).collect()
                }
                None => Vec::new(),
            },
        }
    }
}

/// Numbers nearer to zero, the nearest first.
fn smaller(n: i64) -> Vec<i64> {
    let mut out = vec![0, 1];
    out.extend((1..63).map(|k| n - n / (1 << k)).filter(|m| *m != n));
    out.extend(n.checked_neg());
    out.push(n.saturating_sub(n.signum()));
    out
}

fn simpler(v: f64) -> Vec<f64> {
    let mut out = vec![0.0, 1.0, v.trunc(), v.abs(), v / 2.0, v * 2.0];
    out.extend([0.5, 0.75, 0.875].map(|part| v.abs().powf(part)));
    // With fewer places, down and up.
    let kept = |bits: u32| f64::from_bits(v.to_bits() & !((1 << bits) - 1));
    let above = |bits: u32| f64::from_bits((v.to_bits() | ((1 << bits) - 1)).wrapping_add(1));
    out.extend((0..=52).rev().flat_map(|bits| [kept(bits), above(bits)]));
    if v.is_nan() {
        out.push(f64::INFINITY);
    }
    out
}

/// The places that are made smaller, one after the other.
const WHOLE: usize = 18;
const DOUBLES: usize = WHOLE + 6;
const PIECE: usize = DOUBLES + 18;
const DEPTH: usize = PIECE + 1;
const RULE: usize = DEPTH + 1;
const TABLE: usize = RULE + 1;
const ANCHORS: usize = TABLE + 1;
const BOUNDS: usize = ANCHORS + 3;
const LONGEST: usize = BOUNDS + 3;
const INTERVALS: usize = LONGEST + 1;
const PLACES: usize = INTERVALS + 9;

fn with(request: &Request, edit: impl FnOnce(&mut Request)) -> Request {
    let mut out = *request;
    edit(&mut out);
    out
}

/// Two whole numbers moved together, so that the first is 0.
fn moved(a: &mut i64, b: &mut i64) {
    *b = b.saturating_sub(*a);
    *a = 0;
}

/// The longest spans made shorter together, so that they tie as before.
fn shorter(r: &Request) -> Vec<Request> {
    let spans = [0, 1, 2].map(|i| r.whole[3 + i].saturating_sub(r.whole[i]));
    let longest = spans.into_iter().fold(0, i64::max);
    let with_span = |span: i64| {
        let mut out = *r;
        for i in (0..3).filter(|i| spans[*i] == longest) {
            out.whole[3 + i] = r.whole[i].saturating_add(span);
        }
        out
    };
    smaller(longest).into_iter().map(with_span).collect()
}

/// Requests that differ from this one in one place, or in all that tie.
fn variants(r: &Request, place: usize) -> Vec<Request> {
    match place {
        0..WHOLE => smaller(r.description[place]).into_iter().map(|n| with(r, |r| r.description[place] = n)).collect(),
        WHOLE..DOUBLES => {
            smaller(r.whole[place - WHOLE]).into_iter().map(|n| with(r, |r| r.whole[place - WHOLE] = n)).collect()
        }
        DOUBLES..PIECE => simpler(r.doubles[place - DOUBLES])
            .into_iter()
            .map(|v| with(r, |r| r.doubles[place - DOUBLES] = v))
            .collect(),
        PIECE => (0..r.piece.min(4)).map(|n| with(r, |r| r.piece = n)).collect(),
        DEPTH => smaller(r.depth).into_iter().map(|n| with(r, |r| r.depth = n)).collect(),
        RULE => [LOWEST_AXIS, GRADE_AXIS, 2].map(|rule| with(r, |r| r.rule = rule)).to_vec(),
        TABLE => {
            let lengths = smaller(r.table as i64).into_iter().filter_map(|n| usize::try_from(n).ok());
            lengths.map(|n| with(r, |r| r.table = n)).collect()
        }
        ANCHORS..BOUNDS => {
            let i = place - ANCHORS;
            let anchors = |r: &mut Request| {
                let (from, to) = r.description.split_at_mut(TO);
                moved(&mut from[FROM + i], &mut to[i]);
            };
            vec![with(r, anchors)]
        }
        BOUNDS..LONGEST => {
            let i = place - BOUNDS;
            let bounds = |r: &mut Request| {
                let (low, high) = r.whole.split_at_mut(3);
                moved(&mut low[i], &mut high[i]);
            };
            vec![with(r, bounds)]
        }
        LONGEST => shorter(r),
        _ => {
            let i = 2 * (place - INTERVALS);
            [0.0, 1.0, r.doubles[i], r.doubles[i + 1]].map(|v| with(r, |r| r.doubles[i..i + 2].fill(v))).to_vec()
        }
    }
}

/// The smallest request found from this one on which `still` holds.
pub fn shrink<R: Shrink>(request: R, still: impl Fn(&R) -> bool) -> R {
    let mut best = request;
    loop {
        let before = best.size();
        for place in 0..best.places() {
            let mut candidates = best.variants(place).into_iter();
            let smaller = candidates.find(|smaller| smaller.size() < best.size() && still(smaller));
            best = smaller.unwrap_or(best);
        }
        if best.size() == before {
            return best;
        }
    }
}

#[cfg(test)]
mod tests {
    use super::*;
    use crate::{added, layer_cases, layers, tables};
    use request::{Call, LAYER};

    #[test]
    fn finds_the_limit() {
        let line = "graded 7001 0 1 55 9 9 12345 9 9 -201 211 77 0 0 0 0 0 0";
        let request = line.parse().unwrap();
        assert_eq!(added::refusal(&request), None);
        let rises = |d: &[i64]| d[2] == 1 && d[10] > d[9] + 3;
        let still = |r: &Request| added::refusal(r).is_none() && rises(&r.description);
        let least = shrink(request, still).to_string();
        assert_eq!(least, "graded 1 0 1 0 0 0 40 0 0 0 4 1 0 0 0 0 0 0");
    }

    #[test]
    fn finds_the_least_sound_table_of_three_cells() {
        let request = layer_cases::named().swap_remove(0);
        let least = shrink(request, |r| layers::answer(r).refused().is_none());
        assert_eq!((least.low, least.high, least.report), (0, 1, LAYER));
        let cube = (1, [0, 0, 0, 1, 1, 1]);
        assert_eq!(least.table, tables::bytes(&tables::chained(&[cube; 3])));
    }

    /// The lowest-axis rule where either shows the thing, and the least number where a rule that is none does.
    #[test]
    fn finds_the_plainest_rule() {
        let request: Request = "walk 10240 0 0 0 0 0 0 0 0 0 0 1 0 0 0 0 0 0 0 0 0 5 5 5 3 0 64".parse().unwrap();
        let least = |rule, still: fn(&Request) -> bool| shrink(Request { rule, ..request }, still).rule;
        let accepted = |r: &Request| added::refusal(r).is_none();
        assert_eq!(least(GRADE_AXIS, accepted), LOWEST_AXIS);
        assert_eq!(least(u32::MAX, |r| r.description[0] == 10240), LOWEST_AXIS);
        assert_eq!(least(GRADE_AXIS, |r| r.rule != LOWEST_AXIS), GRADE_AXIS);
        assert_eq!(least(u32::MAX, |r| added::refusal(r) == Some(1) && r.whole == [0, 0, 0, 5, 5, 5]), 2);
    }

    /// The two rules cut a box otherwise where the grade axis ties, so the spans that tie grow smaller together.
    #[test]
    fn finds_the_least_tie() {
        if !reference::AT_HAND {
            return;
        }
        let line = "walk 10240 0 1 7 7 -5120 7 7 5120 -250 250 1 0 0 0 0 0 0 -700 -700 -700 700 700 700 5 0 65536";
        let otherwise = |r: &Request| {
            let answer = |rule| walk::answer(&Request { rule, ..*r });
            answer(GRADE_AXIS).refused().is_none() && !answer(GRADE_AXIS).same(&answer(LOWEST_AXIS))
        };
        let least = shrink(line.parse().unwrap(), otherwise).to_string();
        assert_eq!(least, "walk 1 0 1 0 0 0 0 0 10 0 1 1 0 0 0 0 0 0 0 0 0 1 2 2 1 1 96");
    }

    #[test]
    fn finds_small_doubles() {
        let mut request = Request::new(Call::Jet, crate::entries::PLAIN);
        request.doubles[..6].copy_from_slice(&[1.7e13, 1.8e13, -3.3, 2.1, 0.1, 0.2]);
        let still = |r: &Request| added::refusal(r) == Some(10);
        let least = shrink(request, still);
        assert_eq!(least.doubles()[..6], [0.0, 2.0_f64.powi(41), 0.0, 0.0, 0.0, 0.0]);
    }
}

//! The fixed list of the original's answers, and of document 02's, that the program `replay` reads, as bytes.
//! crates/replay/src/public_calls.rt says how.

use crate::chance::Chance;
use crate::entries::*;
use crate::{added, cases, descriptions};
use request::{Answer, Call, Description, Request, Shape, Value};

const SEED: u64 = 1;
/// Descriptions of either surface that are accepted, and others, some of which are refused.
const ACCEPTED: u64 = 84;
const OTHERS: u64 = 40;
/// Requests of each call about an accepted description.
const REQUESTS: u64 = 4;

/// The calls by their number in the list, from 1 on; 0 is the description.
const CALLS: [Call; 16] = [
    Call::Graded,
    Call::Saturated,
    Call::Planes,
    Call::Curvature,
    Call::Lipschitz,
    Call::GradeRange,
    Call::LevelPiece,
    Call::Jet,
    Call::AffineJet,
    Call::Derivatives,
    Call::Residual,
    Call::AffineResidual,
    Call::BoxState,
    Call::FacetResidual,
    Call::Fast,
    Call::FastDistance,
];

/// A whole number's word, or nothing where it has none.
pub fn whole(n: i128) -> Option<u64> {
    let word = n.checked_add(1 << 62)?;
    u64::try_from(word).ok().filter(|word| *word < 1 << 63)
}

fn double(v: f64) -> u64 {
    if v.is_nan() { f64::NAN.to_bits() } else { v.to_bits() }
}

/// Document 01's denominator of a range: the anchors' squared distance, or 1 for a constant.
fn denominator(d: &Description) -> i128 {
    if d[LEVEL_KIND] != LINEAR || d[START] == d[END] {
        return 1;
    }
    (0..3).map(|i| i128::from(d[TO + i] - d[FROM + i]).pow(2)).sum()
}

/// The numerator of a fraction over another denominator; nothing where that is no whole number.
fn over(value: &Value, denominator: i128) -> Option<i128> {
    let Value::Fraction(n, d) = value else { return None };
    (n * denominator % d == 0).then_some(n * denominator / d)
}

/// The words of a range: two numerators, then their denominator.
fn range(request: &Request, bounds: &[Value]) -> Option<Vec<u64>> {
    let denominator = denominator(&request.description);
    let mut numbers: Vec<i128> = bounds.iter().map(|bound| over(bound, denominator)).collect::<Option<_>>()?;
    numbers.push(denominator);
    numbers.into_iter().map(whole).collect()
}

fn value(value: &Value) -> Option<u64> {
    match *value {
        Value::Double(v) => Some(double(v)),
        Value::Number(n) => whole(n.into()),
        Value::Fraction(n, 1) => whole(n),
        Value::Fraction(..) => None,
    }
}

fn values(request: &Request, found: &[Value]) -> Option<Vec<u64>> {
    match request.call {
        Call::GradeRange => range(request, found),
        _ => found.iter().map(value).collect(),
    }
}

/// The status and the words of an answer.
fn answered(request: &Request, answer: &Answer) -> Option<(u8, Vec<u64>)> {
    match answer {
        Answer::Found(found) => Some((0, values(request, found)?)),
        Answer::None => Some((100, Vec::new())),
        Answer::Refused(n) => Some((u8::try_from(*n).ok()?, Vec::new())),
        Answer::Walked(_) | Answer::Reported(_) => None,
        Answer::Panicked | Answer::Unmade | Answer::Unavailable => None,
    }
}

/// The original's answer or document 02's, or the refusal that document 01 adds.
fn expected(request: &Request) -> Answer {
    added::added(request).map_or_else(|| reference::answer(request), Answer::Refused)
}

fn head(bytes: [u8; 5]) -> [u8; 8] {
    let [call, given, answers, status, piece] = bytes;
    [call, given, answers, status, piece, 0, 0, 0]
}

fn bytes(head: [u8; 8], words: &[u64]) -> Vec<u8> {
    head.into_iter().chain(words.iter().flat_map(|word| word.to_le_bytes())).collect()
}

/// The case of a description; nothing where an entry has no word.
fn description(d: &Description) -> Option<Vec<u8>> {
    let words: Vec<u64> = d.iter().map(|n| whole((*n).into())).collect::<Option<_>>()?;
    Some(bytes(head([0, 18, 0, 0, 0]), &words))
}

/// The case of a request; nothing where it or its answer has no words.
fn case(number: u8, request: &Request) -> Option<Vec<u8>> {
    let given = request.whole().iter().map(|n| whole((*n).into()));
    let given = given.chain(request.doubles().iter().map(|v| Some(double(*v))));
    let mut words: Vec<u64> = given.collect::<Option<_>>()?;
    let taken = words.len() as u8;
    let (status, values) = answered(request, &expected(request))?;
    let piece = u8::try_from(request.piece).ok()?;
    let head = head([number, taken, values.len() as u8, status, piece]);
    words.extend(values);
    Some(bytes(head, &words))
}

/// Requests of every call about a description.
fn about(c: &mut Chance, d: &Description, requests: u64, out: &mut Vec<u8>) {
    let Some(entries) = description(d) else { return };
    out.extend(entries);
    for (number, call) in (1..).zip(CALLS) {
        let arguments = call.shape().whole() + call.shape().doubles() > 0;
        for _ in 0..if arguments { requests } else { 1 } {
            out.extend(case(number, &cases::about(c, call, *d)).unwrap_or_default());
        }
    }
}

/// Every kind, one less and one more: the same request of every call.
fn kinds(out: &mut Vec<u8>) {
    for kind in limits(KIND).start() - 1..=limits(KIND).end() + 1 {
        let mut d = PLAIN;
        d[KIND] = kind;
        about(&mut Chance::new(SEED, 2, 0), &d, 1, out);
    }
}

/// Either surface at every level from which one of them saturates and beside it: the calls that take a description alone.
fn saturation(out: &mut Vec<u8>) {
    let levels = SATURATED.map(|(_, level)| [level - 1, level, level + 1]);
    for level in levels.as_flattened().iter().flat_map(|level| [*level, -level]) {
        for (kind, _) in SATURATED {
            let mut d = PLAIN;
            (d[KIND], d[START]) = (kind, level);
            about(&mut Chance::new(SEED, 2, 0), &d, 0, out);
        }
    }
}

/// Every call that takes a box of doubles, about one with x in these ends and y, z from 0 to this; of either surface.
fn boxed(d: Description, [low, high]: [f64; 2], other: f64, out: &mut Vec<u8>) {
    for d in [d, primitive(d)] {
        out.extend(description(&d).unwrap_or_default());
        for (number, call) in (1..).zip(CALLS) {
            if matches!(call.shape(), Shape::World | Shape::WorldPiece) {
                let mut request = Request::new(call, d);
                request.doubles[..6].copy_from_slice(&[low, high, 0.0, other, 0.0, other]);
                out.extend(case(number, &request).unwrap_or_default());
            }
        }
    }
}

/// Where exact sums show: the boxes of document 01's listing, whose half-widths are exact; one that has a rounded half-width; and
/// marked G close before its start plane, where a box has its piece from seven of the least doubles on. It would have it from eight
/// on if every sum were stepped.
fn exact_sums(out: &mut Vec<u8>) {
    let (mut listing, mut marked) = (PLAIN, PLAIN);
    listing[START] = 2048;
    (marked[LEVEL_KIND], marked[TO], marked[START], marked[END]) = (LINEAR, 10240, -RAMP, RAMP);
    for x in [[0.0, 1.0], [0.0, 0.5], [0.1, 1.0]] {
        boxed(listing, x, 1.0, out);
    }
    for least_doubles in 6..=8 {
        boxed(marked, [-1.0 / 1024.0, -f64::from_bits(least_doubles)], 0.0, out);
    }
}

/// The list.
pub fn list() -> Vec<u8> {
    let mut out = Vec::new();
    kinds(&mut out);
    saturation(&mut out);
    for index in 0..ACCEPTED {
        let c = &mut Chance::new(SEED, 0, index);
        let d = descriptions::accepted(c);
        about(c, &d, REQUESTS, &mut out);
    }
    for index in 0..OTHERS {
        let c = &mut Chance::new(SEED, 1, index);
        let d = descriptions::description(c);
        about(c, &d, 1, &mut out);
    }
    exact_sums(&mut out);
    out
}

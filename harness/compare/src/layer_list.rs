//! The fixed list of layer reports that the program `replay` reads, as bytes: a case begins with five words, whole numbers
//! as 2^62 more than themselves: low, high, the bytes of the table, those of the report, the status. The table's bytes
//! follow, then zeros up to a whole word; then the report's bytes after the call, and such zeros.

use crate::list::whole;
use crate::{layer_cases, layer_chances, layers};
use request::{Answer, LayerRequest};

const SEED: u64 = 1;
/// The longest table and the longest report of a case.
const LONGEST: usize = 4096;
/// Reports by chance.
const CHANCES: usize = 150;

/// What a report takes, as words; nothing where a number has none, or where the case is too long.
fn words(request: &LayerRequest) -> Option<Vec<u64>> {
    let lengths = [request.table.len(), request.report];
    let ends = [request.low, request.high];
    let fits = lengths.iter().all(|length| *length <= LONGEST) && ends.iter().all(|end| end.unsigned_abs() <= 1 << 61);
    let numbers = ends.map(i128::from).into_iter().chain(lengths.map(|length| length as i128));
    numbers.map(whole).collect::<Option<_>>().filter(|_| fits)
}

/// The case of a report; nothing where it has none.
fn case(request: &LayerRequest) -> Option<Vec<u8>> {
    let mut words = words(request)?;
    let Answer::Reported(reported) = layers::answer(request) else { unreachable!("a layer report") };
    words.push(whole(reported.status.into())?);
    let mut bytes: Vec<u8> = words.iter().flat_map(|word| word.to_le_bytes()).collect();
    for part in [reported.table, reported.report] {
        bytes.extend(part);
        bytes.resize(bytes.len().next_multiple_of(8), 0);
    }
    Some(bytes)
}

/// The cases: what is named, and some by chance.
fn cases() -> Vec<Vec<u8>> {
    let named = layer_cases::named();
    let chances = (0..).map(|index| layer_chances::by_chance(SEED, index));
    named.iter().filter_map(case).chain(chances.filter_map(|request| case(&request)).take(CHANCES)).collect()
}

/// The list.
pub fn list() -> Vec<u8> {
    cases().concat()
}

#[cfg(test)]
mod tests {
    use super::*;
    use std::collections::BTreeMap;

    fn word(case: &[u8], i: usize) -> i64 {
        u64::from_le_bytes(case[8 * i..][..8].try_into().unwrap()) as i64 - (1 << 62)
    }

    #[test]
    fn every_status_comes_up() {
        let mut statuses = BTreeMap::<i64, u32>::new();
        for case in cases() {
            *statuses.entry(word(&case, 4)).or_default() += 1;
        }
        for number in [0, 15, 16, 17] {
            assert!(statuses.get(&number) > Some(&20), "{number}: {statuses:?}");
        }
    }

    #[test]
    fn a_case_is_words_and_then_the_table_and_the_report() {
        let line = "layers -1 1 55 0100000001000000000000000000000000000000000000000000000000000000\
                    0000000001000000000000000000000000000000020000000300000001000000FF";
        let request: LayerRequest = line.parse().unwrap();
        let case = case(&request).unwrap();
        assert_eq!([0, 1, 2, 3, 4].map(|i| word(&case, i)), [-1, 1, 65, 55, 0]);
        assert_eq!(case[40..][..72], [request.table.clone(), vec![0; 7]].concat());
        assert_eq!(case[112..].len(), 56);
        assert_eq!(case[112 + 24..][..9], [6, 0, 0, 0, 0, 0, 0, 0, 0]);
        assert!(super::case(&LayerRequest { report: LONGEST + 1, ..request.clone() }).is_none());
        assert!(super::case(&LayerRequest { high: (1 << 61) + 1, ..request }).is_none());
    }
}

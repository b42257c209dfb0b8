//! The walk of documents 01 and 02 in plain Rust over the original's box state, which is all that the original has of it;
//! for the primitive surface over document 02's. It makes one pass: a cell is written as the walk comes to it, with the
//! number of halvings that led to it.

use crate::added;
use crate::entries::*;
use reference::Leaf;
use request::{Answer, Description, Request, SLOT, Walked, unwritten};

/// A box of whole ticks: three lows, then three highs.
pub type Bounds = [i64; 6];

const INSIDE: u8 = 1;
const UNSETTLED: u8 = 3;

pub fn spans(bounds: &Bounds) -> [i64; 3] {
    [0, 1, 2].map(|i| bounds[3 + i] - bounds[i])
}

/// The tick cubes in a box: up to 2^63, one more than a signed number holds.
pub fn volume(bounds: &Bounds) -> u64 {
    spans(bounds).map(i64::unsigned_abs).iter().product()
}

/// "The axis of a level of kind 1 with unequal ends": the one on which its anchors differ. No other level has one.
fn grade_axis(d: &Description) -> Option<usize> {
    let graded = d[LEVEL_KIND] == LINEAR && d[START] != d[END];
    (0..3).find(|axis| graded && d[FROM + axis] != d[TO + axis])
}

/// The axis that a walk by this rule takes where it is among those that tie; "otherwise the lowest".
fn preferred(request: &Request) -> Option<usize> {
    match request.rule {
        GRADE_AXIS => grade_axis(&request.description),
        LOWEST_AXIS => None,
        other => unreachable!("rule {other} is refused"),
    }
}

/// "Halve the longest span .. at low + span div 2; lower half first." Of the axes that have it the preferred one is
/// taken if it is among them, otherwise the lowest. A tick cube has no halves.
fn halves(bounds: &Bounds, preferred: Option<usize>) -> Option<[Bounds; 2]> {
    let spans = spans(bounds);
    let longest = *spans.iter().max()?;
    let axis = preferred.into_iter().chain(0..3).find(|axis| spans[*axis] == longest)?;
    let [mut lower, mut upper] = [*bounds; 2];
    upper[axis] += longest / 2;
    lower[3 + axis] = upper[axis];
    (longest > 1).then_some([lower, upper])
}

/// What all boxes of a walk share.
struct Walk<'a> {
    leaf: &'a Leaf,
    preferred: Option<usize>,
    /// No box stands at a greater depth.
    limit: i64,
}

impl<'a> Walk<'a> {
    fn new(leaf: &'a Leaf, request: &Request) -> Self {
        Self { leaf, preferred: preferred(request), limit: request.depth }
    }

    /// Gives every cell of a box to `cell`, with its state and its depth, in walk order, until that answers false, and
    /// then looks at no further box. The box itself stands at `depth`, and a half at one more than its box. Answers how
    /// many boxes were evaluated; nothing where it was stopped.
    fn cells(&self, bounds: &Bounds, depth: u8, cell: &mut impl FnMut(u8, u8, &Bounds) -> bool) -> Option<u32> {
        let state = self.leaf.state(bounds) as u8;
        let deeper = state == UNSETTLED && i64::from(depth) < self.limit;
        let halves = if deeper { halves(bounds, self.preferred) } else { None };
        match halves {
            Some([lower, upper]) => {
                let lower = self.cells(&lower, depth + 1, cell)?;
                Some(1 + lower + self.cells(&upper, depth + 1, cell)?)
            }
            None => cell(state, depth, bounds).then_some(1),
        }
    }
}

/// Writes numbers one after the other, little endian.
fn put<const N: usize>(table: &mut [u8], at: usize, numbers: impl IntoIterator<Item = [u8; N]>) {
    for (i, number) in numbers.into_iter().enumerate() {
        table[at + N * i..][..N].copy_from_slice(&number);
    }
}

/// Writes a cell to its slot, naming the slot after it as the next; false where the table has no such slot.
/// "The state word becomes four bytes: state, depth, and two zeros."
fn put_cell(table: &mut [u8], slot: u32, state: u8, depth: u8, bounds: &Bounds) -> bool {
    let Some(cell) = table.chunks_exact_mut(SLOT).nth(slot as usize) else { return false };
    put(cell, 0, [(slot + 1).to_le_bytes(), [state, depth, 0, 0]]);
    put(cell, 8, bounds.map(|end| (end as i32).to_le_bytes()));
    true
}

/// Walks an accepted box and leaves its table; the status: 0, or 13 where the room is too small. "Let the walk write as it
/// goes and zero the whole table when the cells outgrow it".
pub fn fill(leaf: &Leaf, request: &Request, table: &mut [u8]) -> u32 {
    table.fill(0);
    let (mut cells, mut solid) = (0_u32, 0);
    let evaluated = Walk::new(leaf, request).cells(&request.whole, 0, &mut |state, depth, bounds| {
        cells += 1;
        solid += if state == INSIDE { volume(bounds) } else { 0 };
        put_cell(table, cells, state, depth, bounds)
    });
    let Some(evaluated) = evaluated else {
        table.fill(0);
        return 13;
    };
    // No cell follows the last.
    put(table, cells as usize * SLOT, [0_u32.to_le_bytes()]);
    put(table, 0, [1, cells, evaluated].map(u32::to_le_bytes));
    put(table, 12, [solid, volume(&request.whole) - solid].map(u64::to_le_bytes));
    0
}

/// The number of cells of a walk; nothing where it is refused, or where the original is not at hand.
pub fn cells(request: &Request) -> Option<u32> {
    if added::refusal(request).is_some() {
        return None;
    }
    let mut cells = 0;
    let leaf = Leaf::new(&request.description)?;
    Walk::new(&leaf, request).cells(&request.whole, 0, &mut |_, _, _| {
        cells += 1;
        true
    })?;
    Some(cells)
}

/// The bytes of a table that a walk's cells want; those of one cell where it is refused before it is counted.
pub fn room(request: &Request) -> usize {
    (cells(request).unwrap_or(1) as usize + 1) * SLOT
}

/// No walk of this box to this depth has more cells; one of a refused depth has none.
pub fn most_cells(request: &Request) -> u64 {
    if !(0..=24).contains(&request.depth) {
        return 0;
    }
    let cubes = (0..3).map(|i| request.whole[i].abs_diff(request.whole[3 + i]));
    let cubes = cubes.fold(1_u64, |product, span| product.saturating_mul(span));
    cubes.min(1 << request.depth)
}

/// A description that document 01 refuses is not given to the original, whose fractions need not fit beyond the limits.
pub fn answer(request: &Request) -> Answer {
    let mut table = unwritten(request.table);
    let status = match added::refusal(request) {
        Some(number) => number,
        None => match Leaf::new(&request.description) {
            Some(leaf) => fill(&leaf, request, &mut table),
            None => return Answer::Unavailable,
        },
    };
    Answer::Walked(Walked { status, table })
}

#[cfg(test)]
mod tests {
    use super::*;
    use crate::walks;
    use gyroid_cells::Table;

    const LISTING: &str = "walk 10240 0 0 0 0 0 0 0 0 2048 0 1 0 0 0 0 0 0 0 0 0 1024 1024 1024";

    fn walked(line: &str) -> Walked {
        match answer(&line.parse().unwrap()) {
            Answer::Walked(walked) => walked,
            other => panic!("{other}"),
        }
    }

    fn asked(depth: i64, length: usize) -> Walked {
        walked(&format!("{LISTING} {depth} {LOWEST_AXIS} {length}"))
    }

    #[test]
    fn listing() {
        if !reference::AT_HAND {
            return;
        }
        let said = "2 3 536870912 536870912 1 1 0 0 0 512 1024 1024 3 1 512 0 0 1024 1024 1024";
        assert_eq!(asked(1, 65536).to_string(), said);
        let numbers: [[u32; 8]; 4] = [
            [1, 2, 3, 536870912, 0, 536870912, 0, 0],
            [2, 1 + 256, 0, 0, 0, 512, 1024, 1024],
            [0, 3 + 256, 512, 0, 0, 1024, 1024, 1024],
            [0; 8],
        ];
        let bytes: Vec<u8> = numbers.as_flattened().iter().flat_map(|n| n.to_le_bytes()).collect();
        assert_eq!(asked(1, 128), Walked { status: 0, table: bytes });
    }

    #[test]
    fn room() {
        if !reference::AT_HAND {
            return;
        }
        assert_eq!(asked(1, 96).status, 0);
        assert_eq!(asked(1, 95), Walked { status: 13, table: vec![0; 95] });
        assert_eq!(asked(0, 63), Walked { status: 13, table: vec![0; 63] });
        assert_eq!(asked(25, 63), Walked { status: 12, table: unwritten(63) });
    }

    /// The program `cells` names the lowest-axis rule; a constant level has no grade axis, so the default one says the
    /// same.
    #[test]
    fn the_listing_by_either_rule() {
        assert_eq!(walked(&format!("{LISTING} 1 2 96")), Walked { status: 1, table: unwritten(96) });
        if !reference::AT_HAND {
            return;
        }
        let said = [LOWEST_AXIS, GRADE_AXIS].map(|rule| walked(&format!("{LISTING} 1 {rule} 96")));
        assert_eq!(said[0], said[1]);
    }

    /// At the first cell without a slot the walk stops: no further cell is come to, of 2^24 that are there.
    #[test]
    fn stops_where_the_table_is_full() {
        let request = walks::hopeless();
        let Some(leaf) = Leaf::new(&request.description) else { return };
        let mut come_to = 0;
        let evaluated = Walk::new(&leaf, &request).cells(&request.whole, 0, &mut |_, _, _| {
            come_to += 1;
            come_to < 100
        });
        assert_eq!((come_to, evaluated), (100, None));
    }

    /// A fraction of the stand-in overflows on this description: only what document 01 accepts is given to the
    /// original.
    #[test]
    fn a_description_beyond_the_limits_is_refused_before_the_original_sees_it() {
        let line = format!("walk 1 0 1 0 {0} 0 {0} -{0} 0 0 1 1 0 0 0 0 0 0 0 0 0 1 1 1 0 1 64", i64::MAX);
        let request: Request = line.parse().unwrap();
        let made = std::panic::catch_unwind(|| Leaf::new(&request.description).is_some());
        assert_eq!(made.is_err(), reference::AT_HAND);
        assert_eq!(walked(&line), Walked { status: 1, table: unwritten(64) });
    }

    #[test]
    fn halves_of_the_longest_span_at_its_floor() {
        let at =
            |bounds: Bounds| halves(&bounds, None).map(|[lower, upper]| (lower[3..].to_vec(), upper[..3].to_vec()));
        assert_eq!(at([0, 0, 0, 1, 1, 1]), None);
        assert_eq!(at([0, 0, 0, 1, 1, 2]), Some((vec![1, 1, 1], vec![0, 0, 1])));
        assert_eq!(at([0, 0, 0, 4, 5, 5]), Some((vec![4, 2, 5], vec![0, 2, 0])));
        assert_eq!(at([0, 0, 0, 5, 5, 5]), Some((vec![2, 5, 5], vec![2, 0, 0])));
        // −3 + 1, where (−3 + 0) div 2 would be −1.
        assert_eq!(at([-3, 0, 0, 0, 1, 1]), Some((vec![-2, 1, 1], vec![-2, 0, 0])));
    }

    /// The axis across which a box of these spans is halved.
    fn axis(spans: [i64; 3], preferred: Option<usize>) -> Option<usize> {
        let [x, y, z] = spans;
        let [lower, upper] = halves(&[0, 0, 0, x, y, z], preferred)?;
        let across: Vec<usize> = (0..3).filter(|axis| upper[*axis] != 0).collect();
        assert_eq!(lower[3 + across[0]], upper[across[0]]);
        (across.len() == 1).then_some(across[0])
    }

    #[test]
    fn ties_go_to_the_preferred_axis_if_it_is_among_them() {
        let each = [None, Some(0), Some(1), Some(2)];
        let axes = |spans| each.map(|preferred| axis(spans, preferred).unwrap());
        assert_eq!(axes([8, 8, 8]), [0, 0, 1, 2]);
        assert_eq!(axes([8, 8, 7]), [0, 0, 1, 0]);
        assert_eq!(axes([8, 7, 8]), [0, 0, 0, 2]);
        assert_eq!(axes([7, 8, 8]), [1, 1, 1, 2]);
        for (longest, spans) in [[9, 8, 8], [8, 9, 8], [8, 8, 9]].into_iter().enumerate() {
            assert_eq!(axes(spans), [longest; 4]);
        }
        assert_eq!(axis([1, 1, 1], Some(2)), None);
    }

    #[test]
    fn a_grade_axis_is_of_a_linear_level_with_unequal_ends() {
        let level = |kind, axis: usize, ends: [i64; 2]| {
            let mut d = PLAIN;
            (d[LEVEL_KIND], d[FROM + axis], d[TO + axis]) = (kind, 40, -3);
            [d[START], d[END]] = ends;
            grade_axis(&d)
        };
        for axis in 0..3 {
            assert_eq!(level(LINEAR, axis, [7, 8]), Some(axis));
            assert_eq!(level(LINEAR, axis, [7, 7]), None);
            assert_eq!(level(CONSTANT, axis, [7, 8]), None);
        }
    }

    #[test]
    fn volumes_reach_two_to_the_63() {
        let end = 1 << 20;
        assert_eq!(volume(&[-end, -end, -end, end, end, end]), 1 << 63);
    }

    /// The bindings' reader, on a table of many cells, says what this workspace's does.
    #[test]
    fn read_by_the_bindings() {
        if !reference::AT_HAND {
            return;
        }
        let walked = walked(&format!("{} 9 0 65536", LISTING.replace("2048", "0")));
        let table = Table::read(&walked.table).unwrap();
        let head = table.head();
        let mut text = format!("{} {} {} {}", head.cells, head.evaluated, head.solid, head.open);
        for cell in table.cells() {
            let bounds = cell.bounds.low.into_iter().chain(cell.bounds.high);
            let marked = format!(" {} {}", cell.state as u32, cell.depth);
            text += &bounds.fold(marked, |text, end| format!("{text} {end}"));
        }
        assert!(head.cells > 10);
        assert_eq!(text, walked.to_string());
    }
}

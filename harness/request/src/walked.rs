//! What a walk leaves: its status and its table, read as documents 01 and 02 lay it out.

use std::fmt;

/// The bytes of a slot.
pub const SLOT: usize = 32;

/// The status of a walk, 0 or the refusal's number, and every byte of its table afterwards.
#[derive(Clone, Debug, PartialEq, Eq)]
pub struct Walked {
    pub status: u32,
    pub table: Vec<u8>,
}

/// A table as it is lent: no byte is zero and none is as its neighbour, so that what is left, zeroed or moved can be told.
pub fn unwritten(length: usize) -> Vec<u8> {
    (0..length).map(|i| 1 + (i * 37 % 251) as u8).collect()
}

fn number<const N: usize>(table: &[u8], at: usize) -> Option<[u8; N]> {
    table.get(at..at + N)?.try_into().ok()
}

fn u32_at(table: &[u8], at: usize) -> Option<u32> {
    number(table, at).map(u32::from_le_bytes)
}

fn u64_at(table: &[u8], at: usize) -> Option<u64> {
    number(table, at).map(u64::from_le_bytes)
}

fn i32_at(table: &[u8], at: usize) -> Option<i32> {
    number(table, at).map(i32::from_le_bytes)
}

impl Walked {
    pub fn refused(&self) -> Option<u32> {
        (self.status != 0).then_some(self.status)
    }

    /// Cells, evaluated, solid, open.
    fn head(&self) -> Option<String> {
        let table = &self.table;
        let (cells, evaluated) = (u32_at(table, 4)?, u32_at(table, 8)?);
        let (solid, open) = (u64_at(table, 12)?, u64_at(table, 20)?);
        Some(format!("{cells} {evaluated} {solid} {open}"))
    }

    /// The next slot, then state, depth, lows, highs.
    fn cell(&self, slot: u32) -> Option<(u32, String)> {
        let at = slot as usize * SLOT;
        let next = u32_at(&self.table, at)?;
        let [state, depth] = number(&self.table, at + 4)?;
        let mut text = format!("{state} {depth}");
        for i in 0..6 {
            text += &format!(" {}", i32_at(&self.table, at + 8 + 4 * i)?);
        }
        Some((next, text))
    }

    /// The head and the cells along the chain; nothing where the chain leaves the table or does not end.
    fn text(&self) -> Option<String> {
        let mut text = self.head()?;
        let mut slot = u32_at(&self.table, 0)?;
        for _ in 0..self.table.len() / SLOT {
            if slot == 0 {
                return Some(text);
            }
            let (next, cell) = self.cell(slot)?;
            text += &format!(" {cell}");
            slot = next;
        }
        None
    }
}

impl fmt::Display for Walked {
    fn fmt(&self, f: &mut fmt::Formatter<'_>) -> fmt::Result {
        match (self.refused(), self.text()) {
            (Some(number), _) => write!(f, "refused {number}"),
            (None, Some(text)) => write!(f, "{text}"),
            (None, None) => write!(f, "a table with a broken chain"),
        }
    }
}

#[cfg(test)]
mod tests {
    use super::*;

    /// A table by its 32-bit numbers.
    fn walked(numbers: &[i32]) -> Walked {
        Walked { status: 0, table: numbers.iter().flat_map(|n| n.to_le_bytes()).collect() }
    }

    const HEAD: [i32; 8] = [2, 2, 3, 7, 0, -1, -1, 0];

    #[test]
    fn text_follows_the_chain() {
        let cells = [[0, 3 + 256 * 24, 1, 0, 0, 2, 1, 1], [1, 1, -1, 0, 0, 1, 1, 1]];
        let text = walked(&[HEAD.as_slice(), cells.as_flattened()].concat()).to_string();
        assert_eq!(text, "2 3 7 18446744073709551615 1 0 -1 0 0 1 1 1 3 24 1 0 0 2 1 1");
        assert_eq!(Walked { status: 13, ..walked(&HEAD) }.to_string(), "refused 13");
    }

    #[test]
    fn a_broken_chain_is_said() {
        let broken = "a table with a broken chain";
        assert_eq!(walked(&HEAD).to_string(), broken);
        assert_eq!(walked(&HEAD[..7]).to_string(), broken);
        let loops = [[0, 1, 0, 0, 0, 1, 1, 1], [2, 1, 0, 0, 0, 1, 1, 1]];
        assert_eq!(walked(&[HEAD.as_slice(), loops.as_flattened()].concat()).to_string(), broken);
    }

    #[test]
    fn a_lent_table_has_no_zero_and_no_two_alike() {
        let table = unwritten(1000);
        assert!(!table.contains(&0));
        assert!(table.windows(2).all(|pair| pair[0] != pair[1]));
    }
}

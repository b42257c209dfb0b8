//! Entries of 64 bits at an address of choice, to lend: the compiled library needs no alignment, and does not look at
//! the address of a slice without entries.

/// Entries that start so many bytes past an address that is a multiple of 8.
pub struct Placed {
    /// One word more than the entries take.
    words: Vec<u64>,
    offset: usize,
}

impl Placed {
    /// The offset is below 8.
    pub fn new(entries: &[u64], offset: usize) -> Self {
        assert!(offset < 8);
        let mut placed = Self { words: vec![0; entries.len() + 1], offset };
        let start = placed.words.as_mut_ptr().cast::<u8>();
        // The entries and the offset, which is below a word, fit the words.
        unsafe { start.add(offset).copy_from_nonoverlapping(entries.as_ptr().cast(), 8 * entries.len()) };
        placed
    }

    /// Where the first so many entries start; null where there are none.
    pub fn first<T>(&mut self, count: usize) -> *mut T {
        assert!(count < self.words.len());
        if count == 0 {
            return std::ptr::null_mut();
        }
        let start = self.words.as_mut_ptr().cast::<u8>();
        // Below the end, as above.
        unsafe { start.add(self.offset).cast() }
    }

    pub fn entries(&self) -> Vec<u64> {
        let bytes: Vec<u8> = self.words.iter().flat_map(|word| word.to_ne_bytes()).collect();
        let entries = bytes[self.offset..].chunks_exact(8).take(self.words.len() - 1);
        entries.map(|entry| u64::from_ne_bytes(entry.try_into().expect("8 bytes"))).collect()
    }
}

#[cfg(test)]
mod tests {
    use super::*;

    #[test]
    fn entries_stand_where_they_are_placed() {
        for offset in 0..8 {
            let mut placed = Placed::new(&[1, u64::MAX], offset);
            assert_eq!(placed.first::<u64>(2).addr() % 8, offset);
            assert!(placed.first::<u64>(0).is_null());
            assert_eq!(placed.entries(), [1, u64::MAX]);
        }
    }
}

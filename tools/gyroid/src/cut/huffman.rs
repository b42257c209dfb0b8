//! Huffman codes as deflate has them: no longer than a limit, and given by their lengths alone.

/// The lengths of the best code for symbols that occur so often; 0 where one does not occur. A symbol that is alone has
/// length 1.
///
/// This is package-merge: a symbol's length is how often it is among the cheapest 2n - 2 packages of the last round.
pub fn lengths(counts: &[u32], limit: usize) -> Vec<u8> {
    let mut lengths = vec![0; counts.len()];
    let used = (0..counts.len()).filter(|symbol| counts[*symbol] > 0);
    let mut single: Vec<(u64, Vec<usize>)> = used.map(|symbol| (u64::from(counts[symbol]), vec![symbol])).collect();
    if let [(_, alone)] = &single[..] {
        lengths[alone[0]] = 1;
        return lengths;
    }
    single.sort_by_key(|(count, _)| *count);
    let mut packages = single.clone();
    for _ in 1..limit {
        let pairs = packages.chunks_exact(2).map(|pair| (pair[0].0 + pair[1].0, [&*pair[0].1, &*pair[1].1].concat()));
        packages = single.iter().cloned().chain(pairs).collect();
        // Equals stay in their order, so that the code does not hang on the sort.
        packages.sort_by_key(|(count, _)| *count);
    }
    for (_, symbols) in packages.iter().take((2 * single.len()).saturating_sub(2)) {
        symbols.iter().for_each(|symbol| lengths[*symbol] += 1);
    }
    lengths
}

/// The codes of these lengths: shorter ones first, equal ones in the symbols' order. The bits are reversed, for deflate
/// writes a code from its highest bit on and all else from the lowest.
pub fn codes(lengths: &[u8]) -> Vec<u16> {
    let mut codes = vec![0; lengths.len()];
    let mut code = 0_u16;
    for length in 1..=15 {
        for symbol in (0..lengths.len()).filter(|symbol| lengths[*symbol] == length) {
            codes[symbol] = code.reverse_bits() >> (16 - length);
            code += 1;
        }
        code <<= 1;
    }
    codes
}

#[cfg(test)]
mod tests {
    use super::*;

    #[test]
    fn rarer_symbols_have_longer_codes() {
        assert_eq!(lengths(&[5, 0, 1, 1, 2], 15), [1, 0, 3, 3, 2]);
        assert_eq!(lengths(&[0, 9], 15), [0, 1]);
        assert_eq!(lengths(&[0, 0], 15), [0, 0]);
    }

    #[test]
    fn no_code_is_longer_than_the_limit() {
        // The counts of Fibonacci make the longest codes.
        let mut counts = vec![1_u32, 1];
        while counts.len() < 30 {
            counts.push(counts[counts.len() - 1] + counts[counts.len() - 2]);
        }
        for limit in [5, 7, 15] {
            let lengths = lengths(&counts, limit);
            assert_eq!(lengths.iter().max().map(|longest| usize::from(*longest)), Some(limit));
            // The code is complete: every string of bits begins with one of its codes.
            assert_eq!(lengths.iter().map(|length| 1 << (15 - length)).sum::<u32>(), 1 << 15);
        }
    }

    #[test]
    fn codes_of_the_standard_s_example() {
        // RFC 1951, 3.2.2: 010 011 100 101 110 00 1110 1111, here from their last bit on.
        let reversed = [0b010, 0b110, 0b001, 0b101, 0b011, 0b00, 0b0111, 0b1111];
        assert_eq!(codes(&[3, 3, 3, 3, 3, 2, 4, 4]), reversed);
    }
}

//! Bytes packed as a zlib stream (RFC 1950 and 1951): blocks with Huffman codes of their own.

use super::checksums::adler32;
use super::huffman;
use super::matches::{Token, tokens};

/// The tokens of a block: enough that its codes cost little, and few enough that they suit it.
const BLOCK: usize = 1 << 15;

/// The symbol that ends a block, and the first of those for the lengths of copies.
const END: usize = 256;
const LENGTHS: usize = 257;

/// The least length and the least distance of each symbol; what a copy has above it follows in so many extra bits.
const LENGTH_BASES: [usize; 29] =
    [3, 4, 5, 6, 7, 8, 9, 10, 11, 13, 15, 17, 19, 23, 27, 31, 35, 43, 51, 59, 67, 83, 99, 115, 131, 163, 195, 227, 258];
const LENGTH_BITS: [u32; 29] = [0, 0, 0, 0, 0, 0, 0, 0, 1, 1, 1, 1, 2, 2, 2, 2, 3, 3, 3, 3, 4, 4, 4, 4, 5, 5, 5, 5, 0];
const DISTANCE_BASES: [usize; 30] = [
    1, 2, 3, 4, 5, 7, 9, 13, 17, 25, 33, 49, 65, 97, 129, 193, 257, 385, 513, 769, 1025, 1537, 2049, 3073, 4097, 6145,
    8193, 12289, 16385, 24577,
];
const DISTANCE_BITS: [u32; 30] =
    [0, 0, 0, 0, 1, 1, 2, 2, 3, 3, 4, 4, 5, 5, 6, 6, 7, 7, 8, 8, 9, 9, 10, 10, 11, 11, 12, 12, 13, 13];

/// The order in which a block gives the lengths of the code for its codes' lengths.
const ORDER: [usize; 19] = [16, 17, 18, 0, 8, 7, 9, 6, 10, 5, 11, 4, 12, 3, 13, 2, 14, 1, 15];

pub fn zlib(bytes: &[u8]) -> Vec<u8> {
    // A window of 32 KiB; the two bytes are a multiple of 31, as they must be.
    let mut out = Bits { bytes: vec![0x78, 0x9C], held: 0, count: 0 };
    let mut held = Vec::with_capacity(BLOCK);
    tokens(bytes, |token| {
        if held.len() == BLOCK {
            block(&held, false, &mut out);
            held.clear();
        }
        held.push(token);
    });
    block(&held, true, &mut out);
    let mut packed = out.whole();
    packed.extend(adler32(bytes).to_be_bytes());
    packed
}

/// Bits on their way into bytes, lowest first.
struct Bits {
    bytes: Vec<u8>,
    held: u64,
    count: u32,
}

impl Bits {
    fn put(&mut self, value: usize, bits: u32) {
        self.held |= (value as u64) << self.count;
        self.count += bits;
        while self.count >= 8 {
            self.bytes.push(self.held as u8);
            self.held >>= 8;
            self.count -= 8;
        }
    }

    /// The bytes, the last one filled up with zeros.
    fn whole(mut self) -> Vec<u8> {
        self.put(0, 7);
        self.bytes
    }
}

/// A code: the length of each symbol, and its bits.
struct Code {
    lengths: Vec<u8>,
    bits: Vec<u16>,
}

impl Code {
    fn of(counts: &[u32], limit: usize) -> Self {
        let lengths = huffman::lengths(counts, limit);
        let bits = huffman::codes(&lengths);
        Self { lengths, bits }
    }

    fn put(&self, symbol: usize, out: &mut Bits) {
        out.put(self.bits[symbol].into(), self.lengths[symbol].into());
    }

    /// How many of the lengths are to be told: up to the last that is not zero, and `least` at least.
    fn told(&self, least: usize) -> usize {
        self.lengths.iter().rposition(|length| *length > 0).map_or(least, |last| least.max(last + 1))
    }
}

/// The symbol of a length or a distance.
fn symbol(bases: &[usize], number: usize) -> usize {
    bases.partition_point(|base| *base <= number) - 1
}

fn block(tokens: &[Token], last: bool, out: &mut Bits) {
    let (literals, distances) = codes_for(tokens);
    out.put(last.into(), 1);
    out.put(2, 2);
    put_codes(&literals, &distances, out);
    for token in tokens {
        match *token {
            Token::Literal(byte) => literals.put(byte.into(), out),
            Token::Copy { length, distance } => {
                let (long, far) = (symbol(&LENGTH_BASES, length), symbol(&DISTANCE_BASES, distance));
                literals.put(LENGTHS + long, out);
                out.put(length - LENGTH_BASES[long], LENGTH_BITS[long]);
                distances.put(far, out);
                out.put(distance - DISTANCE_BASES[far], DISTANCE_BITS[far]);
            }
        }
    }
    literals.put(END, out);
}

/// The codes for literals and lengths, and for distances, that suit these tokens best.
fn codes_for(tokens: &[Token]) -> (Code, Code) {
    let (mut literals, mut distances) = ([0; LENGTHS + 29], [0; 30]);
    literals[END] = 1;
    for token in tokens {
        match *token {
            Token::Literal(byte) => literals[usize::from(byte)] += 1,
            Token::Copy { length, distance } => {
                literals[LENGTHS + symbol(&LENGTH_BASES, length)] += 1;
                distances[symbol(&DISTANCE_BASES, distance)] += 1;
            }
        }
    }
    (Code::of(&literals, 15), Code::of(&distances, 15))
}

/// Tells the lengths of both codes, by a third one.
fn put_codes(literals: &Code, distances: &Code, out: &mut Bits) {
    let (long, far) = (literals.told(LENGTHS), distances.told(1));
    let runs = runs(&[&literals.lengths[..long], &distances.lengths[..far]].concat());
    let mut counts = [0; 19];
    runs.iter().for_each(|(symbol, ..)| counts[*symbol] += 1);
    let code = Code::of(&counts, 7);
    let told = ORDER.iter().rposition(|symbol| code.lengths[*symbol] > 0).map_or(4, |last| 4.max(last + 1));
    out.put(long - LENGTHS, 5);
    out.put(far - 1, 5);
    out.put(told - 4, 4);
    ORDER[..told].iter().for_each(|symbol| out.put(code.lengths[*symbol].into(), 3));
    for (symbol, extra, bits) in runs {
        code.put(symbol, out);
        out.put(extra, bits);
    }
}

/// Lengths of codes as symbols, with extra bits behind those for runs: 16 repeats the last length 3 to 6 times, 17 and
/// 18 stand for 3 to 10 and for 11 to 138 zeros.
fn runs(lengths: &[u8]) -> Vec<(usize, usize, u32)> {
    let mut runs = Vec::new();
    for run in lengths.chunk_by(|a, b| a == b) {
        let length = usize::from(run[0]);
        let mut left = run.len();
        if length > 0 {
            runs.push((length, 0, 0));
            left -= 1;
        }
        while left > 0 {
            let (symbol, count, least, bits) = match (length, left) {
                (_, ..3) => (length, 1, 1, 0),
                (0, 11..) => (18, left.min(138), 11, 7),
                (0, _) => (17, left, 3, 3),
                _ => (16, left.min(6), 3, 2),
            };
            runs.push((symbol, count - least, bits));
            left -= count;
        }
    }
    runs
}

#[cfg(test)]
mod tests {
    use super::super::inflate::zlib_bytes;
    use super::*;

    /// Bytes without any order.
    fn noise(count: usize) -> Vec<u8> {
        let mut state = 0x2545_F491_4F6C_DD1D_u64;
        let mut next = || {
            state ^= state << 13;
            state ^= state >> 7;
            state ^= state << 17;
            (state >> 32) as u8
        };
        (0..count).map(|_| next()).collect()
    }

    #[test]
    fn unpacked_it_is_the_same() {
        let text = b"a layer lies between n and n + 1 ticks, and a layer shows the cells that cross it";
        let mixed = [noise(70_000), vec![3; 70_000], noise(10), text.repeat(2000)].concat();
        let samples = [vec![], vec![0], vec![9; 3], text.to_vec(), vec![200; 1_000_000], noise(200_000), mixed];
        for bytes in samples {
            assert!(zlib_bytes(&zlib(&bytes)) == bytes, "{} bytes", bytes.len());
        }
    }

    #[test]
    fn every_length_and_every_reach_of_a_copy() {
        let mut bytes = noise(32_768);
        for length in 3..=258 {
            let from = bytes.len() - 32_768 + 97 * (length - 3);
            bytes.extend_from_within(from..from + length);
            bytes.push(length as u8);
        }
        assert!(zlib_bytes(&zlib(&bytes)) == bytes);
    }

    #[test]
    fn runs_shrink_and_noise_hardly_grows() {
        assert!(zlib(&vec![200; 1_000_000]).len() < 1500);
        assert!(zlib(&noise(200_000)).len() < 200_500);
    }

    #[test]
    fn runs_of_lengths() {
        let told = |lengths: &[u8]| runs(lengths);
        assert_eq!(told(&[0; 2]), [(0, 0, 0), (0, 0, 0)]);
        assert_eq!(told(&[0; 10]), [(17, 7, 3)]);
        assert_eq!(told(&[0; 139]), [(18, 127, 7), (0, 0, 0)]);
        assert_eq!(told(&[5; 8]), [(5, 0, 0), (16, 3, 2), (5, 0, 0)]);
    }
}

//! A zlib stream unpacked, for tests alone: a plain reading of RFC 1950 and 1951 that shares nothing with the packing.

/// The bytes in a zlib stream. It panics where the stream is not what the standards say.
pub fn zlib_bytes(stream: &[u8]) -> Vec<u8> {
    assert_eq!((stream[0] & 15, stream[1] & 32, (256 * u32::from(stream[0]) + u32::from(stream[1])) % 31), (8, 0, 0));
    let mut reader = Reader { bytes: stream, at: 16 };
    let mut out = Vec::new();
    loop {
        let last = reader.number(1) == 1;
        match reader.number(2) {
            0 => stored(&mut reader, &mut out),
            1 => fixed(&mut reader, &mut out),
            2 => dynamic(&mut reader, &mut out),
            other => panic!("a block of kind {other}"),
        }
        if last {
            break;
        }
    }
    let end = reader.at.div_ceil(8);
    let (sum, sums) = out.iter().fold((1, 0), |(sum, sums), byte| {
        let sum = (sum + u32::from(*byte)) % 65521;
        (sum, (sums + sum) % 65521)
    });
    assert_eq!(stream[end..], (sums << 16 | sum).to_be_bytes(), "the checksum, and nothing behind it");
    out
}

struct Reader<'a> {
    bytes: &'a [u8],
    at: usize,
}

impl Reader<'_> {
    fn bit(&mut self) -> usize {
        let bit = self.bytes[self.at / 8] >> (self.at % 8) & 1;
        self.at += 1;
        bit.into()
    }

    fn number(&mut self, bits: usize) -> usize {
        (0..bits).map(|place| self.bit() << place).sum()
    }

    /// The next symbol of a code that is given by its lengths: bits are added until one of that length is met.
    fn symbol(&mut self, code: &[(usize, usize, usize)]) -> usize {
        let (mut length, mut bits) = (0, 0);
        while length < 15 {
            bits = 2 * bits + self.bit();
            length += 1;
            if let Ok(place) = code.binary_search_by_key(&(length, bits), |entry| (entry.0, entry.1)) {
                return code[place].2;
            }
        }
        panic!("no such code")
    }
}

/// Length, bits and symbol of each code, in order.
fn code(lengths: &[usize]) -> Vec<(usize, usize, usize)> {
    let mut symbols: Vec<(usize, usize)> = lengths.iter().copied().zip(0..).filter(|entry| entry.0 > 0).collect();
    symbols.sort_unstable();
    let (mut bits, mut before) = (0, 0);
    let mut code = Vec::new();
    for (length, symbol) in symbols {
        bits <<= length - before;
        assert!(bits < 1 << length, "too many codes");
        code.push((length, bits, symbol));
        bits += 1;
        before = length;
    }
    code
}

fn stored(reader: &mut Reader, out: &mut Vec<u8>) {
    reader.at = reader.at.next_multiple_of(8);
    let (count, check) = (reader.number(16), reader.number(16));
    assert_eq!(count ^ check, 0xFFFF);
    (0..count).for_each(|_| out.push(reader.number(8) as u8));
}

fn fixed(reader: &mut Reader, out: &mut Vec<u8>) {
    let lengths = [[8; 144].as_slice(), &[9; 112], &[7; 24], &[8; 8]].concat();
    tokens(reader, &code(&lengths), &code(&[5; 30]), out);
}

fn dynamic(reader: &mut Reader, out: &mut Vec<u8>) {
    let (literals, distances, told) = (257 + reader.number(5), 1 + reader.number(5), 4 + reader.number(4));
    let order = [16, 17, 18, 0, 8, 7, 9, 6, 10, 5, 11, 4, 12, 3, 13, 2, 14, 1, 15];
    let mut lengths = [0; 19];
    order[..told].iter().for_each(|place| lengths[*place] = reader.number(3));
    let outer = code(&lengths);
    let mut lengths = Vec::new();
    while lengths.len() < literals + distances {
        let (length, count) = match reader.symbol(&outer) {
            16 => (lengths[lengths.len() - 1], 3 + reader.number(2)),
            17 => (0, 3 + reader.number(3)),
            18 => (0, 11 + reader.number(7)),
            length => (length, 1),
        };
        lengths.resize(lengths.len() + count, length);
    }
    assert_eq!(lengths.len(), literals + distances);
    tokens(reader, &code(&lengths[..literals]), &code(&lengths[literals..]), out);
}

fn tokens(
    reader: &mut Reader,
    literals: &[(usize, usize, usize)],
    distances: &[(usize, usize, usize)],
    out: &mut Vec<u8>,
) {
    loop {
        match reader.symbol(literals) {
            256 => return,
            byte @ ..256 => out.push(byte as u8),
            symbol => {
                let length = length(reader, symbol - 257);
                let symbol = reader.symbol(distances);
                let distance = distance(reader, symbol);
                assert!(distance <= out.len(), "a copy from before the first byte");
                (0..length).for_each(|_| out.push(out[out.len() - distance]));
            }
        }
    }
}

/// Four symbols to each number of extra bits, but for the first eight and the last.
fn length(reader: &mut Reader, symbol: usize) -> usize {
    match symbol {
        ..8 => 3 + symbol,
        28 => 258,
        _ => {
            let bits = symbol / 4 - 1;
            3 + ((4 + symbol % 4) << bits) + reader.number(bits)
        }
    }
}

/// Two symbols to each number of extra bits, but for the first four.
fn distance(reader: &mut Reader, symbol: usize) -> usize {
    match symbol {
        ..4 => 1 + symbol,
        _ => {
            let bits = symbol / 2 - 1;
            1 + ((2 + symbol % 2) << bits) + reader.number(bits)
        }
    }
}

#[test]
fn streams_that_zlib_packed() {
    // By Python's zlib: stored, with the fixed codes.
    let stored = [0x78, 0x01, 0x01, 0x02, 0x00, 0xFD, 0xFF, 0x68, 0x69, 0x01, 0x3B, 0x00, 0xD2];
    assert_eq!(zlib_bytes(&stored), b"hi");
    let fixed = [0x78, 0x9C, 0x4B, 0x4C, 0x84, 0x01, 0x00, 0x14, 0xE1, 0x03, 0xCB];
    assert_eq!(zlib_bytes(&fixed), b"aaaaaaaaaa");
}

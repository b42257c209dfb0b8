//! The two checksums of a PNG: CRC-32 of each chunk, and Adler-32 of the bytes that were packed.

/// What a byte leaves of CRC-32, lowest bit first.
const REMAINDERS: [u32; 256] = remainders();

const fn remainders() -> [u32; 256] {
    let mut all = [0; 256];
    let mut byte = 0;
    while byte < 256 {
        let (mut rest, mut bit) = (byte as u32, 0);
        while bit < 8 {
            rest = if rest & 1 == 1 { 0xEDB8_8320 ^ (rest >> 1) } else { rest >> 1 };
            bit += 1;
        }
        all[byte] = rest;
        byte += 1;
    }
    all
}

pub fn crc32(bytes: &[u8]) -> u32 {
    !bytes.iter().fold(!0, |rest: u32, byte| REMAINDERS[usize::from(rest as u8 ^ byte)] ^ (rest >> 8))
}

pub fn adler32(bytes: &[u8]) -> u32 {
    const PRIME: u32 = 65521;
    let (mut sum, mut sums) = (1, 0);
    // So many bytes can be added before the sums outgrow 32 bits.
    for run in bytes.chunks(5552) {
        for byte in run {
            sum += u32::from(*byte);
            sums += sum;
        }
        sum %= PRIME;
        sums %= PRIME;
    }
    sums << 16 | sum
}

#[cfg(test)]
mod tests {
    use super::*;

    #[test]
    fn published_check_values() {
        assert_eq!((crc32(b""), crc32(b"123456789"), crc32(b"IEND")), (0, 0xCBF4_3926, 0xAE42_6082));
        assert_eq!((adler32(b""), adler32(b"Wikipedia")), (1, 0x11E6_0398));
    }

    #[test]
    fn sums_of_many_large_bytes_do_not_outgrow() {
        let (count, prime) = (100_000_u64, 65521);
        let sum = (1 + 255 * count) % prime;
        let sums = (count + 255 * (count * (count + 1) / 2)) % prime;
        assert_eq!(u64::from(adler32(&vec![255; count as usize])), sums << 16 | sum);
    }
}

//! A picture of palette colours as a PNG file: its chunks, each with its length before it and its CRC-32 behind it.

use super::checksums::crc32;
use super::deflate::zlib;
use super::shapes::Colour;

/// The bytes of a PNG of these pixels, row by row from the top, each the place of its colour in the palette.
pub fn png(width: usize, palette: &[Colour], pixels: &[u8]) -> Vec<u8> {
    let mut file = b"\x89PNG\r\n\x1A\n".to_vec();
    let sides = [width as u32, (pixels.len() / width) as u32].map(u32::to_be_bytes);
    // Eight bits a pixel, colours by a palette, and the one packing, filtering and order of rows that all readers have.
    chunk(b"IHDR", &[&sides.concat()[..], &[8, 3, 0, 0, 0]].concat(), &mut file);
    chunk(b"PLTE", palette.as_flattened(), &mut file);
    // Places in a palette have no order that a filter could use: every row is unfiltered.
    let rows: Vec<u8> = pixels.chunks(width).flat_map(|row| [&[0], row]).flatten().copied().collect();
    chunk(b"IDAT", &zlib(&rows), &mut file);
    chunk(b"IEND", &[], &mut file);
    file
}

fn chunk(kind: &[u8; 4], bytes: &[u8], file: &mut Vec<u8>) {
    file.extend((bytes.len() as u32).to_be_bytes());
    let start = file.len();
    file.extend(kind);
    file.extend(bytes);
    let check = crc32(&file[start..]);
    file.extend(check.to_be_bytes());
}

#[cfg(test)]
mod tests {
    use super::super::inflate::zlib_bytes;
    use super::*;

    #[test]
    fn chunks_of_a_small_picture() {
        let file = png(2, &[[255, 0, 0], [0, 0, 255]], &[0, 1, 1, 0, 1, 1]);
        // The chunks of a picture of 2 by 3 pixels, their checksums by another program.
        let head = b"\x89PNG\r\n\x1A\n\0\0\0\x0DIHDR\0\0\0\x02\0\0\0\x03\x08\x03\0\0\0";
        let palette = b"\0\0\0\x06PLTE\xFF\0\0\0\0\xFF";
        assert_eq!(file[..29], head[..]);
        assert_eq!(file[29..33], 0x8E34_2EB3_u32.to_be_bytes());
        assert_eq!(file[33..47], palette[..]);
        assert_eq!(file[47..51], 0x6CA1_FD8E_u32.to_be_bytes());
        let length = u32::from_be_bytes(file[51..55].try_into().expect("4 bytes")) as usize;
        assert_eq!(file[55..59], b"IDAT"[..]);
        assert_eq!(zlib_bytes(&file[59..59 + length]), [0, 0, 1, 0, 1, 0, 0, 1, 1]);
        assert_eq!(file[63 + length..], b"\0\0\0\0IEND\xAE\x42\x60\x82"[..]);
    }
}

//! A small font of bitmaps for the signs that occur in pictures, five dots wide and nine high, the last two of them
//! below the base line. It is drawn larger by doubling, which rounds its corners.

/// A sign's dots, row by row from the top.
pub struct Bitmap {
    pub width: usize,
    dots: Vec<bool>,
}

/// The rows of a sign that stand on the base line.
pub const ABOVE: usize = 7;

impl Bitmap {
    /// The dots of a sign; a blank has none, and a sign that the font lacks is a blank.
    pub fn of(sign: char) -> Self {
        let rows = GLYPHS.iter().find(|(known, _)| *known == sign).map_or([BLANK; 9], |(_, rows)| *rows);
        Self { width: 5, dots: rows.iter().flat_map(|row| row.bytes()).map(|dot| dot == b'#').collect() }
    }

    pub fn height(&self) -> usize {
        self.dots.len() / self.width
    }

    pub fn dot(&self, x: usize, y: usize) -> bool {
        x < self.width && y < self.height() && self.dots[y * self.width + x]
    }

    /// Four dots for each. One of the four becomes like the two neighbours at its corner where these are alike and the
    /// other two neighbours are not like them: so slopes are filled, and corners cut.
    pub fn doubled(&self) -> Self {
        let width = 2 * self.width;
        let dot = |place: usize| self.quarter(place % width, place / width);
        Self { width, dots: (0..4 * self.dots.len()).map(dot).collect() }
    }

    fn quarter(&self, x: usize, y: usize) -> bool {
        let (column, row) = (x / 2, y / 2);
        // Left of the first column and above the first row there is nothing, as there is past the last.
        let [left, right] = [column.wrapping_sub(1), column + 1].map(|column| self.dot(column, row));
        let [above, below] = [row.wrapping_sub(1), row + 1].map(|row| self.dot(column, row));
        let (near, far) = if x % 2 == 0 { (left, right) } else { (right, left) };
        let (next, beyond) = if y % 2 == 0 { (above, below) } else { (below, above) };
        if near == next && near != beyond && next != far { near } else { self.dot(column, row) }
    }
}

const BLANK: &str = ".....";

#[rustfmt::skip]
const GLYPHS: [(char, [&str; 9]); 43] = [
    ('0', [".###.", "#...#", "#...#", "#...#", "#...#", "#...#", ".###.", ".....", "....."]),
    ('1', ["..#..", ".##..", "..#..", "..#..", "..#..", "..#..", ".###.", ".....", "....."]),
    ('2', [".###.", "#...#", "....#", "...#.", "..#..", ".#...", "#####", ".....", "....."]),
    ('3', [".###.", "#...#", "....#", "..##.", "....#", "#...#", ".###.", ".....", "....."]),
    ('4', ["...#.", "..##.", ".#.#.", "#..#.", "#####", "...#.", "...#.", ".....", "....."]),
    ('5', ["#####", "#....", "####.", "....#", "....#", "#...#", ".###.", ".....", "....."]),
    ('6', ["..##.", ".#...", "#....", "####.", "#...#", "#...#", ".###.", ".....", "....."]),
    ('7', ["#####", "....#", "...#.", "..#..", "..#..", "..#..", "..#..", ".....", "....."]),
    ('8', [".###.", "#...#", "#...#", ".###.", "#...#", "#...#", ".###.", ".....", "....."]),
    ('9', [".###.", "#...#", "#...#", ".####", "....#", "...#.", ".##..", ".....", "....."]),
    ('a', [".....", ".....", ".###.", "....#", ".####", "#...#", ".####", ".....", "....."]),
    ('b', ["#....", "#....", "####.", "#...#", "#...#", "#...#", "####.", ".....", "....."]),
    ('c', [".....", ".....", ".###.", "#....", "#....", "#...#", ".###.", ".....", "....."]),
    ('d', ["....#", "....#", ".####", "#...#", "#...#", "#...#", ".####", ".....", "....."]),
    ('e', [".....", ".....", ".###.", "#...#", "#####", "#....", ".###.", ".....", "....."]),
    ('f', ["..##.", ".#..#", ".#...", "###..", ".#...", ".#...", ".#...", ".....", "....."]),
    ('g', [".....", ".....", ".####", "#...#", "#...#", "#...#", ".####", "....#", ".###."]),
    ('h', ["#....", "#....", "#.##.", "##..#", "#...#", "#...#", "#...#", ".....", "....."]),
    ('i', ["..#..", ".....", ".##..", "..#..", "..#..", "..#..", ".###.", ".....", "....."]),
    ('j', ["...#.", ".....", "..##.", "...#.", "...#.", "...#.", "...#.", "#..#.", ".##.."]),
    ('k', ["#....", "#....", "#..#.", "#.#..", "##...", "#.#..", "#..#.", ".....", "....."]),
    ('l', [".##..", "..#..", "..#..", "..#..", "..#..", "..#..", ".###.", ".....", "....."]),
    ('m', [".....", ".....", "##.#.", "#.#.#", "#.#.#", "#.#.#", "#.#.#", ".....", "....."]),
    ('n', [".....", ".....", "#.##.", "##..#", "#...#", "#...#", "#...#", ".....", "....."]),
    ('o', [".....", ".....", ".###.", "#...#", "#...#", "#...#", ".###.", ".....", "....."]),
    ('p', [".....", ".....", "####.", "#...#", "#...#", "#...#", "####.", "#....", "#...."]),
    ('q', [".....", ".....", ".####", "#...#", "#...#", "#...#", ".####", "....#", "....#"]),
    ('r', [".....", ".....", "#.##.", "##..#", "#....", "#....", "#....", ".....", "....."]),
    ('s', [".....", ".....", ".####", "#....", ".###.", "....#", "####.", ".....", "....."]),
    ('t', [".#...", ".#...", "###..", ".#...", ".#...", ".#..#", "..##.", ".....", "....."]),
    ('u', [".....", ".....", "#...#", "#...#", "#...#", "#..##", ".##.#", ".....", "....."]),
    ('v', [".....", ".....", "#...#", "#...#", "#...#", ".#.#.", "..#..", ".....", "....."]),
    ('w', [".....", ".....", "#...#", "#...#", "#.#.#", "#.#.#", ".#.#.", ".....", "....."]),
    ('x', [".....", ".....", "#...#", ".#.#.", "..#..", ".#.#.", "#...#", ".....", "....."]),
    ('y', [".....", ".....", "#...#", "#...#", "#...#", ".####", "....#", "#...#", ".###."]),
    ('z', [".....", ".....", "#####", "...#.", "..#..", ".#...", "#####", ".....", "....."]),
    ('.', [".....", ".....", ".....", ".....", ".....", ".##..", ".##..", ".....", "....."]),
    (',', [".....", ".....", ".....", ".....", ".....", ".##..", ".##..", "..#..", ".#..."]),
    ('-', [".....", ".....", ".....", ".###.", ".....", ".....", ".....", ".....", "....."]),
    ('=', [".....", ".....", "#####", ".....", "#####", ".....", ".....", ".....", "....."]),
    ('<', ["...#.", "..#..", ".#...", "#....", ".#...", "..#..", "...#.", ".....", "....."]),
    ('>', [".#...", "..#..", "...#.", "....#", "...#.", "..#..", ".#...", ".....", "....."]),
    ('%', ["##..#", "##.#.", "...#.", "..#..", ".#...", ".#.##", "#..##", ".....", "....."]),
];

#[cfg(test)]
pub fn has(sign: char) -> bool {
    sign == ' ' || GLYPHS.iter().any(|(known, _)| *known == sign)
}

#[cfg(test)]
mod tests {
    use super::*;

    fn drawn(bitmap: &Bitmap) -> Vec<String> {
        let row = |y| (0..bitmap.width).map(|x| if bitmap.dot(x, y) { '#' } else { '.' }).collect();
        (0..bitmap.height()).map(row).collect()
    }

    #[test]
    fn signs_differ_and_fill_their_rows() {
        assert!(GLYPHS.iter().flat_map(|(_, rows)| rows).all(|row| row.len() == 5));
        for (place, (sign, rows)) in GLYPHS.iter().enumerate() {
            assert!(GLYPHS[..place].iter().all(|(other, others)| other != sign && others != rows), "{sign}");
        }
        assert_eq!(drawn(&Bitmap::of(' ')), [BLANK; 9]);
    }

    #[test]
    fn doubling_rounds_a_slope() {
        let slope = Bitmap { width: 3, dots: vec![true, false, false, false, true, false, false, false, true] };
        assert_eq!(drawn(&slope.doubled()), ["##....", "###...", ".###..", "..###.", "...###", "....##"]);
        let line = Bitmap { width: 2, dots: vec![true, true] };
        assert_eq!(drawn(&line.doubled()), ["####", "####"]);
    }
}

//! A picture in pixels, each the place of its colour in a palette. A pixel shows what is at its centre.

use super::colours::{BETWEEN, Colouring, INK, PAPER, STRIPE, border};
use super::font::{ABOVE, Bitmap};
use super::picture::Picture;
use super::section::{Rectangle, Section};
use super::shapes::{Anchor, Area, Colour, LETTER, Shape, text_width};

pub struct Raster {
    pub width: usize,
    pub palette: Vec<Colour>,
    pub pixels: Vec<u8>,
}

/// Set, until all borders are drawn, in pixels of cells that are too small for one, and where there is no cell. The
/// palette has fewer colours: three states with 25 depths each, and some twenty others.
const BARE: u8 = 0x80;

impl Raster {
    pub fn of(picture: &Picture, section: &Section, colouring: Colouring, borders: bool) -> Self {
        let (width, height) = (picture.width as usize, picture.height as usize);
        let mut raster = Self { width, palette: vec![PAPER], pixels: vec![0; width * height] };
        picture.shapes.iter().for_each(|shape| raster.shape(shape, picture.unit));
        raster.cells(picture, section, colouring, borders);
        raster
    }

    /// The place of a colour in the palette.
    fn index(&mut self, colour: Colour) -> u8 {
        let place = self.palette.iter().position(|known| *known == colour).unwrap_or_else(|| {
            self.palette.push(colour);
            self.palette.len() - 1
        });
        place as u8
    }

    fn rows(&mut self, area: Area) -> impl Iterator<Item = &mut [u8]> {
        let (from, to) = (area.x as usize, area.right() as usize);
        let rows = self.pixels.chunks_exact_mut(self.width);
        rows.skip(area.y as usize).take(area.height as usize).map(move |row| &mut row[from..to])
    }

    fn fill(&mut self, area: Area, index: u8) {
        self.rows(area).for_each(|row| row.fill(index));
    }

    fn shape(&mut self, shape: &Shape, unit: i64) {
        match shape {
            Shape::Fill(area, colour) => {
                let index = self.index(*colour);
                self.fill(*area, index);
            }
            Shape::Hatch(area) => self.hatch(*area, unit),
            Shape::Text { x, y, anchor, text } => {
                let width = text_width(text) * unit;
                let x = match anchor {
                    Anchor::Start => *x,
                    Anchor::Middle => x - width / 2,
                    // The gap behind the last letter does not count.
                    Anchor::End => x - width + 2 * unit,
                };
                for (place, sign) in (0..).zip(text.chars()) {
                    self.sign(sign, x + place * LETTER * unit, *y, unit);
                }
            }
        }
    }

    fn hatch(&mut self, area: Area, unit: i64) {
        let [stripe, between] = [STRIPE, BETWEEN].map(|colour| self.index(colour));
        for (y, row) in (0..).zip(self.rows(area)) {
            for (x, pixel) in (0..).zip(row) {
                *pixel = if (x + y) % (10 * unit) < 4 * unit { stripe } else { between };
            }
        }
    }

    /// A sign with its left end and its base line at a place. It is drawn twice as large, and each pixel is as dark as
    /// its four dots are on the average.
    fn sign(&mut self, sign: char, x: i64, y: i64, unit: i64) {
        let doublings = (4 * unit).ilog2();
        let large = (0..doublings).fold(Bitmap::of(sign), |bitmap, _| bitmap.doubled());
        let shades = [0, 1, 2, 3, 4].map(|dots| self.index(shade(dots)));
        let (width, height) = (large.width / 2, large.height() / 2);
        let area = Area { x, y: y - (ABOVE as i64) * 2 * unit, width: width as i64, height: height as i64 };
        for (row, pixels) in self.rows(area).enumerate() {
            for (column, pixel) in pixels.iter_mut().enumerate() {
                let dots = [(0, 0), (1, 0), (0, 1), (1, 1)];
                let dark = dots.iter().filter(|(right, down)| large.dot(2 * column + right, 2 * row + down)).count();
                *pixel = shades[dark];
            }
        }
    }

    fn cells(&mut self, picture: &Picture, section: &Section, colouring: Colouring, borders: bool) {
        self.rows(picture.cells).flatten().for_each(|pixel| *pixel |= BARE);
        let bordered = |cell: &Rectangle| borders && picture.bordered(section, cell);
        for cell in &section.cells {
            let index = self.index(colouring.fill(cell.state, cell.depth));
            self.fill(pixels(picture.cells, section, cell), if bordered(cell) { index } else { index | BARE });
        }
        for cell in section.cells.iter().filter(|cell| bordered(cell)) {
            let index = self.index(border(cell.state));
            self.border(pixels(picture.cells, section, cell), picture, index);
        }
        self.rows(picture.cells).flatten().for_each(|pixel| *pixel &= !BARE);
    }

    /// The border of a cell, inside of it: on the left and below, and where the neighbour draws none, right and above.
    /// So two neighbours have one line between them. The frame is the border of the outermost cells.
    fn border(&mut self, cell: Area, picture: &Picture, index: u8) {
        let (whole, line) = (picture.cells, picture.unit);
        let left = Area { width: line, ..cell };
        let below = Area { y: cell.bottom() - line, height: line, ..cell };
        if cell.x > whole.x {
            self.fill(left, index);
        }
        if cell.bottom() < whole.bottom() {
            self.fill(below, index);
        }
        if cell.right() < whole.right() {
            let beside = |y: i64| Area { x: cell.right() - line, y, width: line, height: 1 };
            (cell.y..cell.bottom()).for_each(|y| self.fill_beside_bare(beside(y), [cell.right(), y], index));
        }
        if cell.y > whole.y {
            let under = |x: i64| Area { x, y: cell.y, width: 1, height: line };
            (cell.x..cell.right()).for_each(|x| self.fill_beside_bare(under(x), [x, cell.y - 1], index));
        }
    }

    fn fill_beside_bare(&mut self, area: Area, neighbour: [i64; 2], index: u8) {
        if self.pixels[neighbour[1] as usize * self.width + neighbour[0] as usize] & BARE != 0 {
            self.fill(area, index);
        }
    }
}

/// The colour of a pixel of which so many quarters are ink.
fn shade(quarters: i32) -> Colour {
    [0, 1, 2].map(|i| (i32::from(PAPER[i]) + (i32::from(INK[i]) - i32::from(PAPER[i])) * quarters / 4) as u8)
}

/// The pixels whose centres are in a cell; a centre on the edge of two cells is in the upper one.
fn pixels(whole: Area, section: &Section, cell: &Rectangle) -> Area {
    let [width, height] = section.spans();
    let [left, right] = [cell.low[0], cell.high[0]].map(|tick| first(tick - section.low[0], width, whole.width));
    let [low, high] = [cell.low[1], cell.high[1]].map(|tick| first(tick - section.low[1], height, whole.height));
    Area { x: whole.x + left, y: whole.bottom() - high, width: right - left, height: high - low }
}

/// The first of the pixels over a span whose centre is so many ticks from its low end, or more: pixel i has its centre
/// at (i + 1/2) span / pixels.
fn first(ticks: i64, span: i64, pixels: i64) -> i64 {
    (2 * pixels * ticks + span - 1).div_euclid(2 * span)
}

#[cfg(test)]
mod tests {
    use super::super::colours::plain;
    use super::super::section::made;
    use super::*;
    use gyroid_cells::State::{self, Inside, Outside, Unsettled};

    #[test]
    fn a_pixel_belongs_to_the_cell_at_its_centre() {
        // Four pixels over three ticks have their centres at 3/8, 9/8, 15/8 and 21/8.
        assert_eq!([0, 1, 2, 3].map(|tick| first(tick, 3, 4)), [0, 1, 3, 4]);
        // One pixel over two ticks: its centre is the edge between them.
        assert_eq!([0, 1, 2].map(|tick| first(tick, 2, 1)), [0, 0, 1]);
        // A cell between two centres has no pixel.
        assert_eq!([0, 100, 499, 500, 501].map(|tick| first(tick, 1000, 1)), [0, 0, 0, 0, 1]);
    }

    /// The colours of a picture at pixels from the left and from the bottom of its cells.
    fn colours(section: &Section, borders: bool, places: &[[i64; 2]]) -> Vec<Colour> {
        let picture = Picture::new(section, Colouring::State, 100);
        let raster = Raster::of(&picture, section, Colouring::State, borders);
        let at = |[right, up]: [i64; 2]| {
            (picture.cells.bottom() - 1 - up) as usize * raster.width + (picture.cells.x + right) as usize
        };
        places.iter().map(|place| raster.palette[usize::from(raster.pixels[at(*place)])]).collect()
    }

    #[test]
    fn cells_stand_where_they_are() {
        let cells =
            [(Inside, 1, [0, 0], [50, 100]), (Outside, 2, [50, 0], [100, 30]), (Unsettled, 2, [50, 30], [100, 90])];
        let section = made([100, 100], &cells);
        let places = [[0, 0], [49, 99], [50, 0], [99, 29], [50, 30], [99, 89], [99, 90], [99, 95]];
        let found = colours(&section, false, &places);
        assert_eq!(found[..6], [Inside, Inside, Outside, Outside, Unsettled, Unsettled].map(plain));
        assert!(found[6..].iter().all(|colour| [STRIPE, BETWEEN].contains(colour)));
    }

    #[test]
    fn one_line_between_two_cells() {
        let section = made([100, 100], &[(Inside, 1, [0, 0], [50, 100]), (Outside, 1, [50, 0], [100, 100])]);
        let found = colours(&section, true, &[[0, 0], [49, 50], [50, 50], [51, 50], [99, 99]]);
        assert_eq!(found, [plain(Inside), plain(Inside), border(Outside), plain(Outside), plain(Outside)]);
    }

    #[test]
    fn a_large_cell_draws_the_line_to_a_small_one() {
        // Right of and above the large cell there are cells of three pixels.
        let small: Vec<(State, u8, [i64; 2], [i64; 2])> =
            (0..30).map(|row| (Outside, 9, [90, 3 * row], [93, 3 * row + 3])).collect();
        let above = [(Inside, 1, [0, 0], [90, 90]), (Unsettled, 9, [0, 90], [90, 93])];
        let section = made([100, 100], &[&above[..], &small].concat());
        let found = colours(&section, true, &[[88, 50], [89, 50], [90, 50], [92, 50], [50, 88], [50, 89], [50, 90]]);
        let line = border(Inside);
        let expected = [plain(Inside), line, plain(Outside), plain(Outside), plain(Inside), line, plain(Unsettled)];
        assert_eq!(found, expected);
    }

    #[test]
    fn all_depths_and_states_fit_the_palette() {
        let states = [Inside, Outside, Unsettled];
        let cells: Vec<(State, u8, [i64; 2], [i64; 2])> = (0..75)
            .map(|n| {
                (
                    states[n as usize % 3],
                    (n / 3) as u8,
                    [10 * (n % 10), 10 * (n / 10)],
                    [10 * (n % 10) + 10, 10 * (n / 10) + 10],
                )
            })
            .collect();
        let section = made([100, 100], &cells);
        let picture = Picture::new(&section, section.depths, 100);
        let raster = Raster::of(&picture, &section, section.depths, true);
        assert!(raster.palette.len() > 75 && raster.palette.len() <= usize::from(BARE), "{}", raster.palette.len());
        assert!(raster.pixels.iter().all(|pixel| usize::from(*pixel) < raster.palette.len()));
    }
}

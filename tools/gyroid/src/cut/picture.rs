//! Where everything in the picture of a section stands: title, cells, axes, scale bar and legend. The canvas is the
//! least that holds them with a margin, so a thin part has room for its texts as well.

use super::colours::{Colouring, FRAME, INK};
use super::round::Round;
use super::section::{AXES, Rectangle, Section, plane};
use super::shapes::{Anchor, Area, Colour, DIGIT, GAP, LINE, MARGIN, SAMPLE, Shape, text_width};
use crate::lengths::{TICKS, decimal, grouped, mm, per_cent};
use gyroid_cells::State;

pub struct Picture {
    pub width: i64,
    pub height: i64,
    /// The pixels of a unit, in which texts and lines are measured.
    pub unit: i64,
    /// Where the cells are.
    pub cells: Area,
    pub shapes: Vec<Shape>,
    pub title: String,
}

/// A cell has a border where its shorter side is as long as this many borders.
const BORDERED: i64 = 5;

impl Picture {
    /// The picture of a section whose longer side has so many pixels.
    pub fn new(section: &Section, colouring: Colouring, size: i64) -> Self {
        let unit = unit(size);
        let [width, height] = sides(section.spans(), size);
        let labels = up_labels(section, height >= 4 * LINE * unit);
        let room = labels.iter().map(|label| text_width(label)).max().unwrap_or(0);
        let cells = Area { x: (MARGIN + room + GAP) * unit, y: (MARGIN + 2 * LINE + GAP) * unit, width, height };
        let title = title(section);
        let mut picture = Self { width: 0, height: 0, unit, cells, shapes: Vec::new(), title };
        picture.heading(section);
        picture.frame();
        picture.up_axis(&labels);
        picture.right_axis(section);
        picture.scale_bar(section);
        picture.legend(section, colouring);
        picture
    }

    /// Whether a cell is large enough for a border.
    pub fn bordered(&self, section: &Section, cell: &Rectangle) -> bool {
        let sides = [self.cells.width, self.cells.height];
        let long = |i: usize| (cell.high[i] - cell.low[i]) * sides[i] >= BORDERED * self.unit * section.spans()[i];
        long(0) && long(1)
    }

    /// Makes room for what reaches this far to the right and down.
    fn hold(&mut self, right: i64, bottom: i64) {
        let margin = MARGIN * self.unit;
        self.width = self.width.max(right + margin);
        self.height = self.height.max(bottom + margin);
    }

    fn fill(&mut self, area: Area, colour: Colour) {
        self.hold(area.right(), area.bottom());
        self.shapes.push(Shape::Fill(area, colour));
    }

    /// A text on the line that begins at `top`.
    fn text(&mut self, x: i64, top: i64, anchor: Anchor, text: impl Into<String>) {
        let text = text.into();
        let width = text_width(&text) * self.unit;
        let right = match anchor {
            Anchor::Start => x + width,
            Anchor::Middle => x + width / 2,
            Anchor::End => x,
        };
        self.hold(right, top + LINE * self.unit);
        // Digits stand in the middle of their line.
        let y = top + (LINE + DIGIT) / 2 * self.unit;
        self.shapes.push(Shape::Text { x, y, anchor, text });
    }

    fn heading(&mut self, section: &Section) {
        let [margin, line] = [MARGIN, LINE].map(|units| units * self.unit);
        let [from, to] = [section.layer, section.layer + 1].map(mm);
        let count = section.cells.len() as u64;
        let cells = if count == 1 { "1 cell".into() } else { format!("{} cells", grouped(count)) };
        self.text(margin, margin, Anchor::Start, self.title.clone());
        self.text(margin, margin + line, Anchor::Start, format!("{cells} between {from} and {to}"));
    }

    /// The frame, and stripes where cells may be missing.
    fn frame(&mut self) {
        self.fill(self.cells.wider(2 * self.unit), FRAME);
        self.shapes.push(Shape::Hatch(self.cells));
    }

    /// The axis upwards, left of the cells: its name in the middle and its ends, or all in one text.
    fn up_axis(&mut self, labels: &[String]) {
        let Area { x, y, height, .. } = self.cells;
        let (right, line) = (x - GAP * self.unit, LINE * self.unit);
        let middle = y + (height - line) / 2;
        match labels {
            [high, name, low] => {
                self.text(right, y, Anchor::End, high);
                self.text(right, middle, Anchor::End, name);
                self.text(right, y + height - line, Anchor::End, low);
            }
            _ => labels.iter().for_each(|label| self.text(right, middle, Anchor::End, label)),
        }
    }

    /// The axis to the right, below the cells.
    fn right_axis(&mut self, section: &Section) {
        let Area { x, width, .. } = self.cells;
        let top = self.below();
        let name = AXES[plane(section.axis)[0]];
        let [low, high] = [section.low[0], section.high[0]].map(mm);
        // Two letters are left between the name and the ends.
        if (text_width(&low).max(text_width(&high)) * 2 + text_width("     ")) * self.unit > width {
            return self.text(x, top, Anchor::Start, ends(name, section.low[0], section.high[0]));
        }
        self.text(x, top, Anchor::Start, low);
        self.text(x + width / 2, top, Anchor::Middle, name);
        self.text(x + width, top, Anchor::End, high);
    }

    /// The line below the cells.
    fn below(&self) -> i64 {
        self.cells.bottom() + GAP / 2 * self.unit
    }

    /// A bar of a round length, below the axis.
    fn scale_bar(&mut self, section: &Section) {
        let unit = self.unit;
        let (bar, length) = scale_bar(section.spans(), [self.cells.width, self.cells.height]);
        let (x, top) = (self.cells.x, self.below() + (LINE + GAP) * unit);
        let middle = top + LINE / 2 * unit;
        self.fill(Area { x, y: middle - unit, width: length, height: 2 * unit }, INK);
        for end in [x, x + length - 2 * unit] {
            self.fill(Area { x: end, y: middle - 6 * unit, width: 2 * unit, height: 12 * unit }, INK);
        }
        self.text(x + length + GAP * unit, top, Anchor::Start, format!("{} mm", bar.text(1)));
    }

    /// The states with their shares of the layer, right of the cells, and the depths where they are shown.
    fn legend(&mut self, section: &Section, colouring: Colouring) {
        let x = self.cells.right() + 2 * GAP * self.unit;
        let mut top = self.cells.y;
        let area = section.areas.area();
        for (state, share) in section.shares() {
            self.samples(x, top, &sample(section, colouring, state));
            self.entry(x, top, &state.to_string(), Some(per_cent(share, area)));
            top += LINE * self.unit;
        }
        if section.has_gaps() {
            self.sample_frame(x, top);
            self.shapes.push(Shape::Hatch(self.sample_area(x, top)));
            self.entry(x, top, "no cell", None);
            top += LINE * self.unit;
        }
        if colouring != Colouring::State {
            self.depths(section, colouring, x, top + GAP * self.unit);
        }
    }

    /// The name of a sample, and a share.
    fn entry(&mut self, x: i64, top: i64, name: &str, share: Option<String>) {
        let x = x + (SAMPLE[0] + GAP) * self.unit;
        self.text(x, top, Anchor::Start, name);
        if let Some(share) = share {
            self.text(x + text_width("unsettled  >99.99 %") * self.unit, top, Anchor::End, share);
        }
    }

    fn sample_area(&self, x: i64, top: i64) -> Area {
        let [width, height] = SAMPLE.map(|units| units * self.unit);
        Area { x, y: top + (LINE - SAMPLE[1]) / 2 * self.unit, width, height }
    }

    fn sample_frame(&mut self, x: i64, top: i64) {
        self.fill(self.sample_area(x, top).wider(self.unit), INK);
    }

    /// A sample of one colour, or of several side by side.
    fn samples(&mut self, x: i64, top: i64, colours: &[Colour]) {
        self.sample_frame(x, top);
        let whole = self.sample_area(x, top);
        let count = colours.len() as i64;
        for (place, colour) in (0..).zip(colours) {
            let [from, to] = [place, place + 1].map(|place| whole.width * place / count);
            self.fill(Area { x: whole.x + from, width: to - from, ..whole }, *colour);
        }
    }

    /// A line for each depth that occurs, with samples of the states that have it.
    fn depths(&mut self, section: &Section, colouring: Colouring, x: i64, mut top: i64) {
        let unit = self.unit;
        let each = (SAMPLE[0] + GAP) * unit;
        self.text(x + 3 * each, top, Anchor::Start, "depth");
        let found = STATES.map(|state| depths(section, state));
        for depth in 0..=u8::MAX {
            let those: Vec<usize> = (0..3).filter(|place| found[*place].contains(&depth)).collect();
            if those.is_empty() {
                continue;
            }
            top += LINE * unit;
            for place in those {
                self.samples(x + place as i64 * each, top, &[colouring.fill(STATES[place], depth)]);
            }
            self.text(x + 3 * each + text_width("depth") * unit, top, Anchor::End, depth.to_string());
        }
    }
}

const STATES: [State; 3] = [State::Inside, State::Outside, State::Unsettled];

/// Texts grow with large pictures, by powers of two, as the font does.
fn unit(size: i64) -> i64 {
    match size {
        4000.. => 4,
        2000..4000 => 2,
        _ => 1,
    }
}

/// The pixels of both sides: `size` for the longer one, and as many for a tick of the other, but one at least.
fn sides(spans: [i64; 2], size: i64) -> [i64; 2] {
    let longer = spans[0].max(spans[1]);
    spans.map(|span| ((2 * size * span + longer) / (2 * longer)).max(1))
}

/// The axis, the position in millimetres, and the tick layer.
fn title(section: &Section) -> String {
    let minus = if section.layer < 0 { "-" } else { "" };
    let layer = grouped(section.layer.unsigned_abs());
    format!("{} = {}, tick layer {minus}{layer}", AXES[section.axis], mm(section.layer))
}

fn ends(name: &str, low: i64, high: i64) -> String {
    format!("{name} from {} to {}", decimal(low), mm(high))
}

/// The texts of the axis upwards from the top: three where there is room.
fn up_labels(section: &Section, room: bool) -> Vec<String> {
    let name = AXES[plane(section.axis)[1]];
    let [low, high] = [section.low[1], section.high[1]];
    if room { vec![mm(high), name.into(), mm(low)] } else { vec![ends(name, low, high)] }
}

/// The depths of a state's cells in the layer, the least first.
fn depths(section: &Section, state: State) -> Vec<u8> {
    let mut found = [false; 256];
    section.cells.iter().filter(|cell| cell.state == state).for_each(|cell| found[usize::from(cell.depth)] = true);
    (0..=u8::MAX).filter(|depth| found[usize::from(*depth)]).collect()
}

/// The colours of a state in the layer, from its least depth to its greatest; where it has no cell, the state's own.
fn sample(section: &Section, colouring: Colouring, state: State) -> Vec<Colour> {
    let depths = depths(section, state);
    if colouring == Colouring::State || depths.is_empty() {
        return vec![Colouring::State.fill(state, 0)];
    }
    depths.iter().map(|depth| colouring.fill(state, *depth)).collect()
}

/// The length of the scale bar in millimetres and in pixels: about a fifth of the width; of a part that is much higher
/// than wide, of a quarter of its height.
fn scale_bar(spans: [i64; 2], sides: [i64; 2]) -> (Round, i64) {
    let width = spans[0].max(spans[1] / 4).max(1);
    // The greatest round length up to three tenths lies above 3/25: the next one is at most 5/2 of it.
    let bar = Round::at_most(3 * width, 10 * TICKS);
    let longer = if spans[0] < spans[1] { 1 } else { 0 };
    let pixels = bar.times(1) * TICKS as f64 * sides[longer] as f64 / spans[longer] as f64;
    (bar, (pixels.round() as i64).max(1))
}

#[cfg(test)]
mod tests {
    use super::super::font;
    use super::super::section::made;
    use super::*;

    fn text(shape: &Shape) -> Option<&str> {
        if let Shape::Text { text, .. } = shape { Some(text) } else { None }
    }

    fn texts(picture: &Picture) -> Vec<&str> {
        picture.shapes.iter().filter_map(text).collect()
    }

    /// A part of so many millimetres with a cell of each state.
    fn part(high: [i64; 2]) -> Section {
        let high = high.map(|mm| mm * TICKS);
        let cells = [(State::Inside, 4, [0, 0], [high[0], 512]), (State::Unsettled, 12, [0, 512], [high[0], high[1]])];
        made(high, &cells)
    }

    #[test]
    fn sides_keep_the_proportion() {
        assert_eq!(sides([20480, 20480], 1000), [1000, 1000]);
        assert_eq!(sides([1000, 333], 100), [100, 33]);
        assert_eq!(sides([1, 3], 100), [33, 100]);
        assert_eq!(sides([1, 1 << 21], 100), [1, 100]);
    }

    #[test]
    fn scale_bars_are_round() {
        let bar = |spans: [i64; 2]| {
            let (bar, pixels) = scale_bar(spans, sides(spans, 1000));
            (bar.text(1), pixels)
        };
        assert_eq!(bar([20480, 20480]), ("5".into(), 250));
        assert_eq!(bar([10240, 20480]), ("2".into(), 100));
        assert_eq!(bar([1, 1]), ("0.0002".into(), 205));
        assert_eq!(bar([1 << 21, 1]), ("500".into(), 244));
        // The height counts where the width is nothing beside it.
        assert_eq!(bar([1024, 102_400]), ("5".into(), 50));
    }

    #[test]
    fn every_picture_holds_its_shapes_and_the_font_has_its_signs() {
        for high in [[20, 20], [1, 100], [100, 1], [2048, 1], [1, 2048]] {
            for (size, by_depth) in [(100, true), (1000, false), (2500, true), (8000, false)] {
                let section = part(high);
                let colouring = if by_depth { section.depths } else { Colouring::State };
                let picture = Picture::new(&section, colouring, size);
                let margin = MARGIN * picture.unit / 2;
                for shape in &picture.shapes {
                    let (left, right, bottom) = match shape {
                        Shape::Fill(area, _) | Shape::Hatch(area) => (area.x, area.right(), area.bottom()),
                        Shape::Text { x, y, anchor, text } => {
                            assert!(text.chars().all(font::has), "{text}");
                            let width = text_width(text) * picture.unit;
                            let left = match anchor {
                                Anchor::Start => *x,
                                Anchor::Middle => x - width / 2,
                                Anchor::End => x - width,
                            };
                            (left, left + width, *y)
                        }
                    };
                    assert!(margin <= left && right + margin <= picture.width, "{high:?} {size} {shape:?}");
                    assert!(bottom + margin <= picture.height, "{high:?} {size} {shape:?}");
                }
            }
        }
    }

    #[test]
    fn texts_of_a_picture() {
        let section = part([1, 1]);
        let picture = Picture::new(&section, Colouring::State, 500);
        let said = texts(&picture);
        for text in ["z = 0 mm, tick layer 0", "2 cells between 0 mm and 0.0009765625 mm", "x", "y", "0.2 mm", "inside"]
        {
            assert!(said.contains(&text), "{text} in {said:?}");
        }
        assert_eq!(said.iter().filter(|text| **text == "50.00 %").count(), 2);
        assert!(!said.contains(&"no cell") && !said.contains(&"depth"));
        let picture = Picture::new(&section, section.depths, 500);
        let depths: Vec<&str> = texts(&picture).into_iter().skip_while(|text| *text != "depth").collect();
        assert_eq!(depths, ["depth", "4", "12"]);
    }

    #[test]
    fn thin_parts_have_their_ends_in_one_text() {
        let high = part([1, 100]);
        assert!(texts(&Picture::new(&high, Colouring::State, 1000)).contains(&"x from 0 to 1 mm"));
        let flat = part([100, 1]);
        assert!(texts(&Picture::new(&flat, Colouring::State, 1000)).contains(&"y from 0 to 1 mm"));
    }

    #[test]
    fn gaps_are_in_the_legend() {
        let section = made([10, 10], &[(State::Outside, 0, [0, 0], [10, 9])]);
        assert!(texts(&Picture::new(&section, Colouring::State, 100)).contains(&"no cell"));
    }

    #[test]
    fn small_cells_have_no_border() {
        let section = made([100, 100], &[]);
        let picture = Picture::new(&section, Colouring::State, 100);
        let cell = |width, height| Rectangle { state: State::Inside, depth: 0, low: [0, 0], high: [width, height] };
        assert!(picture.bordered(&section, &cell(5, 5)));
        assert!(!picture.bordered(&section, &cell(4, 50)) && !picture.bordered(&section, &cell(50, 4)));
    }
}

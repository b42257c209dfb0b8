//! The layer report as a plot: z goes upwards, as the core stands, and to the right the shares of each layer's area
//! that are inside, unsettled and outside, one behind the other.

use super::shares;
use super::steps::{MOST, Step, steps};
use crate::cut::colours::{FRAME, INK, plain};
use crate::cut::round::Round;
use crate::cut::shapes::{Anchor, Area, DIGIT, GAP, LINE, MARGIN, SAMPLE, Shape, text_width};
use crate::lengths::{TICKS, grouped, mm};
use crate::svg::{Svg, hex};
use gyroid_cells::{Layer, State};
use std::fmt::Write;

/// The plot itself, without its texts.
const WIDTH: i64 = 640;
const HEIGHT: i64 = 800;
/// How long a mark of an axis is.
const MARK: i64 = 8;

/// A part of a layer's area.
type Part = fn(&Layer) -> u64;

struct Plot<'a> {
    layers: &'a [Layer],
    /// Where the areas are.
    area: Area,
    /// The ends of the run in ticks.
    low: i64,
    high: i64,
}

/// The plot of a run of layers that is not empty.
pub fn plot(layers: &[Layer]) -> String {
    let (low, high) = (layers[0].z, layers[layers.len() - 1].z + 1);
    // At least six marks; a step up to the next round number leaves at most fifteen.
    let heights = Round::at_most(high - low, 6 * TICKS);
    let labels = heights.multiples(low, high, TICKS).map(|count| text_width(&heights.text(count)));
    let left = MARGIN + labels.max().unwrap_or(0).max(text_width("z in mm")) + GAP + MARK;
    let area = Area { x: left, y: MARGIN + 3 * LINE + 2 * GAP, width: WIDTH, height: HEIGHT };
    let plot = Plot { layers, area, low, high };
    let (steps, left_out) = steps(layers, MOST);
    let title = format!("layers from {} to {} in z", mm(low), mm(high));
    let legend = area.right() + 3 * GAP;
    let mut svg = Svg::new(legend + legend_width() + MARGIN, area.bottom() + 3 * LINE + MARGIN, 1, &title);
    plot.heading(&mut svg, &title, left_out);
    plot.areas(&mut svg, &steps);
    plot.heights(&mut svg, heights);
    plot.parts(&mut svg);
    plot.legend(&mut svg, legend);
    svg.finish()
}

fn legend_width() -> i64 {
    SAMPLE[0] + GAP + text_width("unsettled  >99.99 % to >99.99 %")
}

impl Plot<'_> {
    fn heading(&self, svg: &mut Svg, title: &str, left_out: bool) {
        let count = grouped(self.layers.len() as u64);
        let drawn = match left_out {
            false => format!("{count} tick layers"),
            true => format!("{count} tick layers, of which {} in even steps are drawn", grouped(MOST as u64)),
        };
        text(svg, MARGIN, MARGIN, Anchor::Start, title);
        text(svg, MARGIN, MARGIN + LINE, Anchor::Start, &drawn);
    }

    /// A position in ticks, in pixels from the top.
    fn y(&self, ticks: f64) -> f64 {
        let above = (ticks - self.low as f64) / (self.high - self.low) as f64;
        self.area.bottom() as f64 - above * self.area.height as f64
    }

    /// Each state's area lies on those of the states that come after it.
    fn areas(&self, svg: &mut Svg, steps: &[Step]) {
        svg.shape(&Shape::Fill(self.area.wider(2), FRAME));
        svg.shape(&Shape::Hatch(self.area));
        let up_to: [(State, Part); 3] = [
            (State::Outside, Layer::area),
            (State::Unsettled, |layer| layer.inside + layer.unsettled),
            (State::Inside, |layer| layer.inside),
        ];
        for (state, part) in up_to {
            let outlines: Vec<String> = steps
                .chunk_by(|a, b| (a.layer.area() > 0) == (b.layer.area() > 0))
                .filter(|run| run[0].layer.area() > 0)
                .map(|run| self.outline(run, part))
                .collect();
            let (colour, outline) = (hex(plain(state)), outlines.join(""));
            svg.line(format_args!(r#"<path fill="{colour}" shape-rendering="crispEdges" d="{outline}"/>"#));
        }
    }

    /// The outline from the left edge to a part of each layer, upwards.
    fn outline(&self, run: &[Step], part: Part) -> String {
        let left = self.area.x;
        let corner = |step: &Step| {
            let share = part(&step.layer) as f64 / step.layer.area() as f64;
            [left as f64 + share * self.area.width as f64, self.y(step.high as f64)].map(number)
        };
        let corners: Vec<[String; 2]> = run.iter().map(corner).collect();
        // Steps of the same width have one side.
        let sides = corners.chunk_by(|a, b| a[0] == b[0]).map(|side| [&side[0][0], &side[side.len() - 1][1]]);
        let sides: String = sides.map(|[x, y]| format!("H{x}V{y}")).collect();
        format!("M{left} {}{sides}H{left}z", number(self.y(run[0].low as f64)))
    }

    /// The axis upwards.
    fn heights(&self, svg: &mut Svg, heights: Round) {
        let mut grid = String::new();
        let [left, right] = [self.area.x - MARK, self.area.right()];
        for count in heights.multiples(self.low, self.high, TICKS) {
            let y = self.y(heights.times(count) * TICKS as f64);
            write!(grid, "M{left} {y}H{right}", y = number(y)).expect("a string takes any text");
            text(svg, left - GAP / 2, y.round() as i64 - LINE / 2, Anchor::End, &heights.text(count));
        }
        self.lines(svg, &grid);
        text(svg, left - GAP / 2, self.area.y - LINE - GAP, Anchor::End, "z in mm");
    }

    /// The axis to the right.
    fn parts(&self, svg: &mut Svg) {
        let mut grid = String::new();
        let (top, bottom) = (self.area.y, self.area.bottom() + MARK);
        for tenth in (0..=10).step_by(2) {
            let x = self.area.x + self.area.width * tenth / 10;
            write!(grid, "M{x} {top}V{bottom}").expect("a string takes any text");
            text(svg, x, bottom, Anchor::Middle, &format!("{} %", 10 * tenth));
        }
        self.lines(svg, &grid);
        text(svg, self.area.x + self.area.width / 2, bottom + LINE, Anchor::Middle, "share of the layer's area");
    }

    /// Thin lines through which the areas can be seen.
    fn lines(&self, svg: &mut Svg, outline: &str) {
        svg.line(format_args!(r#"<path fill="none" stroke="{}" stroke-opacity="0.35" d="{outline}"/>"#, hex(INK)));
    }

    /// The states in the order from left to right, with the least and the greatest share of each.
    fn legend(&self, svg: &mut Svg, x: i64) {
        let parts: [(State, Part); 3] = [
            (State::Inside, |layer| layer.inside),
            (State::Unsettled, |layer| layer.unsettled),
            (State::Outside, |layer| layer.outside),
        ];
        let mut top = self.area.y;
        for (state, part) in parts {
            let sample = sample(svg, x, top);
            svg.shape(&Shape::Fill(sample, plain(state)));
            let range = shares::extremes(self.layers, part)
                .map(|layers| layers.map(|layer| shares::of(part(layer), layer)).join(" to "))
                .unwrap_or_default();
            text(svg, sample.right() + GAP, top, Anchor::Start, &state.to_string());
            text(svg, x + legend_width(), top, Anchor::End, &range);
            top += LINE;
        }
        if self.layers.iter().any(|layer| layer.area() == 0) {
            let sample = sample(svg, x, top);
            svg.shape(&Shape::Hatch(sample));
            text(svg, sample.right() + GAP, top, Anchor::Start, "no cell");
        }
    }
}

/// The frame of a sample, and the sample's area.
fn sample(svg: &mut Svg, x: i64, top: i64) -> Area {
    let sample = Area { x, y: top + (LINE - SAMPLE[1]) / 2, width: SAMPLE[0], height: SAMPLE[1] };
    svg.shape(&Shape::Fill(sample.wider(1), INK));
    sample
}

/// A text on the line that begins at `top`.
fn text(svg: &mut Svg, x: i64, top: i64, anchor: Anchor, text: &str) {
    svg.shape(&Shape::Text { x, y: top + (LINE + DIGIT) / 2, anchor, text: text.into() });
}

/// A coordinate to a hundredth of a pixel, as short as it can be.
fn number(pixels: f64) -> String {
    format!("{pixels:.2}").trim_end_matches('0').trim_end_matches('.').into()
}

#[cfg(test)]
mod tests {
    use super::*;

    fn layer(z: i64, inside: u64, outside: u64, unsettled: u64) -> Layer {
        Layer { z, inside, outside, unsettled }
    }

    /// What follows the last place of a text.
    fn after<'a>(whole: &'a str, text: &str) -> &'a str {
        whole.rsplit_once(text).unwrap_or_else(|| panic!("{text} in {whole}")).1
    }

    #[test]
    fn areas_are_steps_of_shares() {
        // Half of the lower layers, a quarter of the upper one; a quarter of each is unsettled.
        let plot = plot(&[layer(0, 2, 1, 1), layer(1, 2, 1, 1), layer(2, 2, 1, 1), layer(3, 1, 2, 1)]);
        let outline = |state| after(&plot, &format!(r#"<path fill="{}""#, hex(plain(state))));
        let left = "M128 926";
        let path = |d: &str| format!(r#" shape-rendering="crispEdges" d="{left}{d}"/>"#);
        assert!(outline(State::Inside).starts_with(&path("H448V326H288V126H128z")), "{plot}");
        assert!(outline(State::Unsettled).starts_with(&path("H608V326H448V126H128z")), "{plot}");
        assert!(outline(State::Outside).starts_with(&path("H768V126H128z")), "{plot}");
    }

    #[test]
    fn layers_without_a_cell_part_the_areas() {
        let plot = plot(&[layer(0, 1, 0, 0), layer(1, 0, 0, 0), layer(2, 1, 0, 0), layer(3, 0, 0, 0)]);
        let inside = after(&plot, &format!(r#"<path fill="{}""#, hex(plain(State::Inside))));
        assert!(inside.contains("H768V726H128zM"), "{plot}");
        assert!(plot.contains(">no cell</text>"), "{plot}");
    }

    #[test]
    fn axes_have_round_numbers() {
        let layers: Vec<Layer> = (-1024..1024).map(|z| layer(z, 1, 1, 0)).collect();
        let plot = plot(&layers);
        for text in ["-1", "-0.8", "0", "0.2", "1", "0 %", "60 %", "100 %", "2,048 tick layers", "50.00 % to 50.00 %"] {
            assert!(plot.contains(&format!(">{text}</text>")), "{text} in {plot}");
        }
        assert!(!plot.contains(">no cell</text>"), "{plot}");
    }

    #[test]
    fn many_steps_are_thinned_and_it_is_said() {
        let layers: Vec<Layer> = (0..20_480).map(|z| layer(z, z as u64 * 7919 % 100_003, 100_003, 50)).collect();
        let plot = plot(&layers);
        assert!(plot.contains(">20,480 tick layers, of which 2,000 in even steps are drawn</text>"));
        assert!(plot.len() < 100_000, "{} bytes", plot.len());
    }

    #[test]
    fn coordinates_are_short() {
        assert_eq!([0.0, 100.0, 12.5, 0.004, 99.999].map(number), ["0", "100", "12.5", "0", "100"]);
    }
}

//! A picture of a section as SVG. The cells are rectangles in ticks, in an element of their own that has the scale;
//! those of one colour are a group.

use super::colours::{Colouring, border};
use super::picture::Picture;
use super::section::{Rectangle, Section};
use super::shapes::{Area, Colour};
use crate::svg::{Svg, hex};
use std::collections::BTreeMap;

pub fn svg(picture: &Picture, section: &Section, colouring: Colouring, borders: bool) -> String {
    let mut svg = Svg::new(picture.width, picture.height, picture.unit, &picture.title);
    picture.shapes.iter().for_each(|shape| svg.shape(shape));
    let Area { x, y, width, height } = picture.cells;
    let [wide, high] = section.spans();
    // Upwards is down in a picture: the ordinates are negative. Without crisp edges what is below shines through seams.
    let (left, top) = (section.low[0], -section.high[1]);
    svg.line(format_args!(r#"<svg x="{x}" y="{y}" width="{width}" height="{height}""#));
    svg.line(format_args!(
        r#"viewBox="{left} {top} {wide} {high}" preserveAspectRatio="none" shape-rendering="crispEdges">"#
    ));
    for ((line, fill), cells) in groups(picture, section, colouring, borders) {
        group(&mut svg, picture, section, line, fill, &cells);
    }
    svg.line(format_args!("</svg>"));
    svg.finish()
}

/// The cells by the colours of their borders and of themselves. Those without a border come first, so that they do not
/// cover half of their neighbours' lines.
fn groups<'a>(
    picture: &Picture,
    section: &'a Section,
    colouring: Colouring,
    borders: bool,
) -> BTreeMap<(Option<Colour>, Colour), Vec<&'a Rectangle>> {
    let mut groups = BTreeMap::new();
    for cell in &section.cells {
        let line = (borders && picture.bordered(section, cell)).then(|| border(cell.state));
        groups.entry((line, colouring.fill(cell.state, cell.depth))).or_insert_with(Vec::new).push(cell);
    }
    groups
}

fn group(
    svg: &mut Svg,
    picture: &Picture,
    section: &Section,
    line: Option<Colour>,
    fill: Colour,
    cells: &[&Rectangle],
) {
    let fill = hex(fill);
    match line {
        None => svg.line(format_args!(r#"<g fill="{fill}">"#)),
        Some(line) => {
            // As wide as a unit, in ticks.
            let ticks = picture.unit as f64 * section.spans()[0] as f64 / picture.cells.width as f64;
            svg.line(format_args!(r#"<g fill="{fill}" stroke="{}" stroke-width="{ticks:.3}">"#, hex(line)));
        }
    }
    for Rectangle { low, high, .. } in cells {
        let [x, y, width, height] = [low[0], -high[1], high[0] - low[0], high[1] - low[1]];
        svg.line(format_args!(r#"<rect x="{x}" y="{y}" width="{width}" height="{height}"/>"#));
    }
    svg.line(format_args!("</g>"));
}

#[cfg(test)]
mod tests {
    use super::super::colours::plain;
    use super::super::section::made;
    use super::*;
    use gyroid_cells::State::{Inside, Outside};

    #[test]
    fn cells_are_grouped_by_colour_and_small_ones_come_first() {
        let cells = [
            (Outside, 1, [0, 0], [50, 100]),
            (Inside, 5, [50, 0], [51, 1]),
            (Inside, 1, [51, 0], [100, 100]),
            (Outside, 1, [50, 1], [51, 100]),
        ];
        let section = made([100, 100], &cells);
        let picture = Picture::new(&section, Colouring::State, 1000);
        let lines = |borders: bool| {
            let svg = svg(&picture, &section, Colouring::State, borders);
            let cells = svg.split_once("crispEdges\">\n").expect("an element of the cells").1;
            cells.lines().map(String::from).collect::<Vec<String>>()
        };
        let group = |state, stroke: &str| format!(r#"<g fill="{}"{stroke}>"#, hex(plain(state)));
        let stroke = |state| format!(r#" stroke="{}" stroke-width="0.100""#, hex(border(state)));
        let first = r#"<rect x="50" y="-1" width="1" height="1"/>"#;
        let second = r#"<rect x="0" y="-100" width="50" height="100"/>"#;
        let third = r#"<rect x="51" y="-100" width="49" height="100"/>"#;
        let fourth = r#"<rect x="50" y="-100" width="1" height="99"/>"#;
        let bare =
            [&group(Inside, ""), first, third, "</g>", &group(Outside, ""), second, fourth, "</g>", "</svg>", "</svg>"];
        assert_eq!(lines(false), bare);
        let bordered = lines(true);
        assert!(bordered.contains(&group(Inside, &stroke(Inside))), "{bordered:?}");
        assert!(bordered.contains(&group(Outside, &stroke(Outside))), "{bordered:?}");
        assert_eq!(bordered.len(), bare.len());
    }
}

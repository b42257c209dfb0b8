//! Pictures as SVG files: areas and texts at whole pixels, and elements that a picture writes itself.

use crate::cut::colours::{BETWEEN, INK, PAPER, STRIPE};
use crate::cut::shapes::{Anchor, Area, Colour, LETTER, Shape};
use std::fmt::{self, Write};

/// An SVG file, as far as it is written.
pub struct Svg {
    text: String,
}

impl Svg {
    /// The head, with the letters' size in units of so many pixels.
    pub fn new(width: i64, height: i64, unit: i64, title: &str) -> Self {
        let mut svg = Self { text: String::new() };
        svg.line(format_args!(r#"<?xml version="1.0" encoding="UTF-8"?>"#));
        // A letter of most fonts of one width is as wide as three fifths of the font's size.
        let (size, ink) = (unit * LETTER * 5 / 3, hex(INK));
        svg.line(format_args!(r#"<svg xmlns="http://www.w3.org/2000/svg" width="{width}" height="{height}""#));
        svg.line(format_args!(
            r#"viewBox="0 0 {width} {height}" font-family="monospace" font-size="{size}" fill="{ink}">"#
        ));
        svg.line(format_args!("<title>{}</title>", escaped(title)));
        svg.hatch(unit);
        svg.shape(&Shape::Fill(Area { x: 0, y: 0, width, height }, PAPER));
        svg
    }

    /// The pattern of places without a cell.
    fn hatch(&mut self, unit: i64) {
        let (side, stripe) = (8 * unit, 3 * unit);
        let units = r#"patternUnits="userSpaceOnUse" patternTransform="rotate(45)""#;
        self.line(format_args!(r#"<defs><pattern id="hatch" width="{side}" height="{side}" {units}>"#));
        self.rect(Area { x: 0, y: 0, width: side, height: side }, &hex(BETWEEN));
        self.rect(Area { x: 0, y: 0, width: stripe, height: side }, &hex(STRIPE));
        self.line(format_args!("</pattern></defs>"));
    }

    pub fn shape(&mut self, shape: &Shape) {
        match shape {
            Shape::Fill(area, colour) => self.rect(*area, &hex(*colour)),
            Shape::Hatch(area) => self.rect(*area, "url(#hatch)"),
            Shape::Text { x, y, anchor, text } => {
                let anchor = match anchor {
                    Anchor::Start => "",
                    Anchor::Middle => r#" text-anchor="middle""#,
                    Anchor::End => r#" text-anchor="end""#,
                };
                self.line(format_args!(r#"<text x="{x}" y="{y}"{anchor}>{}</text>"#, escaped(text)));
            }
        }
    }

    fn rect(&mut self, area: Area, fill: &str) {
        let Area { x, y, width, height } = area;
        self.line(format_args!(r#"<rect x="{x}" y="{y}" width="{width}" height="{height}" fill="{fill}"/>"#));
    }

    /// A line of the file, as it stands.
    pub fn line(&mut self, line: fmt::Arguments) {
        writeln!(self.text, "{line}").expect("a string takes any text");
    }

    /// The whole file.
    pub fn finish(mut self) -> String {
        self.line(format_args!("</svg>"));
        self.text
    }
}

pub fn hex(colour: Colour) -> String {
    let [red, green, blue] = colour;
    format!("#{red:02x}{green:02x}{blue:02x}")
}

fn escaped(text: &str) -> String {
    text.replace('&', "&amp;").replace('<', "&lt;").replace('>', "&gt;")
}

#[cfg(test)]
mod tests {
    use super::*;

    #[test]
    fn shapes_as_elements() {
        let mut svg = Svg::new(30, 20, 1, "a < b");
        svg.shape(&Shape::Hatch(Area { x: 1, y: 2, width: 3, height: 4 }));
        svg.shape(&Shape::Text { x: 5, y: 6, anchor: Anchor::End, text: "<0.01 % & more".into() });
        let text = svg.finish();
        assert!(text.contains(r#"viewBox="0 0 30 20" font-family="monospace" font-size="20""#), "{text}");
        assert!(text.contains("<title>a &lt; b</title>"), "{text}");
        let last = [
            r##"<rect x="0" y="0" width="30" height="20" fill="#ffffff"/>"##,
            r#"<rect x="1" y="2" width="3" height="4" fill="url(#hatch)"/>"#,
            r#"<text x="5" y="6" text-anchor="end">&lt;0.01 % &amp; more</text>"#,
            "</svg>\n",
        ];
        assert!(text.ends_with(&last.join("\n")), "{text}");
    }
}

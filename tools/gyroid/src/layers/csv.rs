//! The layer report as a CSV file, a line a layer.
//!
//! Tick squares are exact. Square millimetres have six digits behind the point, rounded to nearest: a tick square is
//! about 0.000001 of them. So has the share of the layer's area that is inside; it is left empty where no cell crosses
//! the layer.

use crate::lengths::decimal;
use gyroid_cells::Layer;
use std::io::{self, Write};

const HEAD: &str = "layer,z_mm,inside,outside,unsettled,inside_mm2,outside_mm2,unsettled_mm2,inside_share";

pub fn write(layers: &[Layer], file: &mut dyn Write) -> io::Result<()> {
    writeln!(file, "{HEAD}")?;
    layers.iter().try_for_each(|layer| writeln!(file, "{}", line(layer)))
}

fn line(layer: &Layer) -> String {
    let areas = [layer.inside, layer.outside, layer.unsettled];
    let [inside, outside, unsettled] = areas.map(|squares| rounded(squares, 1 << 20));
    let share = if layer.area() == 0 { String::new() } else { rounded(layer.inside, layer.area()) };
    let squares = areas.map(|squares| squares.to_string()).join(",");
    format!("{},{},{squares},{inside},{outside},{unsettled},{share}", layer.z, decimal(layer.z))
}

/// A fraction with six digits behind the point, rounded to nearest.
fn rounded(numerator: u64, denominator: u64) -> String {
    let (numerator, denominator) = (u128::from(numerator), u128::from(denominator));
    let millionths = (2_000_000 * numerator + denominator) / (2 * denominator);
    format!("{}.{:06}", millionths / 1_000_000, millionths % 1_000_000)
}

#[cfg(test)]
mod tests {
    use super::*;

    #[test]
    fn a_line_of_a_layer() {
        let layer = Layer { z: -1, inside: 1 << 19, outside: 1, unsettled: (1 << 63) - (1 << 19) - 1 };
        let said = "-1,-0.0009765625,524288,1,9223372036854251519,0.500000,0.000001,8796093022207.499999,0.000000";
        assert_eq!(line(&layer), said);
        assert_eq!(
            line(&Layer { z: 1024, inside: 1, outside: 2, unsettled: 0 }),
            "1024,1,1,2,0,0.000001,0.000002,0.000000,0.333333"
        );
        assert_eq!(line(&Layer { z: 0, inside: 0, outside: 0, unsettled: 0 }), "0,0,0,0,0,0.000000,0.000000,0.000000,");
    }
}

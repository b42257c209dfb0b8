//! A surface as an OBJ file: its points in decimal millimetres, each once, and its triangles by their numbers from 1.

use super::surface::Surface;
use crate::lengths::decimal_over;
use std::io::{self, Write};

pub fn write(surface: &Surface, to: &mut dyn Write) -> io::Result<()> {
    writeln!(to, "# Surface of gyroid cells in millimetres")?;
    for point in &surface.points {
        let [x, y, z] = point.map(millimetres);
        writeln!(to, "v {x} {y} {z}")?;
    }
    for triangle in &surface.triangles {
        let [a, b, c] = triangle.map(|number| number + 1);
        writeln!(to, "f {a} {b} {c}")?;
    }
    Ok(())
}

/// Half ticks in millimetres, n/2048, as an exact decimal.
fn millimetres(half_ticks: i32) -> String {
    decimal_over(half_ticks.into(), 11)
}

#[cfg(test)]
mod tests {
    use super::*;
    use crate::lengths::decimal;
    use gyroid_cells::{Bounds, Cell, State};

    fn cell(low: [i64; 3], high: [i64; 3]) -> Cell {
        Cell { state: State::Inside, depth: 0, bounds: Bounds { low, high } }
    }

    fn written(surface: &Surface) -> String {
        let mut bytes = Vec::new();
        write(surface, &mut bytes).unwrap();
        String::from_utf8(bytes).unwrap()
    }

    #[test]
    fn decimals() {
        assert_eq!([0, 1, -1, 2048, -3072].map(millimetres), ["0", "0.00048828125", "-0.00048828125", "1", "-1.5"]);
        for ticks in [-(1 << 20), -1023, -1, 5, 1000, 1 << 20] {
            assert_eq!(millimetres(2 * ticks), decimal(ticks.into()));
        }
    }

    #[test]
    fn one_cell() {
        let text = written(&Surface::of(&[cell([0; 3], [1024, 512, 1])]));
        let lines: Vec<&str> = text.lines().collect();
        assert_eq!(lines.len(), 1 + 8 + 12);
        assert_eq!(lines[1..3], ["v 0 0 0", "v 0 0 0.0009765625"]);
        assert_eq!(lines[8], "v 1 0.5 0.0009765625");
    }

    /// Read back, it is the surface; a centre at half ticks is among the points.
    #[test]
    fn numbers_from_one_to_the_last_point() {
        let surface = Surface::of(&[cell([0; 3], [3; 3]), cell([3, 1, 1], [4, 2, 2])]);
        let text = written(&surface);
        let rows = |head: &str| -> Vec<Vec<String>> {
            let rows = text.lines().filter_map(|line| line.strip_prefix(head));
            rows.map(|row| row.split(' ').map(String::from).collect()).collect()
        };
        let points: Vec<Vec<String>> = surface.points.iter().map(|point| point.map(millimetres).into()).collect();
        assert_eq!(rows("v "), points);
        let read: Vec<Vec<usize>> =
            rows("f ").iter().map(|row| row.iter().map(|n| n.parse::<usize>().unwrap() - 1).collect()).collect();
        assert_eq!(read, surface.triangles);
        assert_eq!(read.concat().into_iter().max(), Some(surface.points.len() - 1));
        assert!(text.contains(".00146484375"), "no centre at half ticks");
    }
}

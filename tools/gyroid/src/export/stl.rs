//! A surface as a binary STL file: 80 bytes of text, the number of triangles, and each with its normal and its points.

use super::surface::Surface;
use std::io::{self, Write};

/// Readers take a file that begins with `solid` for the text form.
const TITLE: &str = "Surface of gyroid cells in millimetres";

pub fn write(surface: &Surface, to: &mut dyn Write) -> io::Result<()> {
    write!(to, "{TITLE:\0<80}")?;
    to.write_all(&count(surface.triangles.len())?.to_le_bytes())?;
    for points in surface.corners() {
        for number in normal(points).into_iter().chain(points.as_flattened().iter().map(|n| millimetres(*n))) {
            to.write_all(&number.to_le_bytes())?;
        }
        to.write_all(&[0; 2])?;
    }
    Ok(())
}

fn count(triangles: usize) -> io::Result<u32> {
    let many = |_| io::Error::other(format!("{triangles} triangles are more than an STL file can count"));
    u32::try_from(triangles).map_err(many)
}

/// Half ticks in millimetres. Exact: they are within 2^21 either way, and a 32-bit float holds whole numbers to 2^24.
fn millimetres(half_ticks: i32) -> f32 {
    half_ticks as f32 / 2048.0
}

/// The outward normal of a triangle that lies across an axis.
fn normal([a, b, c]: [[i32; 3]; 3]) -> [f32; 3] {
    let [b, c] = [b, c].map(|end| [0, 1, 2].map(|i| i64::from(end[i]) - i64::from(a[i])));
    let across = [b[1] * c[2] - b[2] * c[1], b[2] * c[0] - b[0] * c[2], b[0] * c[1] - b[1] * c[0]];
    across.map(|n| n.signum() as f32)
}

#[cfg(test)]
mod tests {
    use super::*;
    use gyroid_cells::{Bounds, Cell, State};

    fn float(bytes: &[u8]) -> f32 {
        f32::from_le_bytes(bytes.try_into().unwrap())
    }

    fn written(low: [i64; 3], high: [i64; 3]) -> Vec<u8> {
        let mut bytes = Vec::new();
        let surface = Surface::of(&[Cell { state: State::Inside, depth: 0, bounds: Bounds { low, high } }]);
        write(&surface, &mut bytes).unwrap();
        bytes
    }

    #[test]
    fn head_and_length() {
        let bytes = written([0; 3], [1024; 3]);
        assert!(bytes.starts_with(TITLE.as_bytes()) && !TITLE.starts_with("solid"));
        assert!(bytes[TITLE.len()..80].iter().all(|byte| *byte == 0));
        assert_eq!(bytes[80..84], 12_u32.to_le_bytes());
        assert_eq!(bytes.len(), 84 + 12 * 50);
    }

    /// The normal is the unit vector of the cross product, and points away from the cell's centre.
    #[test]
    fn normals_point_outward() {
        for triangle in written([-1024; 3], [1024; 3])[84..].chunks(50) {
            let numbers: Vec<f32> = triangle[..48].chunks(4).map(float).collect();
            let (normal, points) = numbers.split_at(3);
            assert_eq!(triangle[48..], [0; 2]);
            assert_eq!(normal.iter().map(|n| n.abs()).sum::<f32>(), 1.0);
            // All points are where the normal leads from the centre, 1 mm away.
            for point in points.chunks(3) {
                assert_eq!((0..3).map(|i| normal[i] * point[i]).sum::<f32>(), 1.0, "{numbers:?}");
            }
            let [a, b, c] = [0, 3, 6].map(|at| [0, 1, 2].map(|i| points[at + i]));
            let [b, c] = [b, c].map(|end| [0, 1, 2].map(|i| end[i] - a[i]));
            let turns = (0..3).all(|i| {
                let [j, k] = [(i + 1) % 3, (i + 2) % 3];
                b[j] * c[k] - b[k] * c[j] == 4.0 * normal[i]
            });
            assert!(turns, "{numbers:?}");
        }
    }

    #[test]
    fn coordinates_are_exact_to_the_limits() {
        for half_ticks in [1 << 21, (1 << 21) - 1, 1, 0, -1, 1 - (1 << 21)] {
            assert_eq!(f64::from(millimetres(half_ticks)) * 2048.0, f64::from(half_ticks));
        }
    }

    #[test]
    fn too_many_triangles() {
        assert_eq!(count(u32::MAX as usize).unwrap(), u32::MAX);
        let message = "4294967296 triangles are more than an STL file can count";
        assert_eq!(count(1 << 32).unwrap_err().to_string(), message);
    }
}

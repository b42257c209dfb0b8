//! Cells as a legacy VTK file: an unstructured grid of boxes, each with its state and its depth. It is binary, which is
//! big endian here.

use gyroid_cells::Cell;
use std::collections::HashMap;
use std::io::{self, Write};

/// A box along the axes, its corners x fastest and z slowest.
const VTK_VOXEL: i32 = 11;

/// Points in millimetres, state 1 inside, 2 outside, 3 unsettled.
pub fn write(cells: &[Cell], to: &mut dyn Write) -> io::Result<()> {
    let count = cells.len();
    let numbers = counted(count * 9)?;
    let grid = Grid::of(cells);
    writeln!(to, "# vtk DataFile Version 3.0\nGyroid cells in millimetres\nBINARY\nDATASET UNSTRUCTURED_GRID")?;
    writeln!(to, "POINTS {} float", grid.points.len())?;
    for ticks in grid.points.as_flattened() {
        to.write_all(&millimetres(*ticks).to_be_bytes())?;
    }
    writeln!(to, "\nCELLS {count} {numbers}")?;
    for voxel in grid.voxels {
        to.write_all(&8_i32.to_be_bytes())?;
        for number in voxel {
            to.write_all(&number.to_be_bytes())?;
        }
    }
    writeln!(to, "\nCELL_TYPES {count}")?;
    for _ in cells {
        to.write_all(&VTK_VOXEL.to_be_bytes())?;
    }
    write!(to, "\nCELL_DATA {count}")?;
    scalars("state", cells.iter().map(|cell| cell.state as u8), to)?;
    scalars("depth", cells.iter().map(|cell| cell.depth), to)
}

/// A byte for each cell.
fn scalars(name: &str, values: impl Iterator<Item = u8>, to: &mut dyn Write) -> io::Result<()> {
    writeln!(to, "\nSCALARS {name} unsigned_char 1\nLOOKUP_TABLE default")?;
    to.write_all(&values.collect::<Vec<u8>>())?;
    to.write_all(b"\n")
}

/// A number of the file, which has 32 bits.
fn counted(numbers: usize) -> io::Result<i32> {
    let many = |_| io::Error::other("there are more cells than a legacy VTK file can count; choose fewer by --only");
    i32::try_from(numbers).map_err(many)
}

/// Ticks in millimetres. Exact: n/1024 with n within 2^20 either way, and a 32-bit float holds whole numbers to 2^24.
fn millimetres(ticks: i32) -> f32 {
    ticks as f32 / 1024.0
}

/// The cells' corners in ticks, each once, in the order of their first use, and the numbers of each cell's eight.
struct Grid {
    points: Vec<[i32; 3]>,
    voxels: Vec<[i32; 8]>,
}

impl Grid {
    fn of(cells: &[Cell]) -> Self {
        let mut grid = Self { points: Vec::new(), voxels: Vec::new() };
        let mut numbers = HashMap::new();
        for cell in cells {
            grid.voxels.push(corners(cell).map(|corner| {
                *numbers.entry(corner).or_insert_with(|| {
                    grid.points.push(corner);
                    grid.points.len() as i32 - 1
                })
            }));
        }
        grid
    }
}

fn corners(cell: &Cell) -> [[i32; 3]; 8] {
    // A sound table's coordinates are within 2^20 either way.
    let ends = [cell.bounds.low, cell.bounds.high].map(|corner| corner.map(|n| n as i32));
    [0, 1, 2, 3, 4, 5, 6, 7].map(|corner: usize| [0, 1, 2].map(|axis| ends[corner >> axis & 1][axis]))
}

#[cfg(test)]
mod tests {
    use super::*;
    use gyroid_cells::{Bounds, State};

    const HEAD: &str = "# vtk DataFile Version 3.0\nGyroid cells in millimetres\nBINARY\nDATASET UNSTRUCTURED_GRID\n";

    fn two() -> [Cell; 2] {
        [
            Cell { state: State::Outside, depth: 7, bounds: Bounds { low: [0; 3], high: [512, 1024, 2048] } },
            Cell { state: State::Unsettled, depth: 24, bounds: Bounds { low: [512, 0, 0], high: [1024, 1024, 2048] } },
        ]
    }

    /// Takes a text from the front of the bytes, then as many bytes as are said.
    fn take<'a>(bytes: &mut &'a [u8], text: &str, count: usize) -> &'a [u8] {
        let rest = bytes.strip_prefix(text.as_bytes());
        let (taken, rest) = rest.unwrap_or_else(|| panic!("no {text:?}: {:?}", bytes.escape_ascii())).split_at(count);
        *bytes = rest;
        taken
    }

    fn numbers(bytes: &[u8]) -> Vec<i32> {
        bytes.chunks(4).map(|four| i32::from_be_bytes(four.try_into().unwrap())).collect()
    }

    #[test]
    fn two_cells_share_four_points() {
        let mut bytes = Vec::new();
        write(&two(), &mut bytes).unwrap();
        let mut rest = &bytes[..];
        take(&mut rest, HEAD, 0);
        let points = take(&mut rest, "POINTS 12 float\n", 12 * 12);
        let floats: Vec<f32> = numbers(points).into_iter().map(|bits| f32::from_bits(bits as u32)).collect();
        // The first cell's corners, then the four that the second one adds.
        let [first, second] = [floats[..24].to_vec(), floats[24..].to_vec()];
        let box_of = |x: [f32; 2]| [0.0, 2.0].map(|z| [0.0, 1.0].map(|y| x.map(|x| [x, y, z])));
        assert_eq!(first, box_of([0.0, 0.5]).as_flattened().as_flattened().as_flattened());
        let added: Vec<f32> = [0.0, 2.0].iter().flat_map(|z| [0.0, 1.0].map(|y| [1.0, y, *z])).flatten().collect();
        assert_eq!(second, added);
        let cells = numbers(take(&mut rest, "\nCELLS 2 18\n", 2 * 9 * 4));
        assert_eq!(cells, [8, 0, 1, 2, 3, 4, 5, 6, 7, 8, 1, 8, 3, 9, 5, 10, 7, 11]);
        assert_eq!(numbers(take(&mut rest, "\nCELL_TYPES 2\n", 8)), [VTK_VOXEL; 2]);
        let states = take(&mut rest, "\nCELL_DATA 2\nSCALARS state unsigned_char 1\nLOOKUP_TABLE default\n", 2);
        assert_eq!(states, [2, 3]);
        let depths = take(&mut rest, "\n\nSCALARS depth unsigned_char 1\nLOOKUP_TABLE default\n", 2);
        assert_eq!((depths, rest), (&[7, 24][..], &b"\n"[..]));
    }

    #[test]
    fn coordinates_are_exact_to_the_limits() {
        for ticks in [1 << 20, (1 << 20) - 1, 1, 0, -1, -1 << 20] {
            assert_eq!(f64::from(millimetres(ticks)) * 1024.0, f64::from(ticks));
        }
    }

    #[test]
    fn too_many_cells() {
        assert_eq!(counted(i32::MAX as usize).unwrap(), i32::MAX);
        let message = "there are more cells than a legacy VTK file can count; choose fewer by --only";
        assert_eq!(counted(1 << 31).unwrap_err().to_string(), message);
    }
}

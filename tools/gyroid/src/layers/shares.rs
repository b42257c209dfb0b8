//! Shares of a layer's area, and the layers with the least and the greatest one.

use crate::lengths::per_cent;
use gyroid_cells::Layer;
use std::cmp::Ordering;

/// A part of a layer's area in per cent.
pub fn of(part: u64, layer: &Layer) -> String {
    per_cent(part, layer.area())
}

/// The layers of which a part is the least and the greatest share, the lowest of equal ones; none where no cell crosses
/// any layer.
pub fn extremes(layers: &[Layer], part: impl Fn(&Layer) -> u64) -> Option<[&Layer; 2]> {
    let crossed = || layers.iter().filter(|layer| layer.area() > 0);
    // Of equal ones `min_by` answers the first, and `max_by` the last.
    let least = crossed().min_by(|a, b| compared(part(a), a, part(b), b))?;
    let greatest = crossed().rev().max_by(|a, b| compared(part(a), a, part(b), b))?;
    Some([least, greatest])
}

/// Two shares compared, exactly.
fn compared(a: u64, in_a: &Layer, b: u64, in_b: &Layer) -> Ordering {
    let [a, b] = [(a, in_b), (b, in_a)].map(|(part, other)| u128::from(part) * u128::from(other.area()));
    a.cmp(&b)
}

#[cfg(test)]
mod tests {
    use super::*;

    #[test]
    fn the_lowest_of_equal_layers() {
        let layer = |z, inside, outside| Layer { z, inside, outside, unsettled: 0 };
        let layers = [layer(0, 0, 0), layer(1, 1, 2), layer(2, 2, 4), layer(3, 3, 3), layer(4, 5, 5)];
        let found = extremes(&layers, |layer| layer.inside).map(|layers| layers.map(|layer| layer.z));
        assert_eq!(found, Some([1, 3]));
        let found = extremes(&layers, |layer| layer.outside).map(|layers| layers.map(|layer| layer.z));
        assert_eq!(found, Some([3, 1]));
        assert_eq!(extremes(&layers[..1], |layer| layer.inside), None);
    }

    #[test]
    fn shares_that_doubles_do_not_tell_apart() {
        let layer = |z, inside| Layer { z, inside, outside: (1 << 62) - inside, unsettled: 0 };
        let layers = [layer(0, (1 << 61) + 1), layer(1, 1 << 61)];
        let found = extremes(&layers, |layer| layer.inside).map(|layers| layers.map(|layer| layer.z));
        assert_eq!(found, Some([1, 0]));
    }
}

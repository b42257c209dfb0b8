//! The steps of a plot: neighbouring layers with equal areas are one. Where even these are too many, the run is parted
//! into as many bands as may be drawn, and each shows the layer in its middle.

use gyroid_cells::Layer;

/// More steps than this are not drawn.
pub const MOST: usize = 2000;

/// The layers from `low` up to, and without, `high`, drawn as one of them.
#[derive(Clone, Copy, Debug, PartialEq)]
pub struct Step {
    pub low: i64,
    pub high: i64,
    pub layer: Layer,
}

/// The steps of a run of layers, and whether some layers are left out.
pub fn steps(layers: &[Layer], most: usize) -> (Vec<Step>, bool) {
    let areas = |layer: &Layer| [layer.inside, layer.outside, layer.unsettled];
    let alike: Vec<Step> = layers.chunk_by(|a, b| areas(a) == areas(b)).map(|run| step(run, 0)).collect();
    if alike.len() <= most {
        return (alike, false);
    }
    let band = |place: usize| &layers[place * layers.len() / most..(place + 1) * layers.len() / most];
    let bands = (0..most).map(|place| step(band(place), band(place).len() / 2)).collect();
    (bands, true)
}

/// A run that is drawn as the layer at a place of it.
fn step(run: &[Layer], place: usize) -> Step {
    Step { low: run[0].z, high: run[0].z + run.len() as i64, layer: run[place] }
}

#[cfg(test)]
mod tests {
    use super::*;

    fn layers(inside: &[u64]) -> Vec<Layer> {
        (5..).zip(inside).map(|(z, inside)| Layer { z, inside: *inside, outside: 1, unsettled: 2 }).collect()
    }

    fn ends(steps: &[Step]) -> Vec<(i64, i64, u64)> {
        steps.iter().map(|step| (step.low, step.high, step.layer.inside)).collect()
    }

    #[test]
    fn equal_neighbours_are_one_step() {
        let (found, left_out) = steps(&layers(&[7, 7, 0, 7, 7, 7]), 3);
        assert_eq!((ends(&found), left_out), (vec![(5, 7, 7), (7, 8, 0), (8, 11, 7)], false));
    }

    #[test]
    fn bands_cover_the_run_and_show_layers_of_it() {
        let (found, left_out) = steps(&layers(&[0, 1, 2, 3, 4, 5, 6]), 3);
        assert_eq!((ends(&found), left_out), (vec![(5, 7, 1), (7, 9, 3), (9, 12, 5)], true));
    }
}

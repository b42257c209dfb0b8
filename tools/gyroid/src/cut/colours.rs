//! The colours of cells, by state, or by state and depth. Inside is dark and blue, outside light and grey, unsettled
//! orange: they differ in lightness and from blue to yellow, so that eyes which confuse red and green tell them apart.

use super::shapes::Colour;
use gyroid_cells::State;

pub const PAPER: Colour = [255, 255, 255];
pub const INK: Colour = [34, 34, 34];
/// The frame about the cells.
pub const FRAME: Colour = [84, 88, 94];
/// The stripes where there is no cell, and what is between them.
pub const STRIPE: Colour = [190, 190, 190];
pub const BETWEEN: Colour = [226, 226, 226];

/// What the colour of a cell says.
#[derive(Clone, Copy, Debug, PartialEq)]
pub enum Colouring {
    State,
    /// The state, and the depth from the least to the greatest of the table.
    Depth {
        least: u8,
        greatest: u8,
    },
}

impl Colouring {
    pub fn fill(self, state: State, depth: u8) -> Colour {
        match self {
            Colouring::State => plain(state),
            Colouring::Depth { least, greatest } => {
                let span = i32::from(greatest.saturating_sub(least)).max(1);
                blend(scale(state), i32::from(depth.saturating_sub(least)).min(span), span)
            }
        }
    }
}

/// The colour of a state.
pub fn plain(state: State) -> Colour {
    match state {
        State::Inside => [36, 82, 138],
        State::Outside => [246, 244, 239],
        State::Unsettled => [240, 160, 32],
    }
}

/// The lines between cells.
pub fn border(state: State) -> Colour {
    match state {
        State::Inside => [112, 150, 190],
        State::Outside => [196, 192, 184],
        State::Unsettled => [176, 104, 0],
    }
}

/// The colours of a state from the least depth to the greatest: in even steps of lightness, towards the surface, where
/// the deepest cells are.
fn scale(state: State) -> [Colour; 3] {
    match state {
        State::Inside => [[16, 37, 74], [51, 91, 133], [91, 151, 200]],
        State::Outside => [[251, 250, 247], [218, 216, 212], [186, 183, 177]],
        State::Unsettled => [[156, 63, 0], [200, 113, 12], [245, 163, 28]],
    }
}

/// The colour at step / steps of the way along the anchors.
fn blend(anchors: [Colour; 3], step: i32, steps: i32) -> Colour {
    let (first, along) = if 2 * step < steps { (0, 2 * step) } else { (1, 2 * step - steps) };
    let mixed = |i: usize| {
        let [from, to] = [anchors[first][i], anchors[first + 1][i]].map(i32::from);
        (from + ((to - from) * along) / steps) as u8
    };
    [0, 1, 2].map(mixed)
}

#[cfg(test)]
mod tests {
    use super::*;

    const STATES: [State; 3] = [State::Inside, State::Outside, State::Unsettled];

    /// How light a colour looks, roughly.
    fn lightness(colour: Colour) -> i32 {
        let [red, green, blue] = colour.map(i32::from);
        (299 * red + 587 * green + 114 * blue) / 1000
    }

    #[test]
    fn depths_go_from_anchor_to_anchor() {
        let colouring = Colouring::Depth { least: 4, greatest: 8 };
        for state in STATES {
            assert_eq!([4, 6, 8].map(|depth| colouring.fill(state, depth)), scale(state));
            let steps =
                [4, 5, 6, 7].map(|n| lightness(colouring.fill(state, n + 1)) - lightness(colouring.fill(state, n)));
            assert!(
                steps.iter().all(|step| step.signum() == steps[0].signum() && (step - steps[0]).abs() <= 4),
                "{steps:?}"
            );
        }
        let single = Colouring::Depth { least: 3, greatest: 3 };
        assert_eq!(single.fill(State::Inside, 3), scale(State::Inside)[0]);
    }

    #[test]
    fn inside_is_darker_than_outside_at_every_depth() {
        let colouring = Colouring::Depth { least: 0, greatest: 24 };
        let inside = (0..=24).map(|depth| lightness(colouring.fill(State::Inside, depth))).max();
        let outside = (0..=24).map(|depth| lightness(colouring.fill(State::Outside, depth))).min();
        assert!(inside < outside);
    }
}

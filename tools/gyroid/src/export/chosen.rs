//! The states whose cells are exported: the value of `--only`.

use gyroid_cells::{Cell, State};

const STATES: [State; 3] = [State::Inside, State::Outside, State::Unsettled];

/// Some of the three states, each once, in their order.
#[derive(Debug, PartialEq)]
pub struct Chosen(Vec<State>);

impl Chosen {
    pub fn all() -> Self {
        Self(STATES.into())
    }

    pub fn inside() -> Self {
        Self(vec![State::Inside])
    }

    /// Reads states joined by `+`: `inside`, `inside+unsettled`.
    pub fn read(text: &str) -> Option<Self> {
        let state = |word: &str| STATES.into_iter().find(|state| state.to_string() == word);
        let named = text.split('+').map(state).collect::<Option<Vec<State>>>()?;
        Some(Self(STATES.into_iter().filter(|state| named.contains(state)).collect()))
    }

    pub fn has(&self, cell: &Cell) -> bool {
        self.0.contains(&cell.state)
    }

    /// The states, with a word between the last two: `inside or unsettled`.
    pub fn listed(&self, word: &str) -> String {
        let names: Vec<String> = self.0.iter().map(State::to_string).collect();
        match &names[..] {
            [first @ .., last] if !first.is_empty() => format!("{} {word} {last}", first.join(", ")),
            names => names.concat(),
        }
    }
}

#[cfg(test)]
mod tests {
    use super::*;

    #[test]
    fn states_in_any_order() {
        assert_eq!(Chosen::read("inside"), Some(Chosen::inside()));
        assert_eq!(Chosen::read("unsettled+inside+outside"), Some(Chosen::all()));
        assert_eq!(Chosen::read("unsettled+inside"), Some(Chosen(vec![State::Inside, State::Unsettled])));
    }

    #[test]
    fn no_states() {
        for text in ["", "+", "inside+", "solid", "Inside", "inside,outside", "inside + outside"] {
            assert_eq!(Chosen::read(text), None, "{text}");
        }
    }

    #[test]
    fn listed_in_words() {
        let listed = |text| Chosen::read(text).map(|chosen| chosen.listed("or"));
        assert_eq!(listed("inside").as_deref(), Some("inside"));
        assert_eq!(listed("unsettled+inside").as_deref(), Some("inside or unsettled"));
        assert_eq!(Chosen::all().listed("and"), "inside, outside and unsettled");
    }
}

//! The original's box state.

#[derive(Clone, Copy, Debug, PartialEq, Eq)]
pub enum BoxState {
    Inside,
    Outside,
    Unknown,
}

//! The proved library beside the original Rust, and beside document 02's lines for the surface that the original lacks.
//! Each module has one part of the comparison; the programs `ask`, `differ`, `list` and `bench` put them together.

pub mod added;
pub mod boxes;
pub mod cases;
pub mod chance;
pub mod descriptions;
pub mod entries;
pub mod guard;
pub mod layer_cases;
pub mod layer_chances;
pub mod layer_list;
pub mod layer_race;
pub mod layers;
pub mod lent_report;
pub mod lent_table;
pub mod list;
pub mod original;
pub mod ours;
pub mod placed;
pub mod race;
pub mod report;
pub mod rust_layers;
pub mod shrink;
pub mod slices;
pub mod specials;
pub mod stack;
pub mod tables;
pub mod tally;
pub mod ties;
pub mod walk;
pub mod walk_list;
pub mod walks;

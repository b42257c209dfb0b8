//! The evaluation behind the marks of graded gyroid cells, proved in Rattle, for Rust programs.
//!
//! A core is a [`Description`] in whole ticks (1/1024 mm) and level counts (1/1024), of one [`Surface`] or another.
//! Each call takes a description and compiles it; nothing is kept between calls, nothing is allocated, and every call
//! ends. What a call cannot work on it refuses by a number: [`Refusal`]. Where a call may find nothing, it answers an
//! [`Option`]. [`walk`] marks a whole part box and leaves its cells in a table that the caller lends; a [`TieRule`]
//! says across which axis it halves a box whose longest sides tie. [`layers`] takes such a table in place of a
//! description, and says what area its cells have in each layer.
//!
//! ```
//! use gyroid_cells::{Description, Interval, State, box_state, residual};
//!
//! // A network of period 10 mm at the level 2, and the lower half of a millimetre cube.
//! let core = Description::constant(10240, 2048);
//! let world = [Interval::new(0.0, 0.5), Interval::new(0.0, 1.0), Interval::new(0.0, 1.0)];
//!
//! assert_eq!(box_state(&core, world), Ok(State::Inside));
//! let enclosure = residual(&core, world)?.expect("a box this small is within reach");
//! assert!(enclosure.hi < 0.0);
//!
//! // A period of 0 is refused by 2.
//! let refused = residual(&Description::constant(0, 2048), world).unwrap_err();
//! assert_eq!(refused.number(), 2);
//! # Ok::<(), gyroid_cells::Refusal>(())
//! ```
//!
//! The proofs speak of IEEE 754 as a processor starts, and another library of the process may have changed that: one
//! built with `-ffast-math` does. So each call sets the default float state (MXCSR 0x1F80) for its time and restores
//! the caller's, exception flags and all; only [`layers`], which computes with whole numbers alone, has no need to. The
//! functions of [`raw`] do not.
//!
//! The static library is made by `.ci/build capi` in the project's root; the build runs that command where the
//! library is missing. `GYROID_ARCHIVE_DIR` names another directory; a relative one is read from where cargo was
//! started. bindings/gyroid.h has the same calls for C.
#![no_std]
#![warn(missing_docs)]

mod calls;
mod description;
mod float_state;
mod layers;
mod lend;
pub mod raw;
mod refusal;
mod table;
mod values;

pub use calls::*;
pub use description::{Description, Surface};
pub use layers::{LAYER, Layer, Layers};
pub use refusal::Refusal;
pub use table::{Cell, Cells, Head, SLOT, Table};
pub use values::{Bounds, Derivatives, Interval, Jet, Piece, Planes, Range, State, TieRule, UnknownNumber};

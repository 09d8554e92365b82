//! The original solver in docs/src, built unchanged behind a root of ours,
//! and beside it what `pack` needs: the file format, the refusals, the listing.

// The original's own modules. They speak of each other as `crate::shape` and
// so on, so they hang at this root under their own names.
#[allow(warnings)]
#[path = "../../docs/src/src/shape.rs"]
pub mod shape;
#[allow(warnings)]
#[path = "../../docs/src/src/solver/mod.rs"]
pub mod solver;
#[allow(warnings)]
#[path = "../../docs/src/src/utils.rs"]
pub mod utils;

pub mod corners;
pub mod effort;
pub mod grids;
pub mod layers;
pub mod limits;
pub mod listing;
pub mod malformed;
pub mod placements;
pub mod random;
pub mod refusals;
pub mod shapes;
pub mod texts;
pub mod tray;

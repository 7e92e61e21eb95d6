//! The unchanged Rust of broodmap behind an interface of plain data, with what is needed to ask it:
//! room texts and case files, document 01's sheets, and maps from a seed.
//!
//! - [`interface`]: the inputs and outputs of document 01's calls, and the trait of an engine that
//!   answers them
//! - [`UnchangedRust`]: the engine that is broodmap's own text
//! - [`room`], [`sheet`], [`rooms`], [`maps`]: text in, text out, and generators of rooms and maps

mod bases;
pub mod interface;
pub mod maps;
pub mod room;
pub mod rooms;
pub mod sheet;
mod terrain;

pub use bases::unchanged::UnchangedRust;

// The names that the unchanged files import from `crate`.
use terrain::{PixelRect, TerrainGrid, WalkPosition};

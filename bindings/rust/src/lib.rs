//! Walk costs and mineral fields of a strategy map, from the library of `crates/cerandool`, which is
//! proved to give the right ones.
//!
//! - [`ProximityField`]: the walk cost from each of several resources to every cell around a box
//! - [`access_cells`], [`AccessLists`]: the walkable cells that border a resource
//! - [`Fields`]: which resources are one field
//! - [`Refusal`]: what is not accepted, and why
//! - [`exports`]: the same calls on buffers that the caller lends
//!
//! # Example
//!
//! One mineral in the middle of 5 by 3 walkable cells, and the costs to the cells of the first row.
//!
//! ```
//! use cerandool::{CellBox, Grid, PixelRect, ProximityField, Window};
//! use cerandool::{access_cells, access_lists, fields, half_cost};
//!
//! let grid = Grid { width: 5, height: 3, cells: &[1; 15] };
//! let mineral = PixelRect { left: 16, top: 8, right: 24, bottom: 16 };
//! let first_row = CellBox { x0: 0, y0: 0, x1: 4, y1: 0 };
//!
//! let mut field = ProximityField::<8>::new();
//! field.compute(&grid, &[], &[mineral], first_row)?;
//! assert_eq!(field.window(), Window { left: 0, top: 0, width: 5, height: 3 });
//! assert_eq!(field.sweeps(), 2);
//! let cost = |x| field.at(x, 0).and_then(|lanes| half_cost(lanes[0]));
//! let costs = [0, 1, 2, 3, 4, 5].map(cost);
//! assert_eq!(costs, [Some(500), Some(0), Some(0), Some(0), Some(500), None]);
//!
//! let access = access_cells(&grid, mineral)?;
//! assert_eq!(access, [1, 2, 3, 6, 8, 11, 12, 13]);
//! assert_eq!(grid.position(access[4]), Some((3, 1)));
//!
//! let lists = access_lists(&grid, &[mineral, mineral])?;
//! let fields = fields(&grid, &lists)?;
//! assert_eq!(fields.numbers(), [0, 0]);
//! assert_eq!(fields.count(), 1);
//!
//! let outside = PixelRect { right: 41, ..mineral };
//! let refusal = access_cells(&grid, outside).unwrap_err();
//! assert_eq!((refusal.number, refusal.place), (4, 0));
//! # Ok::<(), cerandool::Refusal>(())
//! ```

#![deny(unsafe_code)]

pub mod exports;
mod field;
mod joining;
mod map;
mod refusal;
mod sheet;

pub use field::{HALF_CAP, ProximityField, Window, half_cost};
pub use joining::{AccessLists, Fields, access_cells, access_lists, fields};
pub use map::{CellBox, Grid, LARGEST_SIDE, MOST_BLOCKERS, MOST_RESOURCES, PixelRect};
pub use refusal::Refusal;
pub use sheet::{LONGEST_SHEET, sheet};

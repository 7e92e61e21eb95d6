//! The library of `crates/cerandool` behind the oracle's interface, and its comparison with the
//! unchanged Rust.
//!
//! - [`Cerandool`]: the engine that is the library
//! - [`heap`]: a heap-driven search for each resource, to time beside both
//! - [`calls`]: the library's calls with inputs and buffers that may be damaged
//! - [`cases`], [`comparison`]: random calls, and what is compared, on them and on damaged ones

pub mod calls;
pub mod cases;
pub mod comparison;
mod damage;
mod engine;
pub mod heap;

pub use engine::Cerandool;

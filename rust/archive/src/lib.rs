//! The proved engine's archive held against the second engine: the archive as an `Engine`, what only its boundary has,
//! and the programs `compare` and `benchmark`. `rows` has what programs time it on, `timing` how.

pub mod boundary;
pub mod engine;
pub mod image;
pub mod rows;
pub mod timing;

pub use boundary::Boundary;
pub use engine::Archive;

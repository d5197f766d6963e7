//! The oracle: the Rust source, unchanged, over document 01's vector arithmetic, and document
//! 01's calls, marks, refusals and scenario program around it.
//!
//! The source reaches its surroundings by the names `crate::alloc_prelude`, `dynamics`,
//! `geometry`, `math`, `pipeline`, `prelude` and `utils`; the modules of these names stand in for
//! the originals.
#![forbid(unsafe_code)]

pub mod dynamics;
pub mod geometry;
pub mod handed;
pub mod math;
pub mod pipeline;
pub mod program;
pub mod ranges;
pub mod row;
pub mod step;
pub mod stream;
pub mod table;
pub mod utils;

/// The names that the source takes from its crate's prelude.
pub mod prelude {
    pub use crate::pipeline::QueryPipelineMut;
}

/// What the source needs where there is no standard library: nothing here.
mod alloc_prelude {}

/// The copies of the source that the build wrote.
mod copies {
    include!(concat!(env!("OUT_DIR"), "/copies.rs"));
}

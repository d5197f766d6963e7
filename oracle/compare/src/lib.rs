//! Running a program on a scenario, and comparing what it printed with what the oracle says.
#![forbid(unsafe_code)]

mod angles;
mod cases;
mod centres;
mod difference;
mod directions;
mod normals;
mod rolls;
mod runner;
mod streams;
mod tally;
mod workers;

pub use difference::{first_difference, Difference};
pub use runner::Runner;
pub use streams::{Name, Streams, CUT};
pub use tally::Tally;
pub use workers::{all_of, guarded};

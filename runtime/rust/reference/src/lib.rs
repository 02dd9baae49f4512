//! The specification in plain Rust, written from the text and not from the proved code. It serves the
//! comparison and the benchmark, and nothing else.
//!
//! Every call answers `Err(number)` with the specification's number and leaves the lent buffers alone.

mod cards;
mod catalogue;
mod hops;
mod machine;
mod market;
mod report;
mod saved;
mod scan;
mod seed;
mod sweep;
mod updates;

pub use cards::*;
pub use catalogue::*;
pub use hops::*;
pub use machine::*;
pub use market::*;
pub use report::*;
pub use saved::*;
pub use scan::*;
pub use seed::*;
pub use sweep::*;
pub use updates::*;

pub const MOST_OBJECTS: usize = 65_536;
pub const MOST_REFERENCES: usize = 1_048_576;
pub const LARGEST_SIZE: u64 = 1_099_511_627_776;
pub const MOST_LEASES: usize = 256;
/// The words of the start buffer.
pub const STARTS: usize = 257;

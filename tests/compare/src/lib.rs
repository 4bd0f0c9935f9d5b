//! The comparison of the archive with the second program.

pub mod bodies;
pub mod checkpoint;
pub mod checksums;
pub mod feed;
pub mod ffi;
pub mod fixtures;
pub mod generate;
pub mod index;
pub mod logs;
pub mod names;
pub mod replay;
pub mod report;
pub mod resume;
pub mod rng;
pub mod rows;
pub mod segments;
pub mod twin;
pub mod versions;

use rng::Rng;

/// The cases of one group, or the first case that differs.
pub type Outcome = Result<u64, String>;

/// A group's name and its cases.
pub type Group = (&'static str, fn(&mut Rng) -> Outcome);

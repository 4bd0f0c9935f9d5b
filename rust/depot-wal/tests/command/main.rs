//! The command, run as people and machines run it. What it has to print is written here by hand,
//! from docs/FORMAT.md and the bytes that `common::log` makes.

mod changing;
mod checkpoint;
mod common;
mod cuts;
mod files;
mod fixtures;
mod reading;
mod replaying;
mod report;
mod speed;
mod usage;

//! The second program: the format (docs/FORMAT.md) in plain Rust, written from the customer's rules
//! alone and never from the product's code, so that the product can be compared with it. Clear
//! before fast; the checksum, the bodies, the feed, replay, the index, the report and the checkpoint
//! are also made fast, since the product's speed is measured against them.

#![forbid(unsafe_code)]

pub mod body;
pub mod checkpoint;
pub mod crc32c;
pub mod damage;
pub mod facts;
pub mod feed;
pub mod histogram;
pub mod ids;
pub mod index;
pub mod listing;
pub mod refusal;
pub mod replay;
pub mod report;
pub mod reporting;
pub mod resume;
pub mod rows;
pub mod segment;
pub mod selftest;
pub mod sizing;
pub mod tour;
pub mod tour_samples;
pub mod varint;
pub mod vectors;
pub mod version;

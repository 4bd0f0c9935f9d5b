//! A proved write-ahead log in the Prometheus format, for programs in Rust.
//!
//! The log that most programs want is [`Log`], on a file: what was appended is there after a power
//! failure, and it goes on after one.
//!
//! ```
//! # #[cfg(feature = "std")] {
//! use depot_wal::Log;
//!
//! # let folder = std::env::temp_dir().join(format!("depot_wal-{}", std::process::id()));
//! # std::fs::create_dir_all(&folder).unwrap();
//! # let path = folder.join("000001");
//! # let _ = std::fs::remove_file(&path);
//! let mut log = Log::open(&path)?;
//! log.append(b"profile 7 off, profile 8 on")?; // on the medium when this returns
//! for record in log.records() {
//!     println!("{} bytes", record?.len());
//! }
//! # std::fs::remove_dir_all(&folder).unwrap();
//! # Ok::<(), Box<dyn std::error::Error>>(()).unwrap();
//! # }
//! # Ok::<(), Box<dyn std::error::Error>>(())
//! ```
//!
//! Below it are safe wrappers of the calls of `libdepot_wal.a`, which need neither `std` nor a
//! heap. Its functions are proved (`docs/CLAIMS.md` of the repository says what); this crate is
//! not, it is tested. What the C header asks of its caller is asked of no one here: slices and
//! borrows keep it.
//!
//! | module | what it does |
//! |---|---|
//! | [`log`] | a log on a file (`std`) |
//! | [`segment`] | records written into and read from a segment in memory |
//! | [`resume`] | where to go on after a power failure |
//! | [`feed`] | a segment read page by page |
//! | [`body`], [`histogram`] | what a record says, built and read |
//! | [`replay`] | what each series had last |
//! | [`report`] | the smallest and largest readings of a night |
//! | [`checkpoint`] | a new segment of what is still wanted |
//! | [`index`] | where each record is |
//! | [`size`] | how big a partition must be |
//! | [`names`] | the names of segments' files |
//! | [`checksum`] | CRC-32C and its table |
//! | [`sys`] | the C calls as they are |
//!
//! A call that refuses says why and where, with the names and numbers of the header: [`Error`].

#![no_std]
#![warn(missing_docs)]
#![deny(unsafe_op_in_unsafe_fn)]

#[cfg(feature = "std")]
extern crate std;

pub mod body;
pub mod checkpoint;
pub mod checksum;
mod error;
pub mod feed;
pub mod histogram;
pub mod index;
#[cfg(doctest)]
mod kept;
#[cfg(feature = "std")]
pub mod log;
pub mod names;
pub mod replay;
pub mod report;
pub mod resume;
pub mod segment;
pub mod size;
pub mod sys;
mod types;

pub use error::{Error, Refusal};
#[cfg(feature = "std")]
pub use log::Log;
pub use types::{Good, Id, Time, Value, Version};

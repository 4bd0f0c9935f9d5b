//! What the types keep of the header's "What the caller owes". None of these compiles; each would
//! without the line that is marked `not`.
//!
//! A table is one that the library filled:
//!
//! ```compile_fail,E0423
//! use depot_wal::checksum::Table;
//! let table = Table::new();
//! let table = Table([0; 2048]); // not
//! ```
//!
//! The segment of a writer is written by it alone:
//!
//! ```compile_fail,E0506
//! use depot_wal::{segment, Version};
//! let mut segment = [0; segment::PAGE];
//! let mut writer = segment::Writer::new(Version::V1, &mut segment);
//! segment[0] = 1; // not
//! writer.write(b"one").unwrap();
//! ```
//!
//! A record is read before the buffer gets the next one:
//!
//! ```compile_fail,E0499
//! use depot_wal::{segment, Version};
//! let mut buffer = [0; segment::RECORD_MAX];
//! let mut records = segment::Records::new(Version::V1, &[], &mut buffer);
//! let first = records.next();
//! let second = records.next();
//! println!("{first:?}"); // not
//! ```
//!
//! The buffer of a reading is as long as it must be:
//!
//! ```compile_fail,E0308
//! use depot_wal::{segment, Version};
//! let mut buffer = [0; segment::RECORD_MAX];
//! segment::Records::new(Version::V1, &[], &mut buffer);
//! segment::Records::new(Version::V1, &[], &mut buffer[..100]); // not
//! ```
//!
//! The page of a feed, and its buffer, stay as they are between reads:
//!
//! ```compile_fail,E0506
//! use depot_wal::{feed, segment, Version};
//! let (mut page, mut buffer) = ([0; segment::PAGE], [0; segment::RECORD_MAX]);
//! let mut feed = feed::Feed::new(Version::V1, &mut page, &mut buffer);
//! page[0] = 1; // not
//! feed.read().unwrap();
//! ```
//!
//! .. and a page is fed only where one is asked for, once:
//!
//! ```compile_fail,E0382
//! use depot_wal::{feed, segment, Version};
//! let (mut page, mut buffer) = ([0; segment::PAGE], [0; segment::RECORD_MAX]);
//! let mut feed = feed::Feed::new(Version::V1, &mut page, &mut buffer);
//! let Ok(feed::Step::Ask(ask)) = feed.read() else { panic!() };
//! ask.feed(&[]).unwrap();
//! ask.feed(&[]).unwrap(); // not
//! ```
//!
//! A body under construction has its buffer to itself:
//!
//! ```compile_fail,E0506
//! use depot_wal::body;
//! let mut buffer = [0; 100];
//! let mut body = body::Builder::samples(&mut buffer).unwrap();
//! buffer[0] = 3; // not
//! body.push(body::Sample::default()).unwrap();
//! ```
//!
//! .. and takes entries of its kind:
//!
//! ```compile_fail,E0308
//! use depot_wal::{body, Id, Time};
//! let mut buffer = [0; 100];
//! let mut body = body::Builder::samples(&mut buffer).unwrap();
//! body.push(body::Sample::default()).unwrap();
//! body.push(body::Tombstone { id: Id(1), min: Time(0), max: Time(1) }).unwrap(); // not
//! ```
//!
//! An id is not a time:
//!
//! ```compile_fail,E0308
//! use depot_wal::{body, Id, Time};
//! let sample = body::Sample { id: Id(1), time: Time(2), value: 1.0.into() };
//! let sample = body::Sample { id: Time(2), ..sample }; // not
//! ```
//!
//! An index that was neither built nor checked is not asked:
//!
//! ```compile_fail,E0423
//! use depot_wal::{index::Index, Version};
//! let index = Index::check(Version::V1, &[], &[0; 12]).err();
//! let index = Index(&[0; 12]); // not
//! ```
//!
//! A report is one that the library made:
//!
//! ```compile_fail,E0423
//! use depot_wal::report::Report;
//! let report = Report::new();
//! let report = Report([1; 1284]); // not
//! ```
//!
//! While records of a log are read, none is appended:
//!
//! ```compile_fail,E0502
//! use depot_wal::Log;
//! let mut log = Log::open("000001").unwrap();
//! let mut records = log.records();
//! log.append(b"one").unwrap(); // not
//! records.next();
//! ```

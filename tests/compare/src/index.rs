//! The index beside a segment, against the second program and against the records that are read:
//! answer, `out`, every byte of the segment and of the index, after each call.

mod broken;
mod corpus;
mod limit;

pub use corpus::compare_file;

use crate::ffi::index;
use crate::ffi::Answer;
use crate::generate::{self, PAGES_MAX};
use crate::rng::Rng;
use crate::twin::Twin;
use crate::Group;
use reference::index::HEAD;
use reference::refusal::Refusal;
use reference::segment::{self, Good, Reading, PAGE, RECORD_MAX};
use reference::version::Version;

pub fn groups() -> Vec<Group> {
    vec![
        ("index, any room", corpus::compare_rooms),
        ("index, cuts", corpus::compare_cuts),
        ("index, grown segments", corpus::compare_grown),
        ("index, damaged segments", corpus::compare_damage),
        ("index, random bytes", corpus::compare_noise),
        ("index, every byte damaged", broken::compare_bytes),
        ("index, any numbers", broken::compare_numbers),
        ("index, bytes used", broken::compare_used),
        ("index, look-up", broken::compare_look_ups),
        ("index, at the limit", limit::compare_limit),
    ]
}

/// Bytes of the longest segment, the limit's aside.
const ROOM: usize = PAGES_MAX * PAGE;

/// The caller-owned bytes, used again from case to case.
struct Indexes {
    segment: Twin,
    /// What it is read as.
    version: Version,
    index: Twin,
    /// What the segment is read into.
    buffer: Vec<u8>,
    cases: u64,
}

impl Indexes {
    fn new(rng: &mut Rng) -> Indexes {
        let segment = Twin::new(rng, ROOM);
        Indexes::with_segment(rng, segment, HEAD + ROOM + 64)
    }

    fn with_segment(rng: &mut Rng, segment: Twin, room: usize) -> Indexes {
        Indexes {
            segment,
            version: Version::One,
            index: Twin::new(rng, room),
            buffer: vec![0; RECORD_MAX],
            cases: 0,
        }
    }

    /// Puts a segment of version 1 at any alignment and in any version.
    fn put(&mut self, rng: &mut Rng, bytes: &[u8]) {
        let version = generate::any_version(rng);
        self.put_in(rng, version, bytes);
    }

    fn put_in(&mut self, rng: &mut Rng, version: Version, bytes: &[u8]) {
        let mut bytes = bytes.to_vec();
        self.version = version;
        generate::resum(version, &mut bytes);
        self.segment.shift(rng);
        self.segment.put(&bytes);
        self.index.shift(rng);
        if rng.once_in(8) {
            self.index.refill(rng);
        }
    }

    /// Builds the index of the first `length` bytes of the segment in the first `room` of the index.
    fn build(&mut self, length: usize, room: usize) -> Result<Answer<2>, String> {
        let number = self.version.number() as u32;
        let (ours, theirs) = self.segment.both(0..length);
        let (our_index, their_index) = self.index.both(0..room);
        let got = index::build(number, ours, our_index);
        let wanted = length_answer(
            0,
            reference::index::build(self.version, theirs, their_index),
        );
        let what = || format!("build of {length} bytes into {room}");
        self.compare(length, got, wanted, what)
    }

    /// The first `room` bytes of the index against the first `length` of the segment.
    fn check(&mut self, length: usize, room: usize) -> Result<Answer<1>, String> {
        let number = self.version.number() as u32;
        let (ours, theirs) = self.segment.both(0..length);
        let (our_index, their_index) = self.index.both(0..room);
        let got = index::check(number, ours, our_index);
        let wanted = match reference::index::check(self.version, theirs, their_index) {
            Ok(count) => Answer::new(0, [count as u64]),
            Err(Refusal { number, place }) => Answer::new(number, [place as u64]),
        };
        let what = || format!("check of {room} bytes against {length}");
        self.compare(length, got, wanted, what)
    }

    /// Extends the first `used` bytes in the first `room` to the first `length` of the segment.
    fn extend(&mut self, length: usize, room: usize, used: usize) -> Result<Answer<2>, String> {
        let number = self.version.number() as u32;
        let (ours, theirs) = self.segment.both(0..length);
        let (our_index, their_index) = self.index.both(0..room);
        let got = index::extend(number, ours, our_index, used);
        let wanted = reference::index::extend(self.version, theirs, their_index, used);
        let wanted = length_answer(used, wanted);
        let what = || format!("extension of {used} bytes in {room} to {length}");
        self.compare(length, got, wanted, what)
    }

    /// Looks a record up in the first `room` bytes of the index.
    fn at(&mut self, room: usize, record: u64) -> Result<Answer<2>, String> {
        let (ours, theirs) = self.index.both(0..room);
        let got = index::at(ours, record);
        let wanted = match reference::index::at(theirs, record) {
            Ok(found) => Answer::new(0, [found.start as u64, found.length as u64]),
            Err(Refusal { number, place }) => Answer::new(number, [place as u64, 0]),
        };
        let what = || format!("record {record} in {room} bytes");
        self.compare(0, got, wanted, what)
    }

    /// The answer, then every caller-owned byte and the guards around them.
    fn compare<const N: usize>(
        &mut self,
        length: usize,
        got: Answer<N>,
        wanted: Answer<N>,
        what: impl Fn() -> String,
    ) -> Result<Answer<N>, String> {
        self.cases += 1;
        if got != wanted {
            let what = format!("{:?}, {}", self.version, what());
            return Err(format!("{what}: got {got:?}, wanted {wanted:?}"));
        }
        for (name, twin, end) in [
            ("segment", &self.segment, length),
            ("index", &self.index, usize::MAX),
        ] {
            if !twin.equal_to(end) {
                let place = twin.first_difference();
                return Err(format!("{}: {name} differs at {place:?}", what()));
            }
        }
        Ok(got)
    }

    /// Builds the index with room for any, and hands back its length. It is accepted, also where the
    /// segment has grown since, and each of its records is found where it is read.
    fn build_whole(&mut self, length: usize, grown: usize) -> Result<usize, String> {
        let built = self.build(length, HEAD + length)?;
        if built.number != 0 {
            return Err(format!("{length} bytes: built with {built:?}"));
        }
        let used = built.out[0] as usize;
        let records = self.read_rows(length);
        for length in [length, grown] {
            let checked = self.check(length, used)?;
            if checked != Answer::new(0, [records.len() as u64]) {
                return Err(format!("{length} bytes: not accepted, {checked:?}"));
            }
        }
        for (record, row) in records.into_iter().enumerate() {
            let found = self.at(used, record as u64)?;
            if found != Answer::new(0, row) {
                return Err(format!("record {record} is read at {row:?}: {found:?}"));
            }
        }
        Ok(used)
    }

    /// Start and length of every record that is read.
    fn read_rows(&mut self, length: usize) -> Vec<[u64; 2]> {
        let bytes = self.segment.bytes(0..length);
        let buffer = &mut self.buffer;
        let good = &mut Good::default();
        let mut rows = Vec::new();
        while let Ok(Reading::Record(record)) =
            segment::read(self.version, bytes, good.offset, buffer, good)
        {
            rows.push([record.start as u64, record.length as u64]);
        }
        rows
    }
}

/// What `depot_wal_index_build` and `depot_wal_index_extend` have to answer: after a refusal what
/// was used before comes first.
fn length_answer(used: usize, length: Result<usize, Refusal>) -> Answer<2> {
    match length {
        Ok(length) => Answer::new(0, [length as u64, 0]),
        Err(refusal) => Answer::new(refusal.number, [used as u64, refusal.place as u64]),
    }
}

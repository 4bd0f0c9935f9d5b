//! Versions (document 02 [11]) beside the other groups, which make half of their segments in each:
//! segments read as the version that they are not, and numbers that are no version, by every call.

use crate::checksums::own_table;
use crate::ffi::feed::{self, STATE_LEN};
use crate::ffi::replay::{self, SeriesTable, OUT_LEN, REPLAY_LEN};
use crate::ffi::{self, index, Answer, Table};
use crate::generate;
use crate::rng::Rng;
use crate::twin::Twin;
use crate::{Group, Outcome};
use reference::index::HEAD;
use reference::refusal::{BAD_INDEX, BAD_NAME, BAD_SUM};
use reference::segment::{PAGE, RECORD_MAX};
use reference::version::Version;

pub fn groups() -> Vec<Group> {
    vec![
        ("versions, read as the other", compare_others),
        ("versions, sums beside each other", compare_sums),
        ("versions, numbers that are none", compare_numbers),
    ]
}

/// Pages of a segment.
const PAGES: usize = 3;

/// The caller-owned bytes. The archive gets the one half of each twin; the other says what was
/// there before.
struct Calls {
    segment: Twin,
    record: Twin,
    buffer: Twin,
    index: Twin,
    series: Box<SeriesTable>,
    table: Box<Table>,
    cases: u64,
}

impl Calls {
    fn new(rng: &mut Rng) -> Calls {
        Calls {
            segment: Twin::new(rng, PAGES * PAGE),
            record: Twin::new(rng, RECORD_MAX),
            buffer: Twin::new(rng, RECORD_MAX + 64),
            index: Twin::new(rng, HEAD + PAGES * PAGE),
            series: Box::new([0; REPLAY_LEN]),
            table: own_table(),
            cases: 0,
        }
    }

    /// The answer is this one.
    fn expect<const N: usize>(
        &mut self,
        what: &str,
        got: Answer<N>,
        number: u32,
        out: [u64; N],
    ) -> Result<(), String> {
        self.cases += 1;
        match got == Answer::new(number, out) {
            true => Ok(()),
            false => Err(format!("{what}: {got:?}, and not {number}, {out:?}")),
        }
    }

    /// Nothing that was lent has changed.
    fn unchanged(&self, what: &str) -> Result<(), String> {
        for (name, twin) in [
            ("segment", &self.segment),
            ("record", &self.record),
            ("buffer", &self.buffer),
            ("index", &self.index),
        ] {
            if !twin.equal_to(usize::MAX) {
                let place = twin.first_difference();
                return Err(format!("{what}: {name} changed at {place:?}"));
            }
        }
        match self.series.iter().all(|&number| number == 0) {
            true => Ok(()),
            false => Err(format!("{what}: the table changed")),
        }
    }

    /// Every reading call on the first `length` bytes gives this refusal at 0, and no record.
    fn refuse_reads(&mut self, version: u32, length: usize, number: u32) -> Result<(), String> {
        let (segment, _) = self.segment.both(0..length);
        let (buffer, _) = self.buffer.both(0..RECORD_MAX);
        let plain = ffi::read(version, segment, 0, buffer, [0, 0]);
        let lent = ffi::read_with_table(&self.table, version, segment, 0, buffer, [0, 0]);
        let replays = [replay::replay, replay::replay_strict]
            .map(|replay| replay(version, segment, buffer, &mut self.series));
        self.expect("read", plain, number, [0; 5])?;
        self.expect("read with a table", lent, number, [0; 5])?;
        for replayed in replays {
            self.expect("replay", replayed, number, [0; OUT_LEN])?;
        }
        self.unchanged(&format!("version {version}, {length} bytes read"))
    }
}

fn other(version: Version) -> Version {
    match version {
        Version::One => Version::Two,
        Version::Two => Version::One,
    }
}

// ---- The other version ----

/// What the archive writes in one version begins with a bad sum in the other. Only a sum that is
/// equal in both would not: of 2^32 pieces of data one has it.
fn compare_others(rng: &mut Rng) -> Outcome {
    let mut calls = Calls::new(rng);
    for _ in 0..600 {
        let version = generate::any_version(rng);
        let (own, strange) = (number(version), number(other(version)));
        let length = write_some(rng, &mut calls, own)?;
        calls.refuse_reads(strange, length, BAD_SUM)?;
        refuse_feed(&mut calls, strange, length)?;
        refuse_index(&mut calls, own, strange, length)?;
    }
    Ok(calls.cases)
}

fn number(version: Version) -> u32 {
    version.number() as u32
}

/// Writes at least one record by the archive, and hands back the final place.
fn write_some(rng: &mut Rng, calls: &mut Calls, version: u32) -> Result<usize, String> {
    let mut place = 0;
    for _ in 0..1 + rng.below(6) {
        let length = generate::record_length(rng, PAGE - place % PAGE).max(1);
        let (record, _) = calls.record.both(0..length);
        let (segment, copy) = calls.segment.both(0..PAGES * PAGE);
        let written = match rng.below(2) {
            0 => ffi::write(version, segment, place, record),
            _ => ffi::write_with_table(&calls.table, version, segment, place, record),
        };
        copy.copy_from_slice(segment);
        calls.cases += 1;
        place = written.out[0] as usize;
    }
    match place {
        // The first did not fit, nor any after it.
        0 => write_some(rng, calls, version),
        _ => Ok(place),
    }
}

/// By the page feed: the first page is taken, and then the sum is bad.
fn refuse_feed(calls: &mut Calls, version: u32, length: usize) -> Result<(), String> {
    let mut state = feed::start(version).out;
    let (page, _) = calls.segment.both(0..length.min(PAGE));
    let (buffer, _) = calls.buffer.both(0..RECORD_MAX);
    let fed = feed::feed_page(&mut state, page);
    let read = feed::read(&mut state, page, buffer);
    let again = feed::feed_page(&mut state, &[]);
    calls.expect("feed", fed, 0, [0; 3])?;
    calls.expect("feed's read", read, BAD_SUM, [0; 5])?;
    calls.expect("feed after it", again, BAD_SUM, [0; 3])?;
    calls.unchanged("feed in the other version")
}

/// The index in the other version lists nothing, and the one in its own is none there.
fn refuse_index(calls: &mut Calls, own: u32, strange: u32, length: usize) -> Result<(), String> {
    let (segment, _) = calls.segment.both(0..length);
    let (room, copy) = calls.index.both(0..HEAD + length);
    let empty = index::build(strange, segment, room);
    let built = index::build(own, segment, room);
    copy.copy_from_slice(room);
    let used = built.out[0] as usize;
    let checked = index::check(strange, segment, &room[..used]);
    let extended = index::extend(strange, segment, room, used);
    calls.expect("index", empty, 0, [HEAD as u64, 0])?;
    calls.expect("index checked", checked, BAD_INDEX, [0])?;
    calls.expect("index extended", extended, BAD_INDEX, [used as u64, 0])?;
    calls.unchanged("index in the other version")
}

// ---- Sums ----

/// A record written in both versions: the same place after it, and the same bytes but for the sums,
/// which differ.
fn compare_sums(rng: &mut Rng) -> Outcome {
    let mut one = rng.bytes(PAGES * PAGE);
    let mut two = one.clone();
    let data = rng.bytes(RECORD_MAX);
    let mut cases = 0;
    for _ in 0..4_000 {
        let place = match rng.below(3) {
            0 => 0,
            1 => rng.below(PAGE - 6),
            _ => PAGE - 7 - rng.below(40),
        };
        let length = generate::record_length(rng, PAGE - place).max(1);
        let written = ffi::write(1, &mut one, place, &data[..length]);
        let same = ffi::write(2, &mut two, place, &data[..length]);
        cases += 2;
        if written != same {
            return Err(format!("{length} bytes at {place}: {written:?}, {same:?}"));
        }
        if written.number != 0 {
            continue;
        }
        let mut fragments = Vec::new();
        generate::add_fragments(&mut fragments, &one, place);
        for fragment in fragments {
            let sum = fragment.start + 3..fragment.start + 7;
            if one[sum.clone()] == two[sum.clone()] {
                return Err(format!("{length} bytes at {place}: equal sums at {sum:?}"));
            }
            two[sum.clone()].copy_from_slice(&one[sum]);
        }
        if one != two {
            return Err(format!("{length} bytes at {place}: other bytes differ"));
        }
    }
    Ok(cases)
}

// ---- No version ----

/// Numbers that are no version: also such as are one in their low bits.
fn any_number(rng: &mut Rng) -> u32 {
    let number = match rng.below(4) {
        0 => rng.number() as u32,
        1 => rng.pick(&[0, 3, 4, 255, u32::MAX]),
        2 => rng.pick(&[1, 2]) | 1 << (8 + rng.below(24)),
        _ => rng.below(300) as u32,
    };
    match number {
        1 | 2 => 0,
        number => number,
    }
}

/// Every call refuses them with 30 at 0 before everything else, be the rest good or bad, and changes
/// nothing.
fn compare_numbers(rng: &mut Rng) -> Outcome {
    let mut calls = Calls::new(rng);
    for _ in 0..3_000 {
        let version = any_number(rng);
        refuse_segment_calls(rng, &mut calls, version)?;
        refuse_index_calls(rng, &mut calls, version)?;
        refuse_start(&mut calls, version)?;
        calls.unchanged(&format!("version {version}"))?;
    }
    Ok(calls.cases)
}

fn refuse_segment_calls(rng: &mut Rng, calls: &mut Calls, version: u32) -> Result<(), String> {
    let length = any_length(rng, PAGES * PAGE);
    let place = any_place(rng, length);
    let size = any_length(rng, RECORD_MAX);
    let room = generate::any_buffer(rng);
    let pair = [rng.number() >> rng.below(64), rng.number() >> rng.below(64)];
    let (segment, _) = calls.segment.both(0..length);
    let (record, _) = calls.record.both(0..size);
    let (buffer, _) = calls.buffer.both(0..room);
    let table = &calls.table;
    let writes = [
        ffi::write(version, segment, place, record),
        ffi::write_with_table(table, version, segment, place, record),
    ];
    let reads = [
        ffi::read(version, segment, place, buffer, pair),
        ffi::read_with_table(table, version, segment, place, buffer, pair),
    ];
    let replays = [replay::replay, replay::replay_strict]
        .map(|replay| replay(version, segment, buffer, &mut calls.series));
    for written in writes {
        calls.expect("write", written, BAD_NAME, [place as u64, 0])?;
    }
    for read in reads {
        calls.expect("read", read, BAD_NAME, [0, 0, 0, pair[0], pair[1]])?;
    }
    for replayed in replays {
        calls.expect("replay", replayed, BAD_NAME, [0; OUT_LEN])?;
    }
    Ok(())
}

fn refuse_index_calls(rng: &mut Rng, calls: &mut Calls, version: u32) -> Result<(), String> {
    let length = any_length(rng, PAGES * PAGE);
    let room = any_length(rng, HEAD + PAGES * PAGE);
    let used = any_place(rng, room);
    let (segment, _) = calls.segment.both(0..length);
    let (bytes, _) = calls.index.both(0..room);
    let built = index::build(version, segment, bytes);
    let checked = index::check(version, segment, bytes);
    let extended = index::extend(version, segment, bytes, used);
    calls.expect("index_build", built, BAD_NAME, [0; 2])?;
    calls.expect("index_check", checked, BAD_NAME, [0])?;
    calls.expect("index_extend", extended, BAD_NAME, [used as u64, 0])
}

/// A start in no version leaves a fresh state of version 1.
fn refuse_start(calls: &mut Calls, version: u32) -> Result<(), String> {
    let fresh: [u64; STATE_LEN] = feed::start(1).out;
    calls.expect("feed_start", feed::start(version), BAD_NAME, fresh)
}

/// Up to the whole, and none.
fn any_length(rng: &mut Rng, whole: usize) -> usize {
    match rng.below(4) {
        0 => 0,
        1 => whole,
        2 => (rng.below(whole + 1) / PAGE) * PAGE,
        _ => rng.below(whole + 1),
    }
}

/// In the slice, and past it.
fn any_place(rng: &mut Rng, length: usize) -> usize {
    match rng.below(4) {
        0 => 0,
        1 => rng.number() as usize,
        _ => rng.below(length + 9),
    }
}

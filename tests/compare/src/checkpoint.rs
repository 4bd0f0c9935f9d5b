//! The checkpoint against the second program: answer, `out`, every byte of the source, of the target
//! and of both work buffers. And against the source itself: the entries read back are those that are
//! kept, record by record.

mod broken;
mod corpus;
mod growth;
mod lengths;
mod limit;
mod room;
mod types;

pub use corpus::compare_file;

use crate::ffi::checkpoint::{checkpoint, Lent};
use crate::ffi::Answer;
use crate::generate;
use crate::rng::Rng;
use crate::twin::Twin;
use crate::Group;
use reference::body::{SeriesId, Timestamp, METADATA, SERIES, TOMBSTONES};
use reference::checkpoint::{Checkpoint, Kept};
use reference::facts::{entries_of, Facts};
use reference::refusal::{NO_ROOM, TOO_LONG};
use reference::segment::{self, Good, Reading, PAGE, RECORD_MAX};
use reference::version::Version;

pub fn groups() -> Vec<Group> {
    vec![
        ("checkpoint, types and times", types::compare_types),
        ("checkpoint, few series", corpus::compare_few),
        ("checkpoint, many series", corpus::compare_many),
        ("checkpoint, replayed", corpus::compare_replayed),
        ("checkpoint, records that grow", growth::compare_growth),
        ("checkpoint, no room at any record", room::compare_room),
        ("checkpoint, too long or no room", room::compare_both),
        ("checkpoint, refused bodies", broken::compare_bodies),
        ("checkpoint, cuts", broken::compare_cuts),
        ("checkpoint, damage", broken::compare_damage),
        ("checkpoint, foreign segments", broken::compare_foreign),
        ("checkpoint, work buffers", lengths::compare_work),
        ("checkpoint, bad lengths", lengths::compare_lengths),
        ("checkpoint, at the limit", limit::compare_limit),
    ]
}

/// Bytes of the longest source, and pages of the longest target, the limit's aside.
const ROOM: usize = 1 << 18;
const PAGES: usize = 9;

/// Bytes of the longest work buffer.
const WORK: usize = RECORD_MAX + 64;

/// Of a source that differs, so many bytes are printed at most.
const SHOWN: usize = 4_096;

/// The caller-owned bytes, used again from case to case.
struct Checkpoints {
    source: Twin,
    target: Twin,
    work: Twin,
    body: Twin,
    /// What the target and the work buffers hold before.
    noise: Vec<u8>,
    version: u32,
    ids: Vec<u64>,
    time: i64,
    cases: u64,
}

/// The lengths of what is lent.
#[derive(Clone, Copy, Debug)]
struct Lengths {
    source: usize,
    target: usize,
    work: usize,
    body: usize,
}

impl Checkpoints {
    fn new(rng: &mut Rng) -> Checkpoints {
        let source = Twin::new(rng, ROOM);
        Checkpoints::with_source(rng, source)
    }

    fn with_source(rng: &mut Rng, source: Twin) -> Checkpoints {
        Checkpoints {
            source,
            target: Twin::new(rng, PAGES * PAGE + 64),
            work: Twin::new(rng, WORK),
            body: Twin::new(rng, WORK),
            noise: rng.bytes(PAGES * PAGE + 64),
            version: 1,
            ids: Vec::new(),
            time: 0,
            cases: 0,
        }
    }

    /// Puts a log of version 1 into the source, at any alignment and in any version.
    fn put(&mut self, rng: &mut Rng, bytes: &[u8]) {
        let mut bytes = bytes.to_vec();
        let version = generate::any_version(rng);
        self.version = version.number() as u32;
        generate::resum(version, &mut bytes);
        for twin in [
            &mut self.source,
            &mut self.target,
            &mut self.work,
            &mut self.body,
        ] {
            twin.shift(rng);
        }
        self.source.put(&bytes);
    }

    /// Puts a log into the source and keeps some of it, in a target of so many pages.
    fn keep_log(&mut self, rng: &mut Rng, bytes: &[u8], pages: usize) -> Result<Answer<2>, String> {
        self.put(rng, bytes);
        self.keep(bytes.len(), pages)
    }

    /// Keeps some of the first `length` bytes of the source.
    fn keep(&mut self, length: usize, pages: usize) -> Result<Answer<2>, String> {
        self.run(Lengths {
            source: length,
            target: pages * PAGE,
            work: RECORD_MAX,
            body: RECORD_MAX,
        })
    }

    fn run(&mut self, lengths: Lengths) -> Result<Answer<2>, String> {
        self.cases += 1;
        if lengths.target <= PAGES * PAGE {
            self.target.put(&self.noise[..lengths.target]);
        }
        self.work.put(&self.noise[..WORK]);
        self.body.put(&self.noise[..WORK]);
        let given = self.ids.clone();
        let ids: Vec<SeriesId> = given.iter().map(|&id| SeriesId(id)).collect();
        let (version, time) = (self.version, self.time);
        let (ours, theirs) = self.lend(lengths);
        let got = checkpoint(version, &given, time, ours);
        let kept = Kept {
            ids: &ids,
            time: Timestamp(time),
        };
        let Lent {
            source,
            target,
            work,
            body,
        } = theirs;
        let number = version.into();
        let wanted = reference::checkpoint::checkpoint(number, source, kept, target, work, body);
        self.compare(lengths, got, answer_of(wanted))
            .and_then(|()| match given == self.ids {
                true => Ok(()),
                false => Err("the ids changed".to_string()),
            })
            .and_then(|()| self.compare_entries(lengths, got))
            .map_err(|why| {
                let source = self.source.bytes(0..lengths.source.min(SHOWN));
                let ids = &self.ids[..self.ids.len().min(12)];
                format!(
                    "version {version}, {lengths:?}, ids {ids:?}, time {time}: {why}; the source \
                     is {source:02X?}"
                )
            })?;
        Ok(got)
    }

    /// The bytes for the archive and for the second program.
    fn lend(&mut self, lengths: Lengths) -> (Lent<'_>, Lent<'_>) {
        let (source, their_source) = self.source.both(0..lengths.source);
        let (target, their_target) = self.target.both(0..lengths.target);
        let (work, their_work) = self.work.both(0..lengths.work);
        let (body, their_body) = self.body.both(0..lengths.body);
        let ours = Lent {
            source,
            target,
            work,
            body,
        };
        let theirs = Lent {
            source: their_source,
            target: their_target,
            work: their_work,
            body: their_body,
        };
        (ours, theirs)
    }

    /// The answer, and every byte that was lent with the guards around it.
    fn compare(&self, lengths: Lengths, got: Answer<2>, wanted: Answer<2>) -> Result<(), String> {
        if got != wanted {
            return Err(format!("got {got:?}, wanted {wanted:?}"));
        }
        for (name, twin, end) in [
            ("source", &self.source, lengths.source),
            ("target", &self.target, lengths.target),
            ("work", &self.work, usize::MAX),
            ("body", &self.body, usize::MAX),
        ] {
            if !twin.equal_to(end) {
                let place = twin.first_difference();
                return Err(format!("{name} differs at {place:?}"));
            }
        }
        Ok(())
    }

    /// The entries read from the target before the place are those that are kept of the source, or
    /// of its records before the one that is refused.
    fn compare_entries(&self, lengths: Lengths, got: Answer<2>) -> Result<(), String> {
        let Ok(version) = Version::of(self.version.into()) else {
            return Ok(());
        };
        let [place, at] = got.out.map(|number| number as usize);
        let source = self.source.bytes(0..lengths.source);
        let (end, is_read) = match got.number {
            0 => (lengths.source, true),
            NO_ROOM => (at, true),
            // Of a record that grows, or of one in the source that is too long to be read.
            TOO_LONG => (at, entries(version, source, lengths.source).is_ok()),
            _ => (0, false),
        };
        if !is_read {
            return match place {
                0 => Ok(()),
                _ => Err(format!("refused, and records before {place}")),
            };
        }
        let written = entries(version, self.target.bytes(0..place), place)?;
        let mut kept = entries(version, source, end)?;
        for record in &mut kept {
            record.retain(|facts| self.keeps(facts));
        }
        kept.retain(|record| !record.is_empty());
        match written == kept {
            true => Ok(()),
            false => Err(format!("{} records, and not {}", written.len(), kept.len())),
        }
    }

    fn keeps(&self, facts: &Facts) -> bool {
        let entry = &facts.entry;
        let late = match entry.kind {
            SERIES | METADATA => true,
            TOMBSTONES => entry.max.0 >= self.time,
            _ => entry.time.0 >= self.time,
        };
        late && self.ids.contains(&entry.id.0)
    }

    /// Takes the target up to this place as the source: the checkpoint of it has the same bytes.
    fn keep_again(&mut self, place: usize, pages: usize) -> Result<(), String> {
        let bytes = self.target.bytes(0..place).to_vec();
        self.source.put(&bytes);
        let again = self.keep(place, pages)?;
        let same = again == Answer::new(0, [place as u64, 0]);
        match same && self.target.bytes(0..place) == &bytes[..] {
            true => Ok(()),
            false => Err(format!("a checkpoint of {place} bytes, again: {again:?}")),
        }
    }
}

/// What `depot_wal_checkpoint` has to answer.
fn answer_of(checkpoint: Checkpoint) -> Answer<2> {
    let (number, at) = match checkpoint.refusal {
        None => (0, 0),
        Some(refusal) => (refusal.number, refusal.place),
    };
    Answer::new(number, [checkpoint.place as u64, at as u64])
}

/// The entries of each record that starts before `end`; none of a body whose type is not known.
fn entries(version: Version, segment: &[u8], end: usize) -> Result<Vec<Vec<Facts>>, String> {
    let mut buffer = vec![0; RECORD_MAX];
    let good = &mut Good::default();
    let mut list = Vec::new();
    while let Reading::Record(record) =
        segment::read(version, segment, good.offset, &mut buffer, good)
            .map_err(|why| format!("{why:?} in {} bytes", segment.len()))?
    {
        if record.start >= end {
            break;
        }
        list.push(entries_of(&buffer[..record.length]).unwrap_or_default());
    }
    Ok(list)
}

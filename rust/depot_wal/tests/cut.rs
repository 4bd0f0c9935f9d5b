//! The file of a log cut at every byte, and zero-filled from every byte on, to its end or with later
//! bytes of the record stored; then opened and written on with, and cut or zero-filled again while it is. Nothing whole may be lost, an `open` that
//! refuses may change nothing, and once all records are appended the file is as if the power had
//! never failed. Prints how often that was tried.

mod common;

use common::{times, Folder, Rng};
use depot_wal::log::{Log, LogError, Options};
use depot_wal::segment::{Records, Writer, PAGE, RECORD_MAX};
use depot_wal::Version;
use std::fs;
use std::path::Path;

/// A log that was never cut.
struct Whole {
    version: Version,
    records: Vec<Vec<u8>>,
    bytes: Vec<u8>,
    /// Of each record its start, the place after it, and the place of the next one.
    places: Vec<[usize; 3]>,
}

impl Whole {
    fn new(version: Version, rng: &mut Rng, lengths: &[usize]) -> Whole {
        let records: Vec<Vec<u8>> = lengths.iter().map(|&length| rng.bytes(length)).collect();
        let mut segment = vec![0; 4 * PAGE];
        let mut writer = Writer::new(version, &mut segment);
        let mut places = Vec::new();
        for record in &records {
            let start = writer.write(record).expect("it fits");
            places.push([start, 0, writer.place()]);
        }
        let bytes = writer.written().to_vec();
        let mut buffer = [0; RECORD_MAX];
        let mut reading = Records::new(version, &bytes, &mut buffer);
        for place in &mut places {
            place[1] = reading.next().expect("a record").expect("it is good").next;
        }
        Whole {
            version,
            records,
            bytes,
            places,
        }
    }

    /// How many records are whole in the first bytes.
    fn whole_in(&self, cut: usize) -> usize {
        self.places.iter().filter(|place| place[1] <= cut).count()
    }

    /// The length of a file with so many records.
    fn length(&self, count: usize) -> usize {
        count.checked_sub(1).map_or(0, |last| self.places[last][2])
    }
}

/// How the power fails: all bytes before the cut survive, then nothing, or zeros up to a place, and
/// then again bytes as they were written, up to an end.
#[derive(Clone, Copy, Debug)]
struct Cut {
    at: usize,
    zeros_to: usize,
    end: usize,
}

impl Cut {
    fn clean(at: usize) -> Cut {
        Cut::zeros(at, at)
    }

    fn zeros(at: usize, zeros_to: usize) -> Cut {
        let end = zeros_to;
        Cut { at, zeros_to, end }
    }
}

#[derive(Default)]
struct Counts {
    cut: usize,
    filled: usize,
    /// .. with later bytes of the record stored.
    holes: usize,
    again: usize,
    refused: usize,
    appended: usize,
    /// Logs whose records were read one by one, too.
    read: usize,
}

struct Trial<'a> {
    whole: &'a Whole,
    path: &'a Path,
    counts: &'a mut Counts,
}

impl Trial<'_> {
    /// Fails the power, opens, and checks that nothing is lost.
    fn fail(&mut self, cut: Cut) -> Log {
        let mut bytes = self.whole.bytes[..cut.at].to_vec();
        bytes.resize(cut.zeros_to, 0);
        if cut.end > cut.zeros_to {
            bytes.extend(&self.whole.bytes[cut.zeros_to..cut.end]);
        }
        fs::write(self.path, &bytes).expect("the file is written");
        let options = Options::new().version(self.whole.version);
        let kept = self.whole.whole_in(cut.at);
        let log = match options.open(self.path) {
            Ok(log) => log,
            Err(LogError::Bytes(refused)) => {
                self.counts.refused += 1;
                assert!(cut.zeros_to > cut.at, "{cut:?}: a mere cut is refused");
                let there = fs::read(self.path).expect("the file is read");
                assert!(there == bytes, "{cut:?}: a refusal changed the file");
                assert!(refused.good.records >= kept as u64, "{cut:?}: {refused}");
                options.open_truncating(self.path).expect("it opens then")
            }
            Err(other) => panic!("{cut:?}: {other}"),
        };
        let count = log.count() as usize;
        assert!(count >= kept, "{cut:?}: {count} records of {kept}");
        self.compare(&log, count);
        log
    }

    /// The file is that of the first records.
    fn compare(&self, log: &Log, count: usize) {
        let length = self.whole.length(count);
        let there = fs::read(self.path).expect("the file is read");
        assert_eq!(log.len(), length as u64);
        assert!(there == self.whole.bytes[..length], "{count} records");
    }

    fn append(&mut self, log: &mut Log, count: usize) {
        self.counts.appended += 1;
        let place = log.append(&self.whole.records[count]).expect("it fits");
        assert_eq!(place, self.whole.length(count) as u64);
    }

    /// Fails, appends one record and fails in the middle of that, or of the padding before it; then
    /// appends the rest.
    fn run(&mut self, first: Cut, rng: &mut Rng) {
        let mut log = self.fail(first);
        let mut count = log.count() as usize;
        if count < self.whole.records.len() {
            self.append(&mut log, count);
            let padding = count
                .checked_sub(1)
                .map_or(0, |last| self.whole.places[last][1]);
            let at = rng.between(padding, self.whole.length(count + 1));
            let zeros_to = [at, rng.between(at, at + 100)][rng.below(2)];
            drop(log);
            log = self.fail(Cut::zeros(at, zeros_to));
            self.counts.again += 1;
            count = log.count() as usize;
        }
        for count in count..self.whole.records.len() {
            self.append(&mut log, count);
        }
        self.compare(&log, self.whole.records.len());
        if rng.below(16) == 0 {
            let records: Result<Vec<_>, _> = log.records().collect();
            assert!(records.expect("all are good") == self.whole.records);
            self.counts.read += 1;
        }
    }
}

/// Cuts at every byte from the first one on, and zero-fills from every such byte on, so often: to the
/// end of that record, of its page, or of the log, or to anywhere; or to anywhere in the record, with
/// the rest of it as written.
fn every_byte(trial: &mut Trial, first: usize, often: usize, rng: &mut Rng) {
    let whole = trial.whole;
    for at in first..=whole.bytes.len() {
        trial.counts.cut += 1;
        trial.run(Cut::clean(at), rng);
        let inside = whole.whole_in(at).min(whole.records.len() - 1);
        let end = whole.places[inside][1].max(at);
        for _ in 0..times(often) {
            trial.counts.filled += 1;
            let cut = match rng.below(6) {
                0 => Cut::zeros(at, end),
                1 => Cut::zeros(at, at.next_multiple_of(PAGE)),
                2 => Cut::zeros(at, whole.bytes.len()),
                3 => Cut::zeros(at, rng.between(at, at + 2 * PAGE)),
                _ => {
                    trial.counts.holes += 1;
                    let zeros_to = rng.between(at, end);
                    Cut { at, zeros_to, end }
                }
            };
            trial.run(cut, rng);
        }
    }
}

fn main() {
    let folder = Folder::in_memory("cut");
    let (path, mut rng) = (folder.file("log"), Rng(1));
    let mut counts = Counts::default();
    let short: &[usize] = &[1, 37, 300, 5, 64, 37, 2, 700];
    // A page that ends in 4 bytes of padding; a record over two pages; one that begins with 7 bytes
    // left, and so with a fragment without data.
    let padded: &[usize] = &[32_700, 38, 5, 200];
    let split: &[usize] = &[32_600, 300, 50];
    let hollow: &[usize] = &[32_754, 60, 40];
    // Of the last two the bytes of the first record are those of any: only its last are tried.
    for (version, lengths, first, often) in [
        (Version::V1, short, 0, 4),
        (Version::V2, short, 0, 4),
        (Version::V1, padded, 0, 1),
        (Version::V2, padded, 32_500, 4),
        (Version::V1, split, 32_500, 4),
        (Version::V2, split, 32_500, 4),
        (Version::V1, hollow, 32_500, 4),
        (Version::V2, hollow, 32_500, 4),
    ] {
        let whole = Whole::new(version, &mut rng, lengths);
        let mut trial = Trial {
            whole: &whole,
            path: &path,
            counts: &mut counts,
        };
        every_byte(&mut trial, first, often, &mut rng);
    }
    println!(
        "cut: {} files cut and {} zero-filled ({} inside a record alone), at every byte; {} times \
         again during the resume; {} refused and unchanged, then truncated; {} records appended, \
         {} logs read: nothing lost",
        counts.cut,
        counts.filled,
        counts.holes,
        counts.again,
        counts.refused,
        counts.appended,
        counts.read
    );
}

//! A writer is killed (SIGKILL) at random moments and started again on the same log, many times.
//! Every record whose append returned has to come out, and none that was not appended. Prints how
//! often that was tried.

mod common;

use common::{times, Folder, Rng};
use depot_wal::log::{Log, LogError};
use std::io::{BufRead, BufReader, Write};
use std::path::Path;
use std::process::{Command, Stdio};
use std::time::{Duration, Instant};

/// Names the log to a writer, which is this program again.
const LOG: &str = "DEPOT_WAL_TEST_LOG";
/// How many records the writer appends before it syncs.
const BATCH: &str = "DEPOT_WAL_TEST_BATCH";

/// The record with this number; one in eight is long.
fn record(number: u64) -> Vec<u8> {
    let mut rng = Rng(number);
    let longest = [65_536, 400][usize::from(rng.below(8) != 0)];
    let length = rng.between(8, longest);
    let (number, noise) = (number.to_be_bytes(), rng.next().to_be_bytes());
    let bytes = number.into_iter().chain(noise.into_iter().cycle());
    bytes.take(length).collect()
}

fn open(path: &Path) -> (Log, bool) {
    match Log::open(path) {
        Ok(log) => (log, false),
        Err(LogError::Bytes(_)) => (Log::open_truncating(path).expect("it opens then"), true),
        Err(other) => panic!("{other}"),
    }
}

/// Appends records for ever, and says each number once its append returned.
fn write(path: &Path, batch: usize) -> ! {
    let (mut log, _) = open(path);
    let mut out = std::io::stdout().lock();
    loop {
        let first = log.count();
        for number in first..first + batch as u64 {
            match batch {
                1 => log.append(&record(number)).expect("it is appended"),
                _ => log
                    .append_unsynced(&record(number))
                    .expect("it is appended"),
            };
        }
        if batch != 1 {
            log.sync().expect("the file is synced");
        }
        writeln!(out, "{}", log.count()).expect("somebody reads");
        out.flush().expect("somebody reads");
    }
}

#[derive(Default)]
struct Counts {
    rounds: usize,
    /// Records whose append returned.
    returned: u64,
    /// Rounds in which the writer had appended more than it could say.
    more: usize,
    /// Rounds in which it was killed inside a record.
    torn: usize,
    refused: usize,
}

/// Starts a writer, kills it, and hands back how many records it said are there.
fn kill_one(path: &Path, batch: usize, rng: &mut Rng) -> Option<u64> {
    let program = std::env::current_exe().expect("a program knows its file");
    let mut writer = Command::new(program)
        .env(LOG, path)
        .env(BATCH, batch.to_string())
        .stdout(Stdio::piped())
        .spawn()
        .expect("the writer starts");
    let mut said = BufReader::new(writer.stdout.take().expect("a pipe")).lines();
    let mut last = None;
    // One round in four is killed at any moment from its start on, the others some records later.
    if rng.below(4) != 0 {
        for _ in 0..rng.between(1, 12) {
            last = said.next().map(|line| line.expect("a line"));
        }
    }
    let pause = Duration::from_micros(rng.below(3_000) as u64);
    let start = Instant::now();
    while start.elapsed() < pause {
        std::hint::spin_loop();
    }
    writer.kill().expect("the writer runs until it is killed");
    writer.wait().expect("it has ended");
    for line in said {
        last = Some(line.expect("a line"));
    }
    last.map(|line| line.parse().expect("a number"))
}

/// Opens the log after a kill and compares every record.
fn check(path: &Path, said: u64, batch: usize, counts: &mut Counts) -> Log {
    let length = std::fs::metadata(path).map_or(0, |file| file.len());
    let (log, refused) = open(path);
    counts.refused += usize::from(refused);
    counts.torn += usize::from(log.len() != length);
    counts.more += usize::from(log.count() > said);
    assert!(log.count() >= said, "{} of {said} records", log.count());
    assert!(
        log.count() <= said + batch as u64,
        "{} for {said} records",
        log.count()
    );
    let mut numbers = 0..;
    for (found, number) in log.records().zip(&mut numbers) {
        assert!(
            found.expect("it is good") == record(number),
            "record {number}"
        );
    }
    assert_eq!(numbers.start, log.count(), "as many as were counted");
    log
}

/// Where the writer writes: one log after the other.
struct Place {
    folder: Folder,
    file: usize,
    /// Records of the log at hand.
    count: u64,
}

impl Place {
    fn new(folder: Folder) -> Place {
        let (file, count) = (0, 0);
        Place {
            folder,
            file,
            count,
        }
    }

    fn round(&mut self, batch: usize, rng: &mut Rng, counts: &mut Counts) {
        let version = ["", "-v2"][self.file % 2];
        let path = self.folder.file(&format!("{:06}{version}", self.file));
        let said = kill_one(&path, batch, rng).unwrap_or(self.count);
        let log = check(&path, said, batch, counts);
        counts.rounds += 1;
        counts.returned += said - self.count;
        self.count = log.count();
        if log.len() > 4 << 20 {
            std::fs::remove_file(&path).expect("the file was there");
            (self.file, self.count) = (self.file + 1, 0);
        }
    }
}

fn main() {
    if let (Ok(path), Ok(batch)) = (std::env::var(LOG), std::env::var(BATCH)) {
        write(Path::new(&path), batch.parse().expect("a number"));
    }
    let mut rng = Rng(2);
    let mut counts = Counts::default();
    // On a disk a writer is mostly killed while it syncs, in memory while it writes.
    let mut places = [
        Place::new(Folder::on_disk("kill")),
        Place::new(Folder::in_memory("kill")),
    ];
    for round in 0..times(160) {
        let batch = [1, 8, 200][round % 3];
        places[round % 2].round(batch, &mut rng, &mut counts);
    }
    let Counts {
        rounds,
        returned,
        more,
        torn,
        refused,
    } = counts;
    println!(
        "kill: a writer killed {rounds} times, {torn} times inside a record and {more} times \
         before it could say that one was there; {refused} refused; of {returned} records whose \
         append returned nothing lost"
    );
}

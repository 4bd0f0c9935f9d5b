//! The Rust crate's log on a file, beside the C call and one write of the same bytes.

use crate::timing::{time_fresh, NUMBER};
use compare::ffi::{self, bare, Table};
use depot_wal::log::{Log, Options};
use depot_wal::Version;
use reference::segment::{PAGE, RECORD_MAX};
use std::fs::{self, File};
use std::io::Write;
use std::path::{Path, PathBuf};

/// Bytes of a record, and records of a round.
const JOBS: [(usize, usize); 3] = [(37, 100_000), (4_096, 4_000), (65_536, 250)];
const ROUNDS: usize = 25;

/// The contenders, by their places.
const LOG: usize = 0;
const CALL: usize = 1;

const SETTING: &str = "\
Both append to the same file, which is empty at the start of a round, and sync nothing. By hand is
the C call with a table into a segment of its own, whose memory is touched, and one write of the
bytes from the old place to the new. The aim is at most 1.2.
  length                           by   ns/record  /by hand";

/// Prints two lines for each length and hands back the summary.
pub fn bench() -> String {
    println!("\nLog::append without its sync, {ROUNDS} rounds\n{SETTING}");
    let folder = Folder::new();
    let ratios = JOBS.map(|(length, count)| bench_length(&folder.log(), length, count));
    format!("Log::append / by hand {}", ratios.join(" "))
}

fn bench_length(path: &Path, length: usize, count: usize) -> String {
    let record: &[u8] = &vec![7; length];
    let table: &Table = &ffi::table().expect("nothing is written beside the table");
    let rounds = time_fresh(
        ROUNDS,
        count,
        [
            &|| {
                let mut log = empty_log(path);
                Box::new(move || append(&mut log, record, count))
            },
            &|| {
                drop(empty_log(path));
                let file = File::options().write(true).open(path);
                let mut hand = ByHand::new(file.expect("it is there"), length * count);
                Box::new(move || hand.append(table, record, count))
            },
        ],
    );
    for (by, this) in [("Log::append_unsynced", LOG), ("C call and write", CALL)] {
        let (time, ratio) = (rounds.median(this), rounds.ratio(this, CALL));
        println!("{length:>8} {by:>28} {time:>11.1} {ratio:>9.2}");
    }
    format!("{length}: {:.2}", rounds.ratio(LOG, CALL))
}

fn empty_log(path: &Path) -> Log {
    fs::write(path, []).expect("an empty file");
    let options = Options::new().version(Version::V1);
    options.open(path).expect("an empty log")
}

fn append(log: &mut Log, record: &[u8], count: usize) {
    for _ in 0..count {
        log.append_unsynced(record).expect("there is room");
    }
}

/// What a C program keeps.
struct ByHand {
    file: File,
    segment: Vec<u8>,
    place: usize,
}

impl ByHand {
    /// With a segment for more than so many bytes.
    fn new(file: File, bytes: usize) -> ByHand {
        let pages = 2 * bytes / PAGE + RECORD_MAX / PAGE;
        let segment = vec![1; pages * PAGE];
        let place = 0;
        ByHand {
            file,
            segment,
            place,
        }
    }

    fn append(&mut self, table: &Table, record: &[u8], count: usize) {
        for _ in 0..count {
            let (place, mut out) = (self.place, [0; 2]);
            let segment = &mut self.segment;
            let number = bare::write_with_table(table, NUMBER, segment, place, record, &mut out);
            assert_eq!(number, 0, "there is room");
            self.place = out[0] as usize;
            let written = self.file.write_all(&segment[place..self.place]);
            written.expect("the file is written");
        }
    }
}

/// A folder for the file.
struct Folder(PathBuf);

impl Folder {
    fn new() -> Folder {
        let name = format!("depot_wal_bench_log_{}", std::process::id());
        let folder = Folder(std::env::temp_dir().join(name));
        fs::create_dir(&folder.0).expect("a new folder");
        folder
    }

    fn log(&self) -> PathBuf {
        self.0.join("log")
    }
}

impl Drop for Folder {
    fn drop(&mut self) {
        let _ = fs::remove_dir_all(&self.0);
    }
}

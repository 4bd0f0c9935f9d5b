//! A whole segment listed by the two programs, from a file to a file.

use crate::feed::LENGTH;
use crate::timing::time;
use reference::listing;
use reference::segment::SEGMENT_MAX;
use std::fs::{self, File};
use std::io::{self, BufWriter, Write};
use std::path::PathBuf;
use std::process::Command;

const ROUNDS: usize = 7;

/// The contenders, by their places.
const OURS: usize = 0;
const SECOND: usize = 1;

const SETTING: &str = "\
A time is that of the whole process. Its input is in the system's memory, its output a new file.
                  by          ms      MB/s  2nd/this";

/// The programs: ours, and the second one, which lists as `PROGRAM list`.
pub struct Programs {
    pub ours: PathBuf,
    pub second: PathBuf,
}

/// Prints a line for each program and hands back the summary. The segment is the one that the page
/// feed was timed on.
pub fn bench(programs: &Programs, segment: &[u8]) -> String {
    let size = SEGMENT_MAX >> 20;
    println!("\nlist {size} MiB of {LENGTH}-byte records, {ROUNDS} rounds\n{SETTING}");
    let mut files = Files::new(segment);
    let ours = |files: &mut Files| files.list(Command::new(&programs.ours), OURS);
    let second = |files: &mut Files| {
        let mut command = Command::new(&programs.second);
        command.arg("list");
        files.list(command, SECOND);
    };
    let rounds = time(ROUNDS, 1, &mut files, [&ours, &second]);
    assert!(files.listed(OURS) == files.listed(SECOND), "two listings");
    for (by, this) in [("list", OURS), ("second's list", SECOND)] {
        let (time, ratio) = (rounds.median(this) / 1e6, rounds.ratio(SECOND, this));
        let speed = SEGMENT_MAX as f64 / 1e3 / time;
        println!("{by:>20} {time:>11.1} {speed:>9.1} {ratio:>9.2}");
    }
    format!("second's list / list {:.2}", rounds.ratio(SECOND, OURS))
}

/// The input and a listing of each program, in a folder of their own.
struct Files(PathBuf);

impl Files {
    fn new(segment: &[u8]) -> Files {
        let folder = format!("depot_wal_bench_{}", std::process::id());
        let files = Files(std::env::temp_dir().join(folder));
        fs::create_dir(&files.0).expect("a new folder");
        fs::write(files.input(), segment).expect("the input is written");
        files
    }

    fn input(&self) -> PathBuf {
        self.0.join("input")
    }

    fn output(&self, program: usize) -> PathBuf {
        self.0.join(format!("output{program}"))
    }

    /// Runs a program on the input.
    fn list(&self, mut command: Command, program: usize) {
        let input = File::open(self.input()).expect("the input is there");
        let output = File::create(self.output(program)).expect("a new output");
        match command.stdin(input).stdout(output).status() {
            Ok(status) if status.success() => {}
            other => panic!("{command:?}: {other:?}"),
        }
    }

    fn listed(&self, program: usize) -> Vec<u8> {
        fs::read(self.output(program)).expect("the program has listed")
    }
}

impl Drop for Files {
    fn drop(&mut self) {
        let _ = fs::remove_dir_all(&self.0);
    }
}

/// Lists standard input as the second program does, so that no other file has to be built.
pub fn list_as_second() {
    let mut output = BufWriter::new(io::stdout().lock());
    listing::list(io::stdin().lock(), &mut output)
        .and_then(|()| output.flush())
        .expect("the listing is written");
}

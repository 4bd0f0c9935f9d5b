//! The voltage report over eight whole segments of switches, by the two programs.

use crate::replay::Log;
use crate::timing::time;
use reference::replay::SERIES_MAX;
use reference::reporting;
use reference::segment::SEGMENT_MAX;
use std::ffi::OsString;
use std::fs;
use std::io::{self, Write};
use std::path::PathBuf;
use std::process::Command;

const ROUNDS: usize = 5;

/// Segments of the night.
const SEGMENTS: usize = 8;

/// The contenders, by their places.
const OURS: usize = 0;
const SECOND: usize = 1;

const SETTING: &str = "\
A time is that of the whole process. The segments are eight names of one file in the system's
memory, of switches about 256 series. The second program reads a file whole before it looks at it.
                  by          ms      MB/s  2nd/this";

/// The programs: ours, and the second one, which reports as `PROGRAM report NAME..`.
pub struct Programs {
    pub ours: PathBuf,
    pub second: PathBuf,
}

/// Prints a line for each program and hands back the summary.
pub fn bench(programs: &Programs) -> String {
    let size = SEGMENT_MAX >> 20;
    println!("\nreport over {SEGMENTS} segments of {size} MiB, {ROUNDS} rounds\n{SETTING}");
    let mut night = Night::new();
    let ours = |night: &mut Night| night.report(Command::new(&programs.ours), OURS);
    let second = |night: &mut Night| {
        let mut command = Command::new(&programs.second);
        command.arg("report");
        night.report(command, SECOND);
    };
    let rounds = time(ROUNDS, 1, &mut night, [&ours, &second]);
    assert!(night.reports[OURS] == night.reports[SECOND], "two reports");
    for (by, this) in [("report", OURS), ("second's report", SECOND)] {
        let (time, ratio) = (rounds.median(this) / 1e6, rounds.ratio(SECOND, this));
        let speed = (SEGMENTS * SEGMENT_MAX) as f64 / 1e3 / time;
        println!("{by:>20} {time:>11.1} {speed:>9.1} {ratio:>9.2}");
    }
    format!("second's report / report {:.2}", rounds.ratio(SECOND, OURS))
}

/// The segments in a folder of their own, and what each program printed of them.
struct Night {
    folder: PathBuf,
    reports: [Vec<u8>; 2],
}

impl Night {
    fn new() -> Night {
        let folder = format!("depot_wal_bench_report_{}", std::process::id());
        let night = Night {
            folder: std::env::temp_dir().join(folder),
            reports: [Vec::new(), Vec::new()],
        };
        fs::create_dir(&night.folder).expect("a new folder");
        let segment = Log::new(SERIES_MAX, SEGMENT_MAX).bytes;
        fs::write(night.name(0), segment).expect("the segment is written");
        for position in 1..SEGMENTS {
            fs::hard_link(night.name(0), night.name(position)).expect("one more name");
        }
        night
    }

    fn name(&self, position: usize) -> PathBuf {
        self.folder.join(format!("{position:06}"))
    }

    fn report(&mut self, mut command: Command, program: usize) {
        command.args((0..SEGMENTS).map(|position| self.name(position)));
        match command.output() {
            Ok(output) if output.status.success() => self.reports[program] = output.stdout,
            other => panic!("{command:?}: {other:?}"),
        }
    }
}

impl Drop for Night {
    fn drop(&mut self) {
        let _ = fs::remove_dir_all(&self.folder);
    }
}

/// Reports as the second program does, so that no other file has to be built.
pub fn report_as_second(names: &[OsString]) {
    let text = reporting::text(names);
    let written = io::stdout().write_all(text.as_bytes());
    written.expect("the report is written");
}

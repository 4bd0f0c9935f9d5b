//! `replay` beside reading the file into memory and the library's call. Run by `make bench`, and not
//! with the other tests: `cargo test --release -- --ignored --nocapture`.

use crate::common::log::{samples, series};
use crate::common::Folder;
use depot_wal::replay::Replay;
use depot_wal::segment::{Writer, RECORD_MAX, SEGMENT_MAX};
use depot_wal::Version;
use std::process::Stdio;

const ROUNDS: usize = 15;
const AT_MOST: f64 = 1.2;

/// A segment full of switches of ten series, and one more that is named last: its labels are the
/// last to be found.
fn full() -> Vec<u8> {
    let mut segment = vec![0; SEGMENT_MAX];
    let mut writer = Writer::new(Version::V1, &mut segment);
    for id in 0..10 {
        let id_text = id.to_string();
        writer
            .write(&series(&[(id, &[("profile", &id_text)])]))
            .unwrap();
    }
    let mut time = 0;
    while writer.place() < SEGMENT_MAX - 65_536 {
        time += 1;
        let old = (time % 9) as u64;
        writer
            .write(&samples(&[(old, time, 0.0), (old + 1, time, 1.0)]))
            .unwrap();
    }
    writer
        .write(&series(&[(10, &[("profile", "last")])]))
        .unwrap();
    let end = writer.place();
    segment.truncate(end);
    segment
}

/// Whose time is asked for.
const SELF: i32 = 0;
const CHILDREN: i32 = -1;

/// The processor's time so far, user's and system's, in milliseconds. All of the work is one
/// thread's on a file in memory, so on an idle machine it is the time that passes; on a busy one the
/// clock on the wall tells more about the neighbours.
fn time_of(whom: i32) -> f64 {
    extern "C" {
        fn getrusage(whom: i32, usage: *mut [i64; 18]) -> i32;
    }
    let mut usage = [0; 18];
    // SAFETY: a `struct rusage` is two times of two numbers each, and fourteen numbers.
    let failed = unsafe { getrusage(whom, &mut usage) };
    assert_eq!(failed, 0);
    (usage[0] + usage[2]) as f64 * 1000.0 + (usage[1] + usage[3]) as f64 / 1000.0
}

/// The time that a piece of work takes.
fn time(whom: i32, work: impl FnOnce()) -> f64 {
    let start = time_of(whom);
    work();
    time_of(whom) - start
}

#[test]
#[ignore = "it measures; make bench runs it"]
fn replay_of_a_full_segment() {
    let folder = Folder::with("000001", &full());
    let (mut command, mut library) = (f64::MAX, f64::MAX);
    for _ in 0..ROUNDS {
        // The best round of each.
        library = library.min(time(SELF, || {
            let bytes = folder.get("000001");
            let mut buffer = Box::new([0; RECORD_MAX]);
            let mut replay = Box::new(Replay::new());
            replay.run(Version::V1, &bytes, &mut buffer).unwrap();
            assert_eq!(replay.series().len(), 11);
        }));
        command = command.min(time(CHILDREN, || {
            let mut child = folder.command(&["replay", "000001"]);
            assert!(child.stdout(Stdio::null()).status().unwrap().success());
        }));
    }
    let ratio = command / library;
    let verdict = if ratio <= AT_MOST { "kept" } else { "NOT KEPT" };
    println!(
        "depot-wal replay of 128 MiB: {command:.0} ms of the processor; reading the file and the \
         library's call: {library:.0} ms; {ratio:.2}, at most {AT_MOST}: {verdict}"
    );
    assert!(ratio <= AT_MOST);
}

//! Files as a technician comes across them: none, a directory, empty, packed, foreign, huge; and
//! output that goes nowhere.

use crate::common::log::{depot, samples, series, torn, Log};
use crate::common::{sparse, Folder, Run};
use std::fs::{File, OpenOptions};
use std::io::Read;
use std::os::fd::FromRawFd;
use std::process::Stdio;

/// Commands that take any file.
const READERS: [&[&str]; 6] = [
    &["list"],
    &["dump"],
    &["replay"],
    &["replay", "--by", "scooter"],
    &["verify"],
    &["resume", "--dry-run"],
];

fn with<'a>(words: &[&'a str], file: &'a str) -> Vec<&'a str> {
    [words, &[file]].concat()
}

#[test]
fn a_missing_file() {
    let folder = Folder::new();
    for words in READERS
        .iter()
        .chain(&[&["resume"][..], &["index"], &["verify", "--json"]])
    {
        let run = folder.run(&with(words, "000009"));
        run.told(
            1,
            &["depot-wal: 000009: there is no such file; check the path"],
        );
        run.json(); // nothing, or a line of JSON
    }
    // Nothing was made.
    assert!(folder.names().is_empty());
}

#[test]
fn a_directory() {
    let folder = Folder::new();
    for words in READERS.iter().chain(&[&["resume"][..], &["index"]]) {
        let run = folder.run(&with(words, "."));
        run.refused(
            "",
            &["depot-wal: .: it is a directory; name the segments in it"],
        );
    }
}

#[test]
fn an_empty_file() {
    let folder = Folder::with("000001", b"");
    for words in READERS {
        let run = folder.run(&with(words, "000001"));
        assert_eq!((run.status, run.err.as_str()), (0, ""), "{words:?}");
    }
    folder
        .run(&["list", "000001"])
        .fine("000001: version 1, 0 bytes\nclean end\ngood: 0 records in the first 0 bytes\n");
}

#[test]
fn packed_files_are_recognised() {
    for (start, what) in [
        (
            &[0x1F, 0x8B, 8, 0][..],
            "begins like a file of gzip; unpack it with gunzip",
        ),
        (&[0x28, 0xB5, 0x2F, 0xFD, 4], "begins like a file of zstd"),
        (b"\xFF\x06\x00\x00sNaPpY", "begins like a file of snappy"),
        (b"PK\x03\x04", "begins like a file of zip"),
        (b"BZh91AY", "begins like a file of bzip2"),
        (b"\xFD7zXZ\0", "begins like a file of xz"),
    ] {
        let folder = Folder::with("000001", start);
        for words in READERS {
            folder
                .run(&with(words, "000001"))
                .told(1, &[what, "and try again"]);
        }
    }
}

#[test]
fn records_that_prometheus_compressed() {
    // Type byte 09: a whole record, compressed with snappy.
    let folder = Folder::with("00000000", &[9, 0, 1, 0, 0, 0, 0, 0]);
    for words in READERS {
        let run = folder.run(&with(words, "00000000"));
        run.told(
            1,
            &[
                "the record at 0 is compressed",
                "--no-storage.tsdb.wal-compression",
            ],
        );
        assert!(run
            .out
            .contains("refused at 0: compressed record, which is not supported (number 4)"));
    }
}

#[test]
fn a_foreign_file() {
    // 'H' is 48, which has a reserved bit.
    let folder = Folder::with("notes.txt", b"Hello, depot\n");
    for words in READERS {
        let run = folder.run(&with(words, "notes.txt"));
        run.told(
            1,
            &[
                "no record can be read",
                "check that it is a segment, and of version 1",
            ],
        );
        assert!(run
            .out
            .contains("refused at 0: corrupt: reserved bit set in a type byte (number 3)"));
    }
    assert_eq!(folder.get("notes.txt"), b"Hello, depot\n");
}

#[test]
fn a_huge_file() {
    let folder = Folder::new();
    sparse(&folder.path("huge"), 200 << 20);
    let first = "huge: version 1, more than 134217728 bytes\n";
    let told = ["huge: it is longer than 134217728 bytes, which no segment is"];
    let none = "good: 0 records in the first 0 bytes\n";
    for words in ["list", "dump", "replay", "resume"] {
        folder
            .run(&[words, "--json", "huge"])
            .json()
            .iter()
            .find(|line| line.has("end"))
            .map(|line| assert_eq!((line.text("end"), line.text("number")), ("too long", "1")))
            .expect("an end");
        let run = folder.run(&[words, "huge"]);
        run.told(1, &told);
        assert!(
            run.out.starts_with(&format!("{first}too long\n{none}")),
            "{}",
            run.out
        );
    }
    folder.run(&["index", "huge"]).told(1, &told);
    assert_eq!(folder.names(), ["huge"]);
    assert_eq!(folder.path("huge").metadata().unwrap().len(), 200 << 20);
}

/// As long as a segment may be: zeros are a clean end (FORMAT 6.5). One byte more is too long, and
/// the records before it are listed all the same.
#[test]
fn the_longest_segment() {
    let folder = Folder::with("000001", &depot(1).bytes);
    let file = OpenOptions::new()
        .write(true)
        .open(folder.path("000001"))
        .unwrap();
    file.set_len(134_217_728).unwrap();
    let run = folder.run(&["list", "000001"]);
    assert!(run.out.ends_with(
        "record 3 at 212, 37 bytes: samples, 2 entries\nclean end\n\
         good: 4 records in the first 256 bytes, then 134217472 zeros\n"
    ));
    assert_eq!(run.status, 0);
    file.set_len(134_217_729).unwrap();
    let run = folder.run(&["list", "000001"]);
    assert!(run.out.ends_with(
        "record 3 at 212, 37 bytes: samples, 2 entries\ntoo long\n\
         good: 4 records in the first 256 bytes\n"
    ));
    run.told(1, &["longer than 134217728 bytes"]);
    // Nothing else is said of such a file.
    for words in ["replay", "resume"] {
        let run = folder.run(&[words, "000001"]);
        let (_, lines) = run.out.split_once('\n').unwrap();
        assert!(lines.starts_with("too long\ngood: 0 records in the first 0 bytes\n"));
        run.told(1, &["longer than 134217728 bytes"]);
    }
    // The same from standard input.
    let mut command = folder.command(&["list", "-"]);
    command.stdin(File::open(folder.path("000001")).unwrap());
    assert!(Run::of(command).out.contains("\ntoo long\n"));
}

#[test]
fn several_files_and_one_that_is_not_there() {
    let folder = Folder::with("000001", &depot(1).bytes);
    folder.put("000003", b"");
    folder
        .run(&["verify", "000001", "000002", "000003"])
        .refused(
            "000001: version 1, 256 bytes\n10 entries\nclean end\n\
         good: 4 records in the first 256 bytes\n\
         000003: version 1, 0 bytes\n0 entries\nclean end\n\
         good: 0 records in the first 0 bytes\n",
            &["000002: there is no such file"],
        );
}

#[test]
fn standard_input() {
    let folder = Folder::new();
    let run = folder.run_with(&["replay", "--by", "scooter", "-"], &depot(1).bytes);
    assert!(run
        .out
        .starts_with("-: version 1, 256 bytes\nscooter=\"1\": 12 "));
    assert_eq!(run.status, 0);
    // Without anything behind it, too.
    assert_eq!(folder.run_with(&["list", "-"], b"").status, 0);
}

#[test]
fn names_do_a_terminal_no_harm() {
    let folder = Folder::with("\x1b[31m\n", &torn());
    let run = folder.run(&["list", "\x1b[31m\n"]);
    assert!(run.out.starts_with("\\x1b[31m\\n: version 1, 240 bytes\n"));
    assert!(!run.out.contains('\x1b') && !run.err.contains('\x1b'));
    let line = folder.run(&["list", "--json", "\x1b[31m\n"]).out;
    assert!(!line.contains('\x1b'));
}

// ---- Output ----

#[test]
fn a_full_disk_under_the_output() {
    let folder = Folder::with("000001", &depot(1).bytes);
    let others = [&["report"][..], &["help"], &["list", "--json"]];
    for words in READERS.iter().chain(&others) {
        let mut command = folder.command(&with(words, "000001"));
        if words[0] == "help" {
            command = folder.command(words);
        }
        command.stdout(OpenOptions::new().write(true).open("/dev/full").unwrap());
        let run = Run::of(command);
        run.told(
            1,
            &[
                "standard output cannot be written (No space left",
                "make room there",
            ],
        );
    }
}

#[test]
fn a_reader_that_leaves_is_not_told() {
    // Far more lines than a pipe holds.
    let mut log = Log::new(1);
    for _ in 0..20_000 {
        log = log.record(&[200]);
    }
    let folder = Folder::with("000001", &log.bytes);
    let mut command = folder.command(&["list", "000001"]);
    command.stdout(Stdio::piped()).stderr(Stdio::piped());
    let mut child = command.spawn().unwrap();
    let mut first = [0; 7];
    child.stdout.take().unwrap().read_exact(&mut first).unwrap();
    assert_eq!(&first, b"000001:");
    let output = child.wait_with_output().unwrap();
    assert_eq!(output.stderr, b"");
    assert_eq!(output.status.code(), Some(1));
}

/// A log of some MiB, so that progress would be shown.
fn long() -> Vec<u8> {
    let body = [&series(&[(1, &[])])[..], &[0; 9 * 7_000]].concat();
    let mut log = Log::new(1);
    for time in 0..60 {
        log = log.record(&body).record(&samples(&[(1, time, 1.0)]));
    }
    assert!(log.bytes.len() > 3 << 20);
    log.bytes
}

#[test]
fn no_progress_without_a_terminal() {
    let folder = Folder::with("000001", &long());
    let run = folder.run(&["list", "000001"]);
    assert_eq!((run.status, run.err.as_str()), (0, ""));
}

#[test]
fn progress_on_a_terminal() {
    let folder = Folder::with("000001", &long());
    let Some((mut terminal, other_end)) = terminal() else {
        println!("there is no terminal here to try it on");
        return;
    };
    let mut command = folder.command(&["list", "000001"]);
    command.stdout(Stdio::piped()).stderr(other_end);
    let mut child = command.spawn().unwrap();
    drop(command); // its copy of the other end
    let mut out = Vec::new();
    child.stdout.take().unwrap().read_to_end(&mut out).unwrap();
    assert!(child.wait().unwrap().success());
    // Reading a terminal whose other end is closed is an error, behind all that was written.
    let mut shown = Vec::new();
    let _ = terminal.read_to_end(&mut shown);
    let shown = String::from_utf8(shown).unwrap();
    assert!(
        shown.contains("\r1 of 4 MiB\r2 of 4 MiB\r3 of 4 MiB"),
        "{shown:?}"
    );
    assert!(
        shown.ends_with(&format!("\r{}\r", " ".repeat(30))),
        "{shown:?}"
    );
}

/// A terminal, and its other end, where the system has one to give.
fn terminal() -> Option<(File, File)> {
    extern "C" {
        fn openpty(
            one: *mut i32,
            other: *mut i32,
            name: *mut u8,
            settings: *const u8,
            size: *const u8,
        ) -> i32;
    }
    let (mut one, mut other) = (-1, -1);
    let none = std::ptr::null_mut();
    // SAFETY: both numbers are ours; what else it could fill or read is not given.
    let failed = unsafe { openpty(&mut one, &mut other, none, none, none) };
    // SAFETY: the call has just opened both, and nobody else has them.
    (failed == 0).then(|| unsafe { (File::from_raw_fd(one), File::from_raw_fd(other)) })
}

/// Standard input that is open for writing alone is no empty log; and what cannot be said on
/// standard output, open for reading alone, is not done.
#[test]
fn ends_that_are_the_wrong_way_round() {
    let folder = Folder::with("000001", &torn());
    let mut command = folder.command(&["list", "-"]);
    command.stdin(File::create(folder.path("written")).unwrap());
    Run::of(command).refused("", &["depot-wal: -: ", "check the medium, and try a copy"]);
    let mut command = folder.command(&["resume", "000001"]);
    command.stdout(File::open(folder.path("written")).unwrap());
    Run::of(command).told(1, &["standard output cannot be written"]);
    assert_eq!(folder.get("000001"), torn());
}

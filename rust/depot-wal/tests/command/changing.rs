//! resume and index: what changes files.

use crate::common::log::{depot, samples, torn, Log, PAGE};
use crate::common::{Folder, Run};
use std::fs::OpenOptions;
use std::process::Command;

#[test]
fn resume_says_and_truncates() {
    let folder = Folder::with("000001", &torn());
    let plan = "000001: version 1, 240 bytes\n\
                3 records whole; truncate from 240 to 212 bytes: the 28 bytes of a record that was cut off\n";
    folder
        .run(&["resume", "--dry-run", "000001"])
        .fine(&format!("{plan}dry run: nothing was changed\n"));
    assert_eq!(folder.get("000001"), torn());
    folder
        .run(&["resume", "000001"])
        .fine(&format!("{plan}done; the next record goes to 212\n"));
    assert_eq!(folder.get("000001"), torn()[..212]);
    // Once more there is nothing to do.
    folder.run(&["resume", "000001"]).fine(
        "000001: version 1, 212 bytes\n3 records whole; nothing to do, the next record goes to 212\n",
    );
    // What is written next makes the log that there would have been without the cut.
    let mut bytes = folder.get("000001");
    bytes.extend(&depot(1).bytes[212..]);
    folder.put("000001", &bytes);
    assert_eq!(folder.run(&["verify", "000001"]).status, 0);
}

/// A record of 32,755 bytes leaves 6 in its page; the cut is after two of these zeros.
#[test]
fn resume_fills_the_page() {
    let whole = Log::new(2).record(&[7; 32_755]).bytes;
    assert_eq!(whole.len(), PAGE);
    let folder = Folder::with("000001-v2", &whole[..PAGE - 4]);
    folder.run(&["resume", "000001-v2"]).fine(
        "000001-v2: version 2, 32764 bytes\n\
         1 record whole; add 4 zeros, from 32764 to 32768 bytes: the rest of its page, where no record fits\n\
         done; the next record goes to 32768\n",
    );
    assert_eq!(folder.get("000001-v2"), whole);
}

#[test]
fn resume_takes_zeros_off() {
    let bytes = [depot(1).bytes, vec![0; 100]].concat();
    let folder = Folder::with("000001", &bytes);
    folder.run(&["resume", "000001"]).fine(
        "000001: version 1, 356 bytes\n\
         4 records whole; truncate from 356 to 256 bytes: 100 zeros behind them\n\
         done; the next record goes to 256\n",
    );
    assert_eq!(folder.get("000001"), depot(1).bytes);
}

#[test]
fn resume_refuses_damage() {
    let mut bytes = depot(1).bytes;
    bytes[200] ^= 1;
    let folder = Folder::with("000001", &bytes);
    folder.run(&["resume", "000001"]).refused(
        "000001: version 1, 256 bytes\n\
         refused at 168: corrupt: checksum mismatch (number 10)\n\
         good: 2 records in the first 168 bytes\n\
         nothing was changed\n",
        &["damaged at 168", "truncate -s 168 COPY"],
    );
    assert_eq!(folder.get("000001"), bytes);
}

/// A damaged length reads as a cut: the record at 124 seems to end behind the file. But the switches
/// behind it are whole, and are not given up unasked.
#[test]
fn resume_gives_no_whole_record_up() {
    let mut bytes = depot(1).bytes;
    bytes[125] = 1; // 37 bytes become 293, and there are 256 in all
    let folder = Folder::with("000001", &bytes);
    let plan = "000001: version 1, 256 bytes\n\
                1 record whole; truncate from 256 to 124 bytes: 132 bytes, with 2 records that can be read\n";
    let told = ["000001: 2 records behind 124 can be read, so the file is damaged and not cut off"];
    folder
        .run(&["resume", "000001"])
        .refused(&format!("{plan}nothing was changed\n"), &told);
    folder
        .run(&["resume", "--dry-run", "000001"])
        .refused(&format!("{plan}dry run: nothing was changed\n"), &told);
    assert_eq!(folder.get("000001"), bytes);
    let run = folder.run(&["verify", "000001"]);
    run.told(
        1,
        &["reads as cut off, but 2 records behind it can be read: it is damaged"],
    );
    folder
        .run(&["resume", "--force", "000001"])
        .fine(&format!("{plan}done; the next record goes to 124\n"));
    assert_eq!(folder.get("000001"), bytes[..124]);
}

/// What cannot be said is not done.
#[test]
fn resume_does_nothing_unsaid() {
    let folder = Folder::with("000001", &torn());
    let mut command = folder.command(&["resume", "000001"]);
    command.stdout(OpenOptions::new().write(true).open("/dev/full").unwrap());
    Run::of(command).told(1, &["standard output cannot be written"]);
    assert_eq!(folder.get("000001"), torn());
}

#[test]
fn resume_leaves_a_log_that_is_open() {
    let folder = Folder::with("000001", &depot(1).bytes);
    let log = depot_wal::Log::open(folder.path("000001")).unwrap();
    // Somebody cuts it behind the back of the program that has it open.
    folder.put("000001", &torn());
    let run = folder.run(&["resume", "000001"]);
    run.told(
        1,
        &["another program has the log open; stop that one first"],
    );
    assert_eq!(folder.get("000001"), torn());
    drop(log);
    assert_eq!(folder.run(&["resume", "000001"]).status, 0);
    assert_eq!(folder.get("000001").len(), 212);
}

#[test]
fn resume_for_machines() {
    let folder = Folder::with("000001", &torn());
    let lines = folder.run(&["resume", "--json", "000001"]).json();
    let names = ["action", "from", "to", "records"];
    assert_eq!(
        names.map(|key| lines[0].text(key)),
        ["truncate", "240", "212", "3"]
    );
    assert_eq!(lines[1].text("note"), "done; the next record goes to 212");
    let lines = folder
        .run(&["resume", "--json", "--dry-run", "000001"])
        .json();
    assert_eq!(lines[0].text("action"), "none");
}

// ---- index ----

/// The index of `depot`: records, 12, bytes covered; then start and length of each (FORMAT 19.1).
fn depot_index(records: usize, covered: u32) -> Vec<u8> {
    let rows = [(0, 117), (124, 37), (168, 37), (212, 37)];
    let rows = rows[..records]
        .iter()
        .flat_map(|(start, length)| [*start, *length]);
    let numbers = [records as u32, 12, covered].into_iter().chain(rows);
    numbers.flat_map(u32::to_be_bytes).collect()
}

#[test]
fn index_is_built_checked_and_extended() {
    let log = depot(1).bytes;
    let folder = Folder::with("000001", &log[..168]);
    folder.run(&["index", "--check", "000001"]).refused(
        "000001: version 1, 168 bytes\n000001.index: missing, 0 records listed\nclean end\n\
         good: 2 records in the first 168 bytes\n",
        &["000001.index: there is none; without --check it is built"],
    );
    assert_eq!(folder.names(), ["000001"]);
    let lines = |bytes: usize, state: &str, records: usize| {
        format!(
            "000001: version 1, {bytes} bytes\n000001.index: {state}, {records} records listed\n\
             clean end\ngood: {records} records in the first {bytes} bytes\n"
        )
    };
    folder
        .run(&["index", "000001"])
        .fine(&lines(168, "built", 2));
    assert_eq!(folder.get("000001.index"), depot_index(2, 168));
    folder
        .run(&["index", "000001"])
        .fine(&lines(168, "good", 2));
    // The segment grows.
    folder.put("000001", &log);
    let run = folder.run(&["index", "--check", "000001"]);
    assert!(run
        .out
        .contains("good, the segment has grown since, 2 records listed"));
    assert_eq!(folder.get("000001.index"), depot_index(2, 168));
    folder
        .run(&["index", "000001"])
        .fine(&lines(256, "extended", 4));
    assert_eq!(folder.get("000001.index"), depot_index(4, 256));
    assert_eq!(folder.names(), ["000001", "000001.index"]);
}

#[test]
fn index_of_another_segment_is_refused() {
    let folder = Folder::with("000001", &depot(1).bytes);
    let mut wrong = depot_index(4, 256);
    wrong[15] = 1; // the first record would start at 1
    folder.put("000001.index", &wrong);
    let run = folder.run(&["index", "000001"]);
    assert!(run
        .out
        .contains("000001.index: refused, 0 records listed\n"));
    run.told(
        1,
        &["it is not the index of this segment; build it anew with --rebuild"],
    );
    assert_eq!(folder.get("000001.index"), wrong);
    assert_eq!(folder.run(&["index", "--rebuild", "000001"]).status, 0);
    assert_eq!(folder.get("000001.index"), depot_index(4, 256));
}

#[test]
fn index_of_a_torn_segment_lists_what_is_whole() {
    let folder = Folder::with("000001", &torn());
    let run = folder.run(&["index", "000001"]);
    assert!(run
        .out
        .contains("000001.index: built, 3 records listed\ntorn at 212"));
    run.told(1, &["at 212 was cut off"]);
    assert_eq!(folder.get("000001.index"), depot_index(3, 240));
}

#[test]
fn index_of_many_short_records() {
    // The least that a record takes: each of one byte, 4,096 in a page.
    let mut log = Log::new(1);
    for _ in 0..4_097 {
        log = log.record(&[200]);
    }
    let folder = Folder::with("000001", &log.bytes);
    assert_eq!(folder.run(&["index", "000001"]).status, 0);
    assert_eq!(folder.get("000001.index").len(), 12 + 8 * 4_097);
}

#[test]
fn a_draft_of_somebody_else_is_left_alone() {
    let folder = Folder::with("000001", &depot(1).record(&samples(&[(1, 1, 1.0)])).bytes);
    folder.put("000001.index.new", b"half");
    let run = folder.run(&["index", "000001"]);
    run.told(
        1,
        &["000001.index.new is there from an earlier run; remove it"],
    );
    assert_eq!(folder.names(), ["000001", "000001.index.new"]);
    assert_eq!(folder.get("000001.index.new"), b"half");
}

/// A disk that takes no more, by a limit on the length of files: what was begun is taken away, and
/// what was there stays.
#[test]
fn a_full_disk_under_a_new_file() {
    let folder = Folder::with("000001", &depot(1).bytes);
    folder.put("000002", &depot(1).bytes);
    folder.put("000002.index", &depot_index(2, 168));
    for words in [
        "index 000001",
        "index 000002",
        "checkpoint --all 000001 000003",
    ] {
        let mut command = Command::new("sh");
        let script = format!("trap '' XFSZ; ulimit -f 0; exec \"$0\" {words}");
        command.args(["-c", &script, env!("CARGO_BIN_EXE_depot-wal")]);
        command.current_dir(folder.path("."));
        let told = [
            "cannot be written (File too large",
            "make room there, or choose another place",
        ];
        Run::of(command).told(1, &told);
    }
    assert_eq!(folder.names(), ["000001", "000002", "000002.index"]);
    assert_eq!(folder.get("000002.index"), depot_index(2, 168));
}

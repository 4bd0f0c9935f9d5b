//! report: the lines of the program `report`, from the rules of document 02 [12].

use crate::common::log::{samples, series, Log};
use crate::common::{sparse, Folder};

/// Series 7: 11.9 and 12.6 and a NaN; series 8: only NaN; series 9: 0, then -0.
fn night() -> Log {
    Log::new(1)
        .record(&samples(&[
            (7, 1, 12.6),
            (8, 1, f64::NAN),
            (7, 2, f64::NAN),
        ]))
        .record(&samples(&[(7, 3, 11.9), (9, 3, 0.0), (9, 4, -0.0)]))
}

const LINES: &str = "\
series 7 3 1 4027cccccccccccd 4029333333333333
series 8 1 1 none
series 9 2 0 0000000000000000 0000000000000000
";

#[test]
fn a_night() {
    let folder = Folder::with("000001", &night().bytes);
    folder.run(&["report", "000001"]).fine(LINES);
    let lines = folder.run(&["report", "--json", "000001"]).json();
    assert_eq!(
        (lines[0].text("smallest"), lines[0].text("largest")),
        ("11.9", "12.6")
    );
    assert_eq!(lines[0].text("smallest_bits"), "4027cccccccccccd");
    assert_eq!(lines[1].get("smallest"), &crate::common::json::Json::Null);
}

/// Misnamed, missing, a directory: 30; too long: 1; torn: 12, and what was before is added.
#[test]
fn segments_that_are_refused() {
    let folder = Folder::with("000001", &night().bytes);
    let torn = night().record(&series(&[(1, &[])])).bytes;
    folder.put("000004", &torn[..torn.len() - 1]);
    folder.put("notes", &night().bytes);
    std::fs::create_dir(folder.path("000005")).unwrap();
    sparse(&folder.path("000006"), 134_217_729);
    // 1 + 16 + 3 * 10 bytes and 7, twice.
    folder
        .run(&["report", "notes", "000009", "000004", "000005", "000006"])
        .refused(
            &format!("segment 1 30 0\nsegment 2 30 0\nsegment 3 12 108\nsegment 4 30 0\nsegment 5 1 0\n{LINES}"),
            &[
                "notes: this is not the name of a segment",
                "000009: there is no such file",
                "000004: the record at 108 was cut off",
                "000005: it is a directory",
                "000006: it is longer",
            ],
        );
    // Named so, a foreign name will do.
    folder
        .run(&["report", "--version", "1", "notes"])
        .fine(LINES);
    let run = folder.run(&["report", "-"]);
    run.refused("segment 1 30 0\n", &["say --version"]);
}

#[test]
fn the_version_is_that_of_each_name() {
    let two = Log::new(2).record(&samples(&[(7, 1, 13.0)]));
    let folder = Folder::with("000001", &night().bytes);
    folder.put("000002-v2", &two.bytes);
    folder
        .run(&["report", "000001", "000002-v2"])
        .fine(&LINES.replace(
            "7 3 1 4027cccccccccccd 4029333333333333",
            "7 4 1 4027cccccccccccd 402a000000000000",
        ));
    let run = folder.run(&["report", "--version", "1", "000002-v2"]);
    run.refused(
        "segment 1 10 0\n",
        &["000002-v2: its checksums are those of version 2"],
    );
}

/// A 257th series ends the report; only the first segment so answered is printed.
#[test]
fn a_report_that_ends() {
    let rows: Vec<(u64, i64, f64)> = (0..257).map(|id| (id, 1, 1.0)).collect();
    let log = Log::new(1)
        .record(&samples(&rows[..256]))
        .record(&samples(&rows[256..]));
    let start = Log::new(1).record(&samples(&rows[..256])).bytes.len();
    let folder = Folder::with("000001", &log.bytes);
    folder.put("000002", &night().bytes);
    let run = folder.run(&["report", "000001", "000002", "misnamed"]);
    assert!(run
        .out
        .starts_with(&format!("segment 1 28 {start}\nseries 0 1 0 ")));
    assert_eq!(run.out.lines().count(), 257);
    assert_eq!(run.status, 1);
}

/// The 1,025th segment ends it too, and is not opened.
#[test]
fn too_many_segments() {
    let folder = Folder::with("000001", &night().bytes);
    let mut words = vec!["report"];
    words.extend(["000001"; 1_024]);
    assert_eq!(folder.run(&words).status, 0);
    words.extend(["misnamed", "misnamed"]);
    let run = folder.run(&words);
    assert!(
        run.out.starts_with("segment 1025 1 0\nseries 7 3072 1024 "),
        "{}",
        run.out
    );
    run.told(
        1,
        &["a report takes 1024 segments; make another of the rest"],
    );
}

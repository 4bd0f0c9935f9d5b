//! checkpoint: a new segment, and the old one only read.

use crate::common::log::{depot, samples, series, torn, Log};
use crate::common::Folder;

const SCOOTER_2: &[(u64, &[(&str, &str)])] = &[
    (21, &[("scooter", "2"), ("profile", "1")]),
    (22, &[("scooter", "2"), ("profile", "2")]),
];

/// Scooter 2 from 1500 on: its series, and its switch at 3000.
fn scooter_2(version: u8) -> Vec<u8> {
    Log::new(version)
        .record(&series(SCOOTER_2))
        .record(&samples(&[(21, 3000, 0.0), (22, 3000, 1.0)]))
        .bytes
}

#[test]
fn keeps_by_label_from_a_time_on() {
    let folder = Folder::with("000001", &depot(1).bytes);
    let words = [
        "checkpoint",
        "--label",
        "scooter=2",
        "--from",
        "1500",
        "000001",
        "000002",
    ];
    // 1 + 2 * 29 bytes of series, 37 of the switch, 7 before each.
    folder.run(&words).fine(
        "000001: version 1, 256 bytes\n\
         000002: written and read back, 2 series, 2 records, 110 bytes\n",
    );
    assert_eq!(folder.get("000002"), scooter_2(1));
    assert_eq!(folder.get("000001"), depot(1).bytes);
    assert_eq!(folder.names(), ["000001", "000002"]);
}

#[test]
fn keeps_by_id_in_the_version_of_the_source() {
    let folder = Folder::with("000001-v2", &depot(2).bytes);
    let words = [
        "checkpoint",
        "--id=21",
        "--id=22",
        "--from=1970-01-01T00:00:02Z",
    ];
    let words = [&words[..], &["000001-v2", "000002-v2"]].concat();
    assert_eq!(folder.run(&words).status, 0);
    assert_eq!(folder.get("000002-v2"), scooter_2(2));
    // A name that says another version would have it read wrongly.
    let words = ["checkpoint", "--id", "21", "000001-v2", "000003"];
    let run = folder.run(&words);
    run.told(
        1,
        &["it is of version 2, and 000003 is a name of version 1"],
    );
    assert_eq!(folder.names(), ["000001-v2", "000002-v2"]);
}

#[test]
fn keeps_all() {
    let folder = Folder::with("000001", &depot(1).bytes);
    assert_eq!(
        folder
            .run(&["checkpoint", "--all", "000001", "copy"])
            .status,
        0
    );
    assert_eq!(folder.get("copy"), depot(1).bytes);
    let words = [
        "checkpoint",
        "--json",
        "--all",
        "--from",
        "2500",
        "000001",
        "late",
    ];
    let lines = folder.run(&words).json();
    let names = ["checkpoint", "series", "records", "bytes"];
    // The series, 117 bytes, and the last switch.
    assert_eq!(
        names.map(|key| lines[0].text(key)),
        ["late", "4", "2", "168"]
    );
}

#[test]
fn nothing_is_written_over() {
    let folder = Folder::with("000001", &depot(1).bytes);
    folder.put("000002", b"precious");
    for target in ["000002", "000001", "."] {
        let run = folder.run(&["checkpoint", "--all", "000001", target]);
        run.told(1, &["is there already; name a new file"]);
    }
    assert_eq!(folder.get("000002"), b"precious");
    assert_eq!(folder.get("000001"), depot(1).bytes);
    folder.put("000003.new", b"draft");
    let run = folder.run(&["checkpoint", "--all", "000001", "000003"]);
    run.told(1, &["000003.new is there from an earlier run; remove it"]);
    assert_eq!(folder.get("000003.new"), b"draft");
}

#[test]
fn a_source_that_does_not_end_clean_is_refused() {
    let folder = Folder::with("000001", &torn());
    let run = folder.run(&["checkpoint", "--all", "000001", "000002"]);
    run.refused(
        "",
        &[
            "at 212 was cut off",
            "depot-wal resume 000001",
            "no checkpoint was written",
        ],
    );
    assert_eq!(folder.names(), ["000001"]);
    let run = folder.run(&["checkpoint", "--all", "000009", "000002"]);
    run.refused("", &["000009: there is no such file"]);
    let run = folder.run(&["checkpoint", "--all", "000001", "nowhere/000002"]);
    assert_eq!(run.status, 1);
}

/// What is misspelt is told before anything is written.
#[test]
fn nothing_kept_is_refused() {
    let folder = Folder::with("000001", &depot(1).bytes);
    let words = [
        "checkpoint",
        "--label=scooter=2",
        "--label=scoter=1",
        "000001",
        "000002",
    ];
    let told = ["no series has the label scoter=1; check its spelling; no checkpoint was written"];
    folder.run(&words).refused("", &told);
    let words = ["checkpoint", "--id", "99", "000001", "000002"];
    folder
        .run(&words)
        .refused("", &["nothing of it is kept; check the ids"]);
    assert_eq!(folder.names(), ["000001"]);
}

/// The advice counts the records before the damage.
#[test]
fn damage_is_told() {
    let mut bytes = depot(1).bytes;
    bytes[200] ^= 1;
    let folder = Folder::with("000001", &bytes);
    let told = [
        "damaged at 168",
        "behind the 2 records before: truncate -s 168 COPY",
    ];
    folder
        .run(&["checkpoint", "--all", "000001", "000002"])
        .refused("", &told);
    folder.run(&["report", "000001"]).told(1, &told);
}

#[test]
fn a_folder_that_is_not_there() {
    let folder = Folder::with("000001", &depot(1).bytes);
    let run = folder.run(&["checkpoint", "--all", "000001", "nowhere/000002"]);
    run.refused(
        "",
        &["nowhere/000002: there is no such directory; make it first"],
    );
}

#[test]
fn from_standard_input() {
    let folder = Folder::new();
    let words = [
        "checkpoint",
        "--version",
        "2",
        "--label",
        "scooter=2",
        "--from",
        "1500",
        "-",
        "new",
    ];
    assert_eq!(folder.run_with(&words, &depot(2).bytes).status, 0);
    assert_eq!(folder.get("new"), scooter_2(2));
}

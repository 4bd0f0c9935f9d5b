//! replay, and replay --by: the accident that the log is there against.

use crate::common::log::{depot, samples, series, torn, Log};
use crate::common::Folder;

#[test]
fn replay_of_a_torn_log() {
    let folder = Folder::with("000001", &torn());
    folder.run(&["replay", "000001"]).refused(
        "000001: version 1, 240 bytes\n\
         11 {scooter=\"1\", profile=\"1\"}: 0 since 1970-01-01T00:00:02.000Z (2000), 2 rows\n\
         12 {scooter=\"1\", profile=\"2\"}: 1 since 1970-01-01T00:00:02.000Z (2000), 1 row\n\
         21 {scooter=\"2\", profile=\"1\"}: 1 since 1970-01-01T00:00:01.000Z (1000), 1 row\n\
         22 {scooter=\"2\", profile=\"2\"}: no rows\n\
         torn at 212: record truncated, as by a power failure\n\
         good: 3 records in the first 212 bytes\n",
        &["at 212 was cut off"],
    );
}

#[test]
fn one_profile_each() {
    let folder = Folder::with("000001", &depot(1).bytes);
    folder.run(&["replay", "--by", "scooter", "000001"]).fine(
        "000001: version 1, 256 bytes\n\
         scooter=\"1\": 12 {scooter=\"1\", profile=\"2\"}: 1 since 1970-01-01T00:00:02.000Z (2000), 1 row\n\
         scooter=\"2\": 22 {scooter=\"2\", profile=\"2\"}: 1 since 1970-01-01T00:00:03.000Z (3000), 1 row\n\
         clean end\n\
         good: 4 records in the first 256 bytes\n",
    );
}

/// Half a switch, as a box without this log would leave it: both profiles are on.
#[test]
fn two_profiles_are_loud() {
    let log = depot(1).record(&samples(&[(11, 4000, 1.0)]));
    let folder = Folder::with("000001", &log.bytes);
    folder.run(&["replay", "--by", "scooter", "000001"]).refused(
        "000001: version 1, 290 bytes\n\
         !!! scooter=\"1\": TWO ARE ON !!!\n\
         \x20   11 {scooter=\"1\", profile=\"1\"}: 1 since 1970-01-01T00:00:04.000Z (4000), 3 rows\n\
         \x20   12 {scooter=\"1\", profile=\"2\"}: 1 since 1970-01-01T00:00:02.000Z (2000), 1 row\n\
         scooter=\"2\": 22 {scooter=\"2\", profile=\"2\"}: 1 since 1970-01-01T00:00:03.000Z (3000), 1 row\n\
         clean end\n\
         good: 5 records in the first 290 bytes\n",
        &["ALARM: scooter=\"1\": TWO ARE ON; take it out of service"],
    );
}

/// The other half: none is.
#[test]
fn no_profile_is_loud() {
    let log = depot(1).record(&samples(&[(22, 4000, 0.0)]));
    let folder = Folder::with("000001", &log.bytes);
    folder.run(&["replay", "--by", "scooter", "000001"]).refused(
        "000001: version 1, 290 bytes\n\
         scooter=\"1\": 12 {scooter=\"1\", profile=\"2\"}: 1 since 1970-01-01T00:00:02.000Z (2000), 1 row\n\
         !!! scooter=\"2\": NONE IS ON !!!\n\
         \x20   21 {scooter=\"2\", profile=\"1\"}: 0 since 1970-01-01T00:00:03.000Z (3000), 2 rows\n\
         \x20   22 {scooter=\"2\", profile=\"2\"}: 0 since 1970-01-01T00:00:04.000Z (4000), 2 rows\n\
         clean end\n\
         good: 5 records in the first 290 bytes\n",
        &["ALARM: scooter=\"2\": NONE IS ON; take it out of service"],
    );
}

#[test]
fn a_deleted_profile_is_not_on_and_minus_0_is_0() {
    // The tombstone of 22 covers 3000; then 12 goes to -0.
    let tombstone = [&[3][..], &22_u64.to_be_bytes(), &[0, 0xF0, 0x2E]].concat();
    let log = depot(1)
        .record(&tombstone)
        .record(&samples(&[(12, 4000, -0.0)]));
    let folder = Folder::with("000001", &log.bytes);
    let run = folder.run(&["replay", "--by", "scooter", "000001"]);
    run.told(
        1,
        &["scooter=\"1\": NONE IS ON", "scooter=\"2\": NONE IS ON"],
    );
    assert!(run
        .out
        .contains("22 {scooter=\"2\", profile=\"2\"}: deleted, was 1 since"));
    assert!(run
        .out
        .contains("12 {scooter=\"1\", profile=\"2\"}: -0 since"));
}

#[test]
fn alarms_for_machines() {
    let log = depot(1).record(&samples(&[(11, 4000, 1.0), (22, 4000, 0.0)]));
    let folder = Folder::with("000001", &log.bytes);
    let run = folder.run(&["replay", "--json", "--by=scooter", "000001"]);
    let lines = run.json();
    let alarms: Vec<String> = lines[..2]
        .iter()
        .map(|line| format!("{} {:?}", line.text("group"), line.get("alarm")))
        .collect();
    assert_eq!(alarms, ["1 Bool(true)", "2 Bool(true)"]);
    let crate::common::json::Json::List(on) = lines[0].get("on") else {
        panic!("{}", run.out);
    };
    let ids: Vec<&str> = on.iter().map(|series| series.text("id")).collect();
    assert_eq!(ids, ["11", "12"]);
    assert_eq!(on[0].get("labels").text("profile"), "1");
    assert_eq!(on[0].text("bits"), "3ff0000000000000");
    run.told(1, &["TWO ARE ON", "NONE IS ON"]);
}

#[test]
fn a_label_that_is_not_there_is_told() {
    let folder = Folder::with("000001", &depot(1).bytes);
    let run = folder.run(&["replay", "--by", "scoter", "000001"]);
    run.told(
        1,
        &["no series has the label scoter; its labels are profile, scooter"],
    );
    // One series without it is counted, and nothing more.
    let log = depot(1).record(&series(&[(5, &[("voltage", "pack")])]));
    folder.put("000001", &log.bytes);
    let run = folder.run(&["replay", "--by", "scooter", "000001"]);
    assert!(
        run.out.contains("\n1 series without the label scooter\n"),
        "{}",
        run.out
    );
    assert_eq!(run.status, 0);
}

/// A segment without the names of its series does not pass for a quiet night.
#[test]
fn samples_of_nobody_are_told() {
    let log = Log::new(1)
        .record(&samples(&[(11, 2000, 0.0), (12, 2000, 1.0)]))
        .record(&samples(&[(21, 3000, 0.0)]));
    let folder = Folder::with("000002", &log.bytes);
    let told = ["3 samples are of series that this file does not name, so another one may be on"];
    folder
        .run(&["replay", "--by", "scooter", "000002"])
        .refused(
            "000002: version 1, 78 bytes\n\
         3 samples of series that are not named before: not counted\n\
         clean end\n\
         good: 2 records in the first 78 bytes\n",
            &told,
        );
    assert_eq!(folder.run(&["replay", "000002"]).status, 0);
}

#[test]
fn unknown_types_are_skipped_or_refused() {
    let log = depot(1).record(&[99]).record(&samples(&[(5, 1, 1.0)]));
    let folder = Folder::with("000001", &log.bytes);
    let run = folder.run(&["replay", "000001"]);
    assert!(
        run.out.contains(
            "1 sample of series that are not named before: not counted\n\
         1 record of an unknown type: skipped\n\
         clean end\ngood: 6 records in the first 298 bytes\n"
        ),
        "{}",
        run.out
    );
    assert_eq!(run.status, 0);
    let run = folder.run(&["replay", "--strict", "000001"]);
    assert!(
        run.out.ends_with(
            "refused at 256: unknown type of record body (number 20)\n\
         good: 4 records in the first 256 bytes\n"
        ),
        "{}",
        run.out
    );
    run.told(
        1,
        &["the record at 256 is whole, but what it says cannot be read"],
    );
}

/// Labels are found wherever the series was named: over pages, at the end, behind a first fragment
/// without data.
#[test]
fn labels_from_anywhere() {
    let long = "x".repeat(70_000 - 4_500);
    let log = Log::new(1)
        .record(&series(&[(1, &[("n", "a")])]))
        .record(&samples(&[(1, 1, 1.0)]))
        .record(&series(&[(2, &[("long", &long), ("n", "b")])]));
    // Up to 7 bytes before the end of its page, so that the next record begins with no data.
    let left = 32_768 - log.bytes.len() % 32_768;
    let filler = [vec![200], vec![7; left - 15]].concat();
    let log = log.record(&filler);
    assert_eq!(log.bytes.len() % 32_768, 32_761);
    let log = log
        .record(&series(&[(3, &[("n", "c")])]))
        .record(&series(&[(3, &[("n", "not this")]), (4, &[("n", "d")])]));
    let folder = Folder::with("000001", &log.bytes);
    let run = folder.run(&["replay", "--json", "000001"]);
    let lines = run.json();
    let names: Vec<&str> = lines[..4]
        .iter()
        .map(|l| l.get("labels").text("n"))
        .collect();
    assert_eq!(names, ["a", "b", "c", "d"]);
    assert_eq!(run.status, 0);
}

/// A file comes into memory 256 KiB at a time; a record of series begins with the last 7 bytes of
/// the first piece, and one in the middle of the second.
#[test]
fn labels_from_the_edge_of_a_piece() {
    let mut log = Log::new(1);
    while log.bytes.len() < 262_144 - 32_768 {
        log = log.record(&[200; 32_761]);
    }
    let log = log.record(&[200; 32_754]);
    assert_eq!(log.bytes.len(), 262_137);
    let log = log
        .record(&series(&[(1, &[("n", "edge")])]))
        .record(&[200; 9_999])
        .record(&series(&[(2, &[("n", "later")])]));
    let folder = Folder::with("000001", &log.bytes);
    let lines = folder.run(&["replay", "--json", "000001"]).json();
    let names: Vec<&str> = lines[..2]
        .iter()
        .map(|line| line.get("labels").text("n"))
        .collect();
    assert_eq!(names, ["edge", "later"]);
}

#[test]
fn what_is_not_a_number_and_what_is_below_0_are_not_0() {
    for (value, word) in [(f64::NAN, "NaN"), (-1.0, "-1")] {
        let log = depot(1).record(&samples(&[(12, 4000, value)]));
        let folder = Folder::with("000001", &log.bytes);
        let run = folder.run(&["replay", "--by", "scooter", "000001"]);
        let line = format!("scooter=\"1\": 12 {{scooter=\"1\", profile=\"2\"}}: {word} since ");
        assert!(run.out.contains(&line), "{}", run.out);
        assert_eq!(run.status, 0);
        // With another one it is an alarm.
        let log = log.record(&samples(&[(11, 4000, 1.0)]));
        folder.put("000001", &log.bytes);
        folder
            .run(&["replay", "--by", "scooter", "000001"])
            .told(1, &["scooter=\"1\": TWO ARE ON"]);
    }
}

/// As many series as a replay takes, and one more.
#[test]
fn too_many_series() {
    let mut log = Log::new(1);
    for id in 0..257 {
        log = log.record(&series(&[(id, &[("n", "a")])]));
    }
    // Each is 1 + 8 + 1 + 2 + 2 bytes, and 7.
    let folder = Folder::with("000001", &log.bytes);
    let run = folder.run(&["replay", "000001"]);
    assert_eq!(run.out.lines().count(), 1 + 256 + 2);
    assert!(run
        .out
        .contains("refused at 5376: more series than the table holds (number 28)\n"));
    run.told(1, &["more than 256 series from the record at 5376 on"]);
}

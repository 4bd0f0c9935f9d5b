//! list, dump and verify.

use crate::common::log::{depot, head, pairs, samples, series, torn, varint, Log};
use crate::common::Folder;

const RECORDS: &str = "\
record 0 at 0, 117 bytes: series, 4 entries
record 1 at 124, 37 bytes: samples, 2 entries
record 2 at 168, 37 bytes: samples, 2 entries
";

#[test]
fn list_of_a_whole_log() {
    let folder = Folder::with("000001", &depot(1).bytes);
    folder.run(&["list", "000001"]).fine(&format!(
        "000001: version 1, 256 bytes\n{RECORDS}\
         record 3 at 212, 37 bytes: samples, 2 entries\n\
         clean end\n\
         good: 4 records in the first 256 bytes\n"
    ));
}

#[test]
fn list_of_a_torn_log() {
    let folder = Folder::with("000001", &torn());
    folder.run(&["list", "000001"]).refused(
        &format!(
            "000001: version 1, 240 bytes\n{RECORDS}\
             torn at 212: record truncated, as by a power failure\n\
             good: 3 records in the first 212 bytes\n"
        ),
        &[
            "000001: the record at 212 was cut off",
            "depot-wal resume 000001",
        ],
    );
}

#[test]
fn list_of_version_2_by_its_name_and_by_the_option() {
    let folder = Folder::with("000001-v2", &depot(2).bytes);
    let lines = format!(
        " version 2, 256 bytes\n{RECORDS}\
         record 3 at 212, 37 bytes: samples, 2 entries\n\
         clean end\n\
         good: 4 records in the first 256 bytes\n"
    );
    folder
        .run(&["list", "000001-v2"])
        .fine(&format!("000001-v2:{lines}"));
    folder.put("copy", &depot(2).bytes);
    folder
        .run(&["list", "--version", "2", "copy"])
        .fine(&format!("copy:{lines}"));
    folder
        .run_with(&["list", "--version=2", "-"], &depot(2).bytes)
        .fine(&format!("-:{lines}"));
    // Without it the version is 1, and the advice says what is wrong.
    folder.run(&["list", "copy"]).refused(
        "copy: version 1, 256 bytes\n\
         refused at 0: corrupt: checksum mismatch (number 10)\n\
         good: 0 records in the first 0 bytes\n",
        &["those of version 2; say --version 2"],
    );
}

#[test]
fn dump_of_a_torn_log() {
    let folder = Folder::with("000001", &torn());
    folder.run(&["dump", "000001"]).refused(
        "000001: version 1, 240 bytes\n\
         record 0 at 0, 117 bytes: series, 4 entries\n\
         \x20 series 11 {scooter=\"1\", profile=\"1\"}\n\
         \x20 series 12 {scooter=\"1\", profile=\"2\"}\n\
         \x20 series 21 {scooter=\"2\", profile=\"1\"}\n\
         \x20 series 22 {scooter=\"2\", profile=\"2\"}\n\
         record 1 at 124, 37 bytes: samples, 2 entries\n\
         \x20 sample 11 {scooter=\"1\", profile=\"1\"} at 1970-01-01T00:00:01.000Z (1000): 1\n\
         \x20 sample 21 {scooter=\"2\", profile=\"1\"} at 1970-01-01T00:00:01.000Z (1000): 1\n\
         record 2 at 168, 37 bytes: samples, 2 entries\n\
         \x20 sample 11 {scooter=\"1\", profile=\"1\"} at 1970-01-01T00:00:02.000Z (2000): 0\n\
         \x20 sample 12 {scooter=\"1\", profile=\"2\"} at 1970-01-01T00:00:02.000Z (2000): 1\n\
         torn at 212: record truncated, as by a power failure\n\
         good: 3 records in the first 212 bytes\n",
        &["at 212 was cut off"],
    );
}

/// The id and the time of the rows below.
const FIRST: (u64, i64) = (7, 1_763_422_693_250);

/// A body of rows up to the head of its first row.
fn first_row(kind: u8) -> Vec<u8> {
    let (id, time) = (FIRST.0.to_be_bytes(), FIRST.1.to_be_bytes());
    let head = head(FIRST, FIRST.0, FIRST.1);
    [vec![kind], id.to_vec(), time.to_vec(), head].concat()
}

fn float(float: f64) -> Vec<u8> {
    float.to_bits().to_be_bytes().to_vec()
}

/// Histograms of both kinds: hint, schema, threshold, zero count, count, sum; then the spans of
/// both sides, and the buckets of both.
fn histograms() -> [Vec<u8>; 2] {
    let whole = [
        first_row(7),
        [
            vec![1],
            varint(-3),
            float(0.5),
            vec![4],
            vec![9],
            float(-1.5),
        ]
        .concat(),
        [vec![1], varint(-2), vec![3], vec![0]].concat(),
        [vec![2], varint(5), varint(-1), vec![0]].concat(),
    ];
    let counts = [float(0.25), float(1e300), float(f64::INFINITY)].concat();
    let floats = [
        first_row(8),
        [vec![0], varint(8), float(0.0), counts].concat(),
        vec![0, 1, 0, 1],
        [vec![0, 1], float(-0.0)].concat(),
    ];
    [whole.concat(), floats.concat()]
}

/// A record of each other kind, with numbers that are not plain.
fn kinds() -> Log {
    let tombstone = [
        vec![3],
        7_u64.to_be_bytes().to_vec(),
        varint(-1),
        varint(2000),
    ]
    .concat();
    let labels = pairs(&[(b"trace", b"\x1b[31m\"\\\xff")]);
    let exemplar = [first_row(4), float(f64::NAN), labels].concat();
    let metadata = [vec![6, 7, 2], pairs(&[(b"UNIT", b"volts")])].concat();
    let [whole, floats] = histograms();
    Log::new(1)
        .record(&tombstone)
        .record(&series(&[(7, &[("cell", "a")])]))
        .record(&exemplar)
        .record(&metadata)
        .record(&whole)
        .record(&floats)
        .record(&[200, 1, 2, 3])
}

#[test]
fn dump_of_every_kind() {
    let folder = Folder::with("000001", &kinds().bytes);
    let run = folder.run(&["dump", "000001"]);
    let entries: Vec<&str> = run
        .out
        .lines()
        .filter(|line| line.starts_with(' '))
        .collect();
    assert_eq!(
        entries,
        [
            "  tombstone 7 (not named before): deleted from 1969-12-31T23:59:59.999Z (-1) to \
             1970-01-01T00:00:02.000Z (2000)",
            "  series 7 {cell=\"a\"}",
            "  exemplar 7 {cell=\"a\"} at 2025-11-17T23:38:13.250Z (1763422693250): NaN \
             {trace=\"\\x1b[31m\\\"\\\\\\xff\"}",
            "  metadata 7 {cell=\"a\"}: metric type 2 {UNIT=\"volts\"}",
            "  histogram 7 {cell=\"a\"} at 2025-11-17T23:38:13.250Z (1763422693250): count 9, sum \
             -1.5, zero bucket 4 to 0.5, schema -3, hint 1, positive spans [-2:3] buckets [5 -1], \
             negative spans [] buckets []",
            "  float histogram 7 {cell=\"a\"} at 2025-11-17T23:38:13.250Z (1763422693250): count \
             1e300, sum +Inf, zero bucket 0.25 to 0, schema 8, hint 0, positive spans [] buckets \
             [], negative spans [0:1] buckets [-0]",
        ]
    );
    assert!(
        run.out.contains("4 bytes: unknown type 200\nclean end\n"),
        "{}",
        run.out
    );
    assert_eq!((run.status, run.err.as_str()), (0, ""));
}

#[test]
fn dump_for_machines() {
    let folder = Folder::with("000001", &kinds().bytes);
    let run = folder.run(&["dump", "--json", "000001"]);
    let lines = run.json();
    // Seven records, six entries, the end.
    assert_eq!(lines.len(), 14, "{}", run.out);
    assert!(lines.iter().all(|line| line.text("file") == "000001"));
    let exemplar = lines.iter().find(|line| line.has("exemplar")).unwrap();
    assert_eq!(
        exemplar.get("exemplar").text("trace"),
        "\x1b[31m\"\\\u{fffd}"
    );
    assert_eq!(exemplar.text("value"), "NaN");
    assert_eq!(exemplar.text("utc"), "2025-11-17T23:38:13.250Z");
    let histogram = &lines[lines.len() - 3];
    assert_eq!(histogram.text("entry"), "float_histogram");
    assert_eq!(
        (histogram.text("count"), histogram.text("sum")),
        ("1e300", "+Inf")
    );
    assert_eq!(lines[lines.len() - 2].text("kind"), "unknown");
    let end = lines.last().unwrap();
    assert_eq!((end.text("end"), end.text("records")), ("clean", "7"));
    assert_eq!(run.status, 0);
}

#[test]
fn list_for_machines() {
    let folder = Folder::with("000001", &torn());
    let run = folder.run(&["list", "--json", "000001"]);
    let lines = run.json();
    assert_eq!(lines.len(), 4);
    let names = ["record", "start", "length", "type", "kind", "entries"];
    assert_eq!(
        names.map(|key| lines[2].text(key)),
        ["2", "168", "37", "2", "samples", "2"]
    );
    let names = ["end", "number", "place", "records", "good", "bytes"];
    assert_eq!(
        names.map(|key| lines[3].text(key)),
        ["torn", "12", "212", "3", "212", "240"]
    );
    run.told(1, &["at 212 was cut off"]);
}

#[test]
fn verify_marks_where_a_log_is_torn() {
    let folder = Folder::with("000001", &torn());
    // The bytes from 176 on: the rest of the second switch, then the head of the third.
    folder.run(&["verify", "000001"]).refused(
        "000001: version 1, 240 bytes\n\
         8 entries\n\
         torn at 212: record truncated, as by a power failure\n\
         good: 3 records in the first 212 bytes\n\
         \x20       176  00 00 00 00 00 00 00 0b 00 00 00 00 00 00 07 d0  |................|\n\
         \x20       192  00 00 00 00 00 00 00 00 00 00 02 00 3f f0 00 00  |............?...|\n\
         \x20       208  00 00 00 00 01 00 25 SUM SUM SUM SUM 02 00 00 00 00  |......%TEXT.....|\n\
         \x20                        ^^ 212\n\
         \x20       224  00 00 00 15 00 00 00 00 00 00 0b b8 00 00 00 00  |................|\n"
            .replace("SUM SUM SUM SUM", &hex(&torn()[215..219]))
            .replace("TEXT", &shown(&torn()[215..219]))
            .as_str(),
        &["at 212 was cut off", "keeps the 3 records before it"],
    );
}

fn hex(bytes: &[u8]) -> String {
    let bytes: Vec<String> = bytes.iter().map(|byte| format!("{byte:02x}")).collect();
    bytes.join(" ")
}

fn shown(bytes: &[u8]) -> String {
    let shown = |byte: &u8| match byte {
        32..=126 => char::from(*byte),
        _ => '.',
    };
    bytes.iter().map(shown).collect()
}

#[test]
fn verify_of_a_whole_log_and_of_zeros_behind_it() {
    let folder = Folder::with("000001", &depot(1).bytes);
    folder.run(&["verify", "000001"]).fine(
        "000001: version 1, 256 bytes\n10 entries\nclean end\n\
         good: 4 records in the first 256 bytes\n",
    );
    let zeros = [depot(1).bytes, vec![0; 44]].concat();
    folder.put("000001", &zeros);
    folder.run(&["verify", "000001"]).fine(
        "000001: version 1, 300 bytes\n10 entries\nclean end\n\
         good: 4 records in the first 256 bytes, then 44 zeros\n",
    );
}

#[test]
fn verify_tells_flipped_bits() {
    let mut bytes = depot(1).bytes;
    bytes[200] ^= 1;
    let folder = Folder::with("000001", &bytes);
    let run = folder.run(&["verify", "000001"]);
    run.told(
        1,
        &[
            "damaged at 168",
            "truncate -s 168 COPY",
            "the 2 records before",
        ],
    );
    assert!(run
        .out
        .contains("refused at 168: corrupt: checksum mismatch (number 10)\n"));
    assert!(run.out.contains("good: 2 records in the first 168 bytes\n"));
    // The mark is below the byte 168, the ninth of its row.
    let mark = format!("\n{}^^ 168\n", " ".repeat(13 + 3 * 8));
    assert!(run.out.contains(&mark), "{}", run.out);
}

#[test]
fn verify_tells_a_body_that_cannot_be_read() {
    // A switch without its last byte: the second value, at 29 of the body, is short. The records
    // are whole, so is the one behind it.
    let switch = samples(&[(7, 1000, 0.0), (8, 1000, 1.0)]);
    let log = Log::new(1).record(&switch[..36]).record(&switch);
    let folder = Folder::with("000001", &log.bytes);
    let run = folder.run(&["verify", "000001"]);
    assert!(
        run.out.contains(
            "record 0 at 0: its body is refused at 36: body truncated inside a field (number 22)\n"
        ),
        "{}",
        run.out
    );
    assert!(run
        .out
        .contains("clean end\ngood: 2 records in the first 87 bytes\n"));
    run.told(1, &["record 0 is whole, but what it says cannot be read"]);
    let run = folder.run(&["list", "000001"]);
    assert!(run
        .out
        .contains("record 0 at 0, 36 bytes: samples, refused at 29 of the body"));
    run.told(
        1,
        &["1 record whole, but what is said there cannot be read; `depot-wal verify`"],
    );
    let fault = &folder.run(&["verify", "--json", "000001"]).json()[1];
    assert_eq!((fault.text("number"), fault.text("place")), ("22", "36"));
}

#[test]
fn verify_finds_a_body_place_behind_a_page() {
    // A record of series in two pages; the last string of it is one byte short. It begins at 0 with
    // 32,761 bytes, and goes on at 32,768 with the rest.
    let long = "x".repeat(40_000);
    let body = series(&[(7, &[("long", &long), ("last", "")])]);
    // 1 + 8 + 1, then 1 + 4, 3 + 40,000, 1 + 4 and 1: the last is at 40,023, and says 1 byte.
    assert_eq!(body.len(), 40_024);
    let body = [&body[..40_023], &[1]].concat();
    let folder = Folder::with("000001", &Log::new(1).record(&body).bytes);
    let fault = &folder.run(&["verify", "--json", "000001"]).json()[1];
    assert_eq!(
        fault.text("place"),
        (32_768 + 7 + 40_023 - 32_761).to_string()
    );
}

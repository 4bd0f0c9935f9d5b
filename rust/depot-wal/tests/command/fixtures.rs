//! dump of segments that Prometheus wrote, beside what Prometheus' own decoder read from them
//! (`tests/fixtures/*.rows` of the repository; PROVENANCE.md there says how a row is written).

use crate::common::json::Json;
use crate::common::Folder;
use std::fs;

const FIXTURES: &str = concat!(env!("CARGO_MANIFEST_DIR"), "/../../tests/fixtures");

fn hex(text: &str) -> String {
    match text {
        "" => "-".to_string(),
        _ => text.bytes().map(|byte| format!("{byte:02x}")).collect(),
    }
}

/// Pairs of strings as words, in the order of their names.
fn pairs(object: &Json) -> Vec<String> {
    let Json::Object(pairs) = object else {
        panic!("{object:?}");
    };
    let text = |value: &Json| match value {
        Json::Text(text) => hex(text),
        _ => panic!("{value:?}"),
    };
    let mut pairs: Vec<[String; 2]> = pairs.iter().map(|(k, v)| [hex(k), text(v)]).collect();
    pairs.sort();
    pairs.concat()
}

/// A float as the 16 digits of its bits; of a NaN, whose bits are not in a line, as `NaN`.
fn float(text: &str) -> String {
    let value: f64 = text.parse().unwrap();
    match value.is_nan() {
        true => "NaN".to_string(),
        false => format!("{:016x}", value.to_bits()),
    }
}

fn list(values: &Json, word: impl Fn(&Json) -> String) -> String {
    let Json::List(values) = values else {
        panic!("{values:?}");
    };
    match values.is_empty() {
        true => "-".to_string(),
        false => values.iter().map(word).collect::<Vec<_>>().join(","),
    }
}

fn number(value: &Json) -> String {
    match value {
        Json::Number(text) | Json::Text(text) => text.clone(),
        _ => panic!("{value:?}"),
    }
}

fn histogram(line: &Json, count: impl Fn(&str) -> String) -> Vec<String> {
    let span = |span: &Json| list(span, number).replace(',', ":");
    let spans = |side: &str| list(line.get(&format!("{side}_spans")), span);
    let buckets = |side: &str| list(line.get(&format!("{side}_buckets")), |b| count(&number(b)));
    [
        ["id", "time", "hint", "schema"].map(|key| line.text(key).to_string()),
        [
            float(line.text("zero_threshold")),
            count(line.text("zero_count")),
            count(line.text("count")),
            float(line.text("sum")),
        ],
        [
            spans("positive"),
            spans("negative"),
            buckets("positive"),
            buckets("negative"),
        ],
    ]
    .concat()
}

/// A line of the dump as a row.
fn row(line: &Json) -> String {
    let words = |keys: &[&str]| keys.iter().map(|key| line.text(key).to_string()).collect();
    if line.has("record") {
        return format!("record {} {}", line.text("length"), line.text("type"));
    }
    let (kind, mut words): (&str, Vec<String>) = match line.text("entry") {
        "series" => ("series", words(&["id"])),
        "sample" => ("sample", words(&["id", "time", "bits"])),
        "tombstone" => ("tombstone", words(&["id", "min", "max"])),
        "exemplar" => ("exemplar", words(&["id", "time", "bits"])),
        "metadata" => ("metadata", words(&["id", "metric_type"])),
        "histogram" => ("histogram", histogram(line, str::to_string)),
        "float_histogram" => ("float_histogram", histogram(line, float)),
        other => panic!("{other}"),
    };
    match kind {
        "series" => words.extend(pairs(line.get("labels"))),
        "exemplar" => words.extend(pairs(line.get("exemplar"))),
        "metadata" => words.extend(["UNIT", "HELP"].map(|key| hex(line.get("fields").text(key)))),
        _ => {}
    }
    format!("{kind} {}", words.join(" "))
}

/// A row of Prometheus, without the place after a record, and with its NaNs in one word.
fn theirs(row: &str) -> String {
    let words: Vec<&str> = row.split(' ').collect();
    let is_nan = |word: &str| {
        let bits = u64::from_str_radix(word, 16);
        word.len() == 16 && bits.is_ok_and(|bits| f64::from_bits(bits).is_nan())
    };
    match words[..] {
        ["record", _, length, kind] => format!("record {length} {kind}"),
        ["histogram" | "float_histogram", ..] => {
            let words = words.iter().map(|w| if is_nan(w) { "NaN" } else { w });
            words.collect::<Vec<_>>().join(" ")
        }
        _ => row.to_string(),
    }
}

#[test]
fn dumps_are_what_prometheus_reads() {
    let folder = Folder::new();
    for name in ["small_kill9", "cut_enospc_kill9", "real_encoder_extremes"] {
        let file = format!("{FIXTURES}/{name}_00000000");
        let rows = fs::read_to_string(format!("{file}.rows")).unwrap();
        let rows: Vec<String> = rows.lines().map(theirs).collect();
        let lines = folder.run(&["dump", "--json", &file]).json();
        let ours: Vec<String> = lines[..lines.len() - 1].iter().map(row).collect();
        assert!(ours.len() > 200, "{name}");
        for (number, (ours, theirs)) in ours.iter().zip(&rows).enumerate() {
            assert_eq!(ours, theirs, "{name}, row {number}");
        }
        // Prometheus reads an empty record, which is refused here (FORMAT 6.7), and goes on.
        let next = rows.get(ours.len()).map(String::as_str);
        assert!(
            matches!(next, None | Some("record 0 -")),
            "{name}: {next:?}"
        );
    }
}

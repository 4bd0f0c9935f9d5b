//! `reference rows FILE`: the records that come out of a segment, and the entries of each, as the
//! `.rows` files of tests/fixtures have them (PROVENANCE.md there gives the format). Those files
//! are what Prometheus' own decoder gave, so they are numbers from outside both programs.

use crate::body::{
    self, Entry, EXEMPLARS, FLOAT_HISTOGRAMS, HISTOGRAMS, METADATA, SAMPLES, SERIES, TOMBSTONES,
};
use crate::histogram::{self, List};
use crate::refusal::{Refusal, UNKNOWN_TYPE};
use crate::segment::{self, Good, Reading};
use crate::vectors::hex;
use crate::version::Version;

/// The lines of a segment up to its end or its refusal. It is an error if a body is refused other
/// than for its type.
pub fn text(segment: &[u8]) -> Result<String, String> {
    let mut buffer = vec![0; segment::RECORD_MAX];
    let mut lines = String::new();
    let good = &mut Good::default();
    while let Ok(Reading::Record(record)) =
        segment::read(Version::One, segment, good.offset, &mut buffer, good)
    {
        let body = &buffer[..record.length];
        lines += &record_line(record.after, body);
        lines += &entry_lines(body).map_err(|Refusal { number, place }| {
            let start = record.start;
            format!("the body of the record at {start} is refused: {number} at {place}")
        })?;
    }
    Ok(lines)
}

/// `record`, the place after it, its length, its first byte in decimal. No record that comes out is
/// empty (document 02 [5]).
fn record_line(after: usize, body: &[u8]) -> String {
    format!("record {after} {} {}\n", body.len(), body[0])
}

/// A line for each entry; none for a body of a type that is not known.
fn entry_lines(body: &[u8]) -> Result<String, Refusal> {
    let mut lines = String::new();
    let mut place = 1;
    loop {
        match body::entry_at(body, place) {
            Ok(None) => return Ok(lines),
            Ok(Some(entry)) => {
                lines += &match entry.kind {
                    HISTOGRAMS | FLOAT_HISTOGRAMS => histogram_line(body, place)?,
                    _ => entry_line(body, &entry)?,
                };
                place = entry.after;
            }
            Err(refusal) if refusal.number == UNKNOWN_TYPE => return Ok(lines),
            Err(refusal) => return Err(refusal),
        }
    }
}

fn entry_line(body: &[u8], entry: &Entry) -> Result<String, Refusal> {
    let (id, time, bits) = (entry.id.0, entry.time.0, entry.bits);
    let mut pairs = pairs(body, entry)?;
    let mut line = match entry.kind {
        SERIES => format!("series {id}"),
        SAMPLES => format!("sample {id} {time} {bits:016x}"),
        TOMBSTONES => format!("tombstone {id} {time} {}", entry.max.0),
        EXEMPLARS => format!("exemplar {id} {time} {bits:016x}"),
        METADATA => return Ok(metadata_line(entry, &pairs)),
        kind => unreachable!("no entry is read from a body of type {kind}"),
    };
    // Prometheus sorts labels by name when it decodes them; a name that comes twice stays in order.
    pairs.sort_by_key(|&(name, _)| name);
    for (name, text) in pairs {
        line += &format!(" {} {}", hex(name), hex(text));
    }
    Ok(line + "\n")
}

/// Counts and buckets of a float histogram are the bits of floats.
fn histogram_line(body: &[u8], place: usize) -> Result<String, Refusal> {
    let read = histogram::histogram_at(body, place)?.expect("an entry");
    let float = read.kind == FLOAT_HISTOGRAMS;
    let name = if float {
        "float_histogram"
    } else {
        "histogram"
    };
    let count = |count: u64| match float {
        true => format!("{count:016x}"),
        false => count.to_string(),
    };
    Ok(format!(
        "{name} {} {} {} {} {:016x} {} {} {:016x} {} {} {} {}\n",
        read.id.0,
        read.time.0,
        read.hint,
        read.schema,
        read.zero_threshold,
        count(read.zero_count),
        count(read.count),
        read.sum,
        elements(body, read.positive_spans, span)?,
        elements(body, read.negative_spans, span)?,
        elements(body, read.positive_buckets, bucket)?,
        elements(body, read.negative_buckets, bucket)?,
    ))
}

/// The word of the element at a place of a body, and the place after it.
type Word = fn(&[u8], usize) -> Result<(String, usize), Refusal>;

/// The elements of a list, joined by commas; `-` if it has none.
fn elements(body: &[u8], list: List, one: Word) -> Result<String, Refusal> {
    let mut words = Vec::new();
    let mut place = list.first;
    for _ in 0..list.count {
        let (word, after) = one(body, place)?;
        words.push(word);
        place = after;
    }
    Ok(match words.len() {
        0 => "-".to_string(),
        _ => words.join(","),
    })
}

fn span(body: &[u8], place: usize) -> Result<(String, usize), Refusal> {
    let (offset, length, after) = histogram::span_at(body, place)?;
    Ok((format!("{offset}:{length}"), after))
}

fn bucket(body: &[u8], place: usize) -> Result<(String, usize), Refusal> {
    let (bucket, after) = histogram::bucket_at(body, place)?;
    let word = match body[0] {
        HISTOGRAMS => (bucket as i64).to_string(),
        _ => format!("{bucket:016x}"),
    };
    Ok((word, after))
}

/// Of the fields, Prometheus knows UNIT and HELP by name and passes over all others. One that is
/// not there is empty; of one that comes twice the last counts.
fn metadata_line(entry: &Entry, fields: &[Pair]) -> String {
    let text = |wanted: &[u8]| {
        let last = fields.iter().rfind(|(name, _)| *name == wanted);
        hex(last.map_or(&[], |(_, text)| text))
    };
    let (unit, help) = (text(b"UNIT"), text(b"HELP"));
    format!(
        "metadata {} {} {unit} {help}\n",
        entry.id.0, entry.metric_type
    )
}

/// A name and its text.
type Pair<'a> = (&'a [u8], &'a [u8]);

/// The strings of an entry, two by two.
fn pairs<'a>(body: &'a [u8], entry: &Entry) -> Result<Vec<Pair<'a>>, Refusal> {
    let mut place = entry.strings;
    let mut string = || {
        let (start, length) = body::string_at(body, place)?;
        place = start + length;
        Ok(&body[start..place])
    };
    (0..entry.string_count / 2)
        .map(|_| Ok((string()?, string()?)))
        .collect()
}

#[cfg(test)]
mod tests {
    use super::*;
    use std::fs;
    use std::path::PathBuf;

    const FIXTURES: &str = concat!(env!("CARGO_MANIFEST_DIR"), "/../tests/fixtures");

    /// The segments that have a `.rows` beside them.
    fn fixtures() -> Vec<PathBuf> {
        let folder = fs::read_dir(FIXTURES).expect("the folder of fixtures");
        let paths = folder.map(|entry| entry.expect("an entry of the folder").path());
        let with_rows = paths.filter(|path| path.extension().is_some_and(|word| word == "rows"));
        with_rows.map(|path| path.with_extension("")).collect()
    }

    /// An empty record, as Prometheus reads one: we refuse it, and nothing comes out behind it
    /// (document 02 [5]).
    fn is_empty_record(line: &str) -> bool {
        line.starts_with("record ") && line.ends_with(" 0 -")
    }

    fn is_histogram(line: &str) -> bool {
        line.starts_with("histogram ") || line.starts_with("float_histogram ")
    }

    #[test]
    fn what_prometheus_wrote() {
        let mut histograms = 0;
        for path in fixtures() {
            let name = path.display();
            let segment = fs::read(&path).expect("the segment");
            let rows = fs::read_to_string(path.with_extension("rows")).expect("its rows");
            let own = text(&segment).expect("good bodies");
            let wanted = rows.lines().take_while(|line| !is_empty_record(line));
            assert_eq!(own.lines().count(), wanted.clone().count(), "{name}");
            for (number, (own, wanted)) in own.lines().zip(wanted).enumerate() {
                assert_eq!(own, wanted, "{name}, line {number}");
                histograms += usize::from(is_histogram(wanted));
            }
        }
        assert_eq!(histograms, 186);
    }

    fn segment_of(body: &[u8]) -> Vec<u8> {
        let mut page = vec![0; segment::PAGE];
        let next = segment::write(Version::One, &mut page, 0, body).expect("it fits");
        page.truncate(next);
        page
    }

    #[test]
    fn labels_are_sorted_and_fields_named() {
        let series = b"\x01\0\0\0\0\0\0\0\x09\x02\x01b\x011\x01a\0";
        let lines = "record 24 17 1\nseries 9 61 - 62 31\n";
        assert_eq!(text(&segment_of(series)), Ok(lines.to_string()));
        let metadata = b"\x06\x09\x02\x03\x04HELP\x01h\x01x\x01y\x04HELP\x01i";
        let lines = "record 29 22 6\nmetadata 9 2 - 69\n";
        assert_eq!(text(&segment_of(metadata)), Ok(lines.to_string()));
    }

    #[test]
    fn records_without_entries() {
        for (body, line) in [
            (&[2][..], "record 8 1 2\n"),
            (&[5, 1, 2, 3], "record 11 4 5\n"),
            (&[200], "record 8 1 200\n"),
        ] {
            assert_eq!(text(&segment_of(body)), Ok(line.to_string()));
        }
    }

    #[test]
    fn nothing_comes_out_behind_an_empty_record() {
        let segment = [
            segment_of(&[2]),
            vec![1, 0, 0, 0, 0, 0, 0],
            segment_of(&[3]),
        ]
        .concat();
        assert_eq!(text(&segment), Ok("record 8 1 2\n".to_string()));
    }

    #[test]
    fn a_refused_body_is_an_error() {
        let why = "the body of the record at 0 is refused: 22 at 1";
        assert_eq!(text(&segment_of(&[1, 0])), Err(why.to_string()));
    }
}

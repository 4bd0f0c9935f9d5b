//! Real segments, entry by entry: what the archive reads beside what Prometheus' own decoder read
//! (`.rows`, whose format is in tests/fixtures/PROVENANCE.md).

use crate::ffi;
use crate::Outcome;
use reference::body::FLOAT_HISTOGRAMS;
use reference::segment::RECORD_MAX;
use std::fmt::Write;

/// Compares all lines of a segment, up to an empty record: Prometheus reads it, the library refuses
/// it.
pub fn compare_file(segment: &[u8], rows: &str) -> Outcome {
    let rows = rows.lines().take_while(|line| !is_empty_record(line));
    let ours = library_rows(segment)?;
    let mut ours = ours.lines();
    let mut lines = 0;
    for (number, theirs) in rows.enumerate() {
        lines += 1;
        let line = ours.next().unwrap_or("nothing");
        if line != theirs {
            return Err(format!("line {}: {line}, and not {theirs}", number + 1));
        }
    }
    if let Some(line) = ours.next() {
        return Err(format!("{line}, and not the end"));
    }
    Ok(lines)
}

fn is_empty_record(line: &str) -> bool {
    line.starts_with("record ") && line.ends_with(" 0 -")
}

/// The records that come out of a segment, each with its entries.
fn library_rows(segment: &[u8]) -> Result<String, String> {
    let mut lines = String::new();
    let mut buffer = vec![0; RECORD_MAX];
    let mut place = 0;
    let mut good = [0, 0];
    loop {
        let answer = ffi::read(1, segment, place, &mut buffer, good);
        if answer.number != 0 {
            return Ok(lines);
        }
        let [_, length, next, records, offset] = answer.out;
        good = [records, offset];
        let body = &buffer[..length as usize];
        let tag = body.first().ok_or("an empty record came out")?;
        put(&mut lines, format_args!("record {next} {length} {tag}\n"));
        put_entries(&mut lines, body).map_err(|why| format!("record before {next}: {why}"))?;
        place = next as usize;
    }
}

fn put(lines: &mut String, words: std::fmt::Arguments) {
    lines.write_fmt(words).expect("a string takes every word");
}

/// The entries of a body; none for a type that is not known.
fn put_entries(lines: &mut String, body: &[u8]) -> Result<(), String> {
    if !matches!(body.first(), Some(1..=4 | 6..=8)) {
        return Ok(());
    }
    let mut place = 1;
    loop {
        let answer = ffi::entry_at(body, place);
        if answer.number == ffi::END {
            return Ok(());
        }
        if answer.number != 0 {
            return Err(format!("entry at {place} is refused: {}", answer.number));
        }
        match body[0] {
            7 | 8 => put_histogram(lines, body, place)?,
            _ => put_entry(lines, body, &answer.out)?,
        }
        place = answer.out[7] as usize;
    }
}

fn put_entry(lines: &mut String, body: &[u8], entry: &[u64; 8]) -> Result<(), String> {
    let [tag, id, time, max, bits, count, first, _] = *entry;
    let (time, max) = (time as i64, max as i64);
    let pairs = pairs_at(body, first as usize, count)?;
    match tag {
        1 => put(lines, format_args!("series {id}{}\n", labels(pairs))),
        2 => put(lines, format_args!("sample {id} {time} {bits:016x}\n")),
        3 => put(lines, format_args!("tombstone {id} {time} {max}\n")),
        4 => {
            let labels = labels(pairs);
            put(
                lines,
                format_args!("exemplar {id} {time} {bits:016x}{labels}\n"),
            );
        }
        _ => {
            let (unit, help) = (field(&pairs, b"UNIT"), field(&pairs, b"HELP"));
            put(lines, format_args!("metadata {id} {bits} {unit} {help}\n"));
        }
    }
    Ok(())
}

/// Counts and buckets of a float histogram are the bits of floats.
fn put_histogram(lines: &mut String, body: &[u8], place: usize) -> Result<(), String> {
    let answer = ffi::histogram_at(body, place);
    if answer.number != 0 {
        return Err(format!("histogram at {place}: {}", answer.number));
    }
    let [tag, id, time, hint, schema, threshold, zeros, count, sum, ..] = answer.out;
    let (name, zeros, count) = if tag == u64::from(FLOAT_HISTOGRAMS) {
        let (zeros, count) = (format!("{zeros:016x}"), format!("{count:016x}"));
        ("float_histogram", zeros, count)
    } else {
        ("histogram", zeros.to_string(), count.to_string())
    };
    let (time, schema) = (time as i64, schema as i64);
    put(
        lines,
        format_args!(
            "{name} {id} {time} {hint} {schema} {threshold:016x} {zeros} {count} {sum:016x}"
        ),
    );
    for (index, list) in answer.out[9..17].chunks_exact(2).enumerate() {
        let word = if index < 2 { span } else { bucket };
        let elements = elements(body, list[0], list[1] as usize, word)?;
        put(lines, format_args!(" {elements}"));
    }
    put(lines, format_args!("\n"));
    Ok(())
}

/// The word of the element at a place of a body, and the place after it.
type Word = fn(&[u8], usize) -> Result<(String, u64), String>;

/// The elements of a list, joined by commas; `-` if it has none.
fn elements(body: &[u8], count: u64, mut place: usize, one: Word) -> Result<String, String> {
    let mut words = Vec::new();
    for _ in 0..count {
        let (word, after) = one(body, place)?;
        words.push(word);
        place = after as usize;
    }
    Ok(match words.len() {
        0 => "-".to_string(),
        _ => words.join(","),
    })
}

fn span(body: &[u8], place: usize) -> Result<(String, u64), String> {
    let answer = ffi::span_at(body, place);
    let [offset, length, after] = answer.out;
    match answer.number {
        0 => Ok((format!("{}:{length}", offset as i64), after)),
        number => Err(format!("span at {place}: {number}")),
    }
}

fn bucket(body: &[u8], place: usize) -> Result<(String, u64), String> {
    let answer = ffi::bucket_at(body, place);
    let [bucket, after] = answer.out;
    match answer.number {
        0 if body[0] == FLOAT_HISTOGRAMS => Ok((format!("{bucket:016x}"), after)),
        0 => Ok(((bucket as i64).to_string(), after)),
        number => Err(format!("bucket at {place}: {number}")),
    }
}

/// A name and its text.
type Pair<'a> = (&'a [u8], &'a [u8]);

/// The strings of an entry, two by two.
fn pairs_at(body: &[u8], first: usize, count: u64) -> Result<Vec<Pair<'_>>, String> {
    let mut strings = Vec::new();
    let mut place = first;
    for _ in 0..count {
        let answer = ffi::string_at(body, place);
        if answer.number != 0 {
            return Err(format!("string at {place} is refused: {}", answer.number));
        }
        let [start, length] = answer.out.map(|number| number as usize);
        strings.push(&body[start..start + length]);
        place = start + length;
    }
    Ok(strings
        .chunks_exact(2)
        .map(|pair| (pair[0], pair[1]))
        .collect())
}

/// Prometheus sorts labels by name when it decodes them.
fn labels(mut pairs: Vec<Pair>) -> String {
    pairs.sort();
    let words = pairs
        .iter()
        .map(|(name, text)| format!(" {} {}", hex(name), hex(text)));
    words.collect()
}

/// The text of the last field of that name, as Prometheus takes it.
fn field(pairs: &[Pair], name: &[u8]) -> String {
    let text = pairs.iter().rev().find(|pair| pair.0 == name);
    text.map_or("-".into(), |pair| hex(pair.1))
}

fn hex(bytes: &[u8]) -> String {
    if bytes.is_empty() {
        return "-".into();
    }
    bytes.iter().map(|byte| format!("{byte:02x}")).collect()
}

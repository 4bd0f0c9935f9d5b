//! `depot-wal list`: every record, where it is and what kind it is of.

use crate::args::{Args, Failure};
use crate::end::End;
use crate::json::Object;
use crate::open::{self, Segment, Source};
use crate::out::{Out, Progress};
use crate::words;
use depot_wal::body::{self, Kind};
use depot_wal::segment::{Record, Records, RECORD_MAX};
use depot_wal::{Error, Refusal};
use std::io::{self, Write};

pub fn run(args: &Args, out: &mut Out) -> Result<bool, Failure> {
    open::each("list", args, out, |source, segment, out| {
        walk(source, segment, out, |_, _| Ok(()))
    })
}

/// Lists the records of a segment, does a piece of work after each, and tells how it ended. True if
/// nothing was refused.
pub fn walk(
    source: &Source,
    segment: &Segment,
    out: &mut Out,
    mut work: impl FnMut(&[u8], &mut Out) -> io::Result<()>,
) -> Result<bool, Failure> {
    let mut buffer = Box::new([0; RECORD_MAX]);
    let mut records = Records::new(source.version, &segment.bytes, &mut buffer);
    let mut progress = Progress::new(segment.bytes.len());
    let (mut number, mut faults, mut result) = (0, 0, Ok(()));
    while let Some(read) = records.next() {
        match read {
            Ok(record) => {
                faults += u64::from(!line(source, number, record, out)?);
                work(record.bytes, out)?;
                progress.at(record.next);
                number += 1;
            }
            Err(error) => result = Err(error),
        }
    }
    drop(progress);
    let end = End::new(result, records.good());
    let clean = end.tell(source, segment, out)?;
    if faults > 0 {
        let records = words::records(faults);
        out.complain(&format!(
            "{}: {records} whole, but what is said there cannot be read; `depot-wal verify` shows \
             the first place",
            source.name
        ))?;
    }
    Ok(clean && faults == 0)
}

/// The line of a record. False if its body is refused, other than as of an unknown type.
fn line(source: &Source, number: u64, record: Record, out: &mut Out) -> io::Result<bool> {
    let (start, bytes) = (record.start, record.bytes);
    let checked = body::check(bytes);
    if out.json {
        let line = Object::of(&source.name)
            .number("record", number)
            .count("start", start)
            .count("length", bytes.len())
            .number("type", bytes.first().copied().unwrap_or_default());
        let line = match checked {
            Ok(entries) => line
                .text("kind", kind_word(bytes))
                .number("entries", entries),
            Err(error) => line
                .text("kind", kind_word(bytes))
                .number("number", error.number())
                .count("body_place", error.place)
                .text("reason", error.refusal.text()),
        };
        writeln!(out, "{line}")?;
    } else {
        let says = says(bytes, checked);
        writeln!(
            out,
            "record {number} at {start}, {} bytes: {says}",
            bytes.len()
        )?;
    }
    Ok(!is_fault(checked))
}

/// True if a body is refused; one of an unknown type is not, a replay skips it.
pub fn is_fault(checked: Result<u64, Error>) -> bool {
    matches!(checked, Err(error) if error.refusal != Refusal::UnknownType)
}

/// What a body is, in words.
fn says(body: &[u8], checked: Result<u64, Error>) -> String {
    let kind = kind_word(body);
    match checked {
        Ok(entries) => format!("{kind}, {}", words::entries(entries)),
        Err(error) if error.refusal == Refusal::UnknownType => {
            format!("unknown type {}", body.first().copied().unwrap_or_default())
        }
        Err(error) => {
            let (text, place) = (error.refusal.text(), error.place);
            format!(
                "{kind}, refused at {place} of the body: {text} (number {})",
                error.number()
            )
        }
    }
}

/// The kind of a body as a word.
fn kind_word(body: &[u8]) -> &'static str {
    match body::kind(body) {
        Ok(Kind::Series) => "series",
        Ok(Kind::Samples) => "samples",
        Ok(Kind::Tombstones) => "tombstones",
        Ok(Kind::Exemplars) => "exemplars",
        Ok(Kind::Metadata) => "metadata",
        Ok(Kind::Histograms) => "histograms",
        Ok(Kind::FloatHistograms) => "float histograms",
        _ => "unknown",
    }
}

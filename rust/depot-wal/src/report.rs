//! `depot-wal report`: the voltage report over a night's segments. Its lines are those of the
//! program `report`, the numbers those of FORMAT 12.

use crate::args::{Args, Failure};
use crate::end::{advice, good_before, too_long_error};
use crate::json::Object;
use crate::open::{self, named_version, Segment, Source};
use crate::out::Out;
use depot_wal::report::{Report, Series};
use depot_wal::segment::{Buffer, RECORD_MAX};
use depot_wal::{Error, Version};
use std::io::{self, Write};
use std::path::Path;

pub fn run(args: &Args, out: &mut Out) -> Result<bool, Failure> {
    let (mut report, mut buffer) = (Report::new(), Box::new([0; RECORD_MAX]));
    let given = args.version().unwrap_or_default();
    let mut fine = true;
    let mut sentences = Vec::new();
    for (position, source) in open::sources("report", args, &args.files)?
        .iter()
        .enumerate()
    {
        // Only the first segment that finds the report ended is told.
        if report.ended().is_some() {
            break;
        }
        if let Err((error, sentence)) = add(&mut report, source, given, &mut buffer) {
            fine = false;
            tell_segment(source, position + 1, error, out)?;
            sentences.push(format!("{}: {sentence}", source.name));
        }
    }
    for series in report.series() {
        tell_series(&series, out)?;
    }
    for sentence in sentences {
        out.complain(&sentence)?;
    }
    Ok(fine)
}

/// Adds a segment. One that has no version, cannot be opened or is too long is counted, and nothing
/// of it is added; the 1,025th is not opened.
fn add(
    report: &mut Report,
    source: &Source,
    given: Option<Version>,
    buffer: &mut Buffer,
) -> Result<(), (Error, String)> {
    if report.segments() == Report::SEGMENTS_MAX as u64 {
        let why = "a report takes 1024 segments; make another of the rest";
        return Err((report.add_misnamed(), why.to_string()));
    }
    let named = source
        .path
        .as_deref()
        .and_then(|path: &Path| named_version(path));
    let Some(version) = given.or(named) else {
        let why = "this is not the name of a segment, as 000001 or 000001-v2; say --version";
        return Err((report.add_misnamed(), why.to_string()));
    };
    let segment = match source.read() {
        Ok(segment) => segment,
        Err(trouble) => return Err((report.add_misnamed(), trouble.to_string())),
    };
    add_segment(report, source, version, &segment, buffer)
}

fn add_segment(
    report: &mut Report,
    source: &Source,
    version: Version,
    segment: &Segment,
    buffer: &mut Buffer,
) -> Result<(), (Error, String)> {
    let added = match segment.too_long {
        true => {
            // It counts as a segment all the same.
            report.add_misnamed();
            Err(too_long_error())
        }
        false => report.add_segment(version, &segment.bytes, buffer),
    };
    added.map_err(|error| {
        let good = good_before(source, segment, error.place);
        (error, advice(source, segment, error, good))
    })
}

/// `segment`, its position from 1, number, place.
fn tell_segment(source: &Source, position: usize, error: Error, out: &mut Out) -> io::Result<()> {
    let (number, place) = (error.number(), error.place);
    if out.json {
        let line = Object::of(&source.name)
            .count("segment", position)
            .number("number", number)
            .count("place", place);
        return writeln!(out, "{line}");
    }
    writeln!(out, "segment {position} {number} {place}")
}

/// `series`, id, rows, NaN rows, smallest and largest as 16 hexadecimal digits, or `none`.
fn tell_series(series: &Series, out: &mut Out) -> io::Result<()> {
    let Series { id, rows, nans, .. } = *series;
    if out.json {
        let line = Object::new()
            .number("series", id.0)
            .number("rows", rows)
            .number("nans", nans);
        let line = match series.extremes {
            Some((smallest, largest)) => line
                .float("smallest", smallest)
                .float("largest", largest)
                .text("smallest_bits", &format!("{:016x}", smallest.0))
                .text("largest_bits", &format!("{:016x}", largest.0)),
            None => line.raw("smallest", "null").raw("largest", "null"),
        };
        return writeln!(out, "{line}");
    }
    match series.extremes {
        Some((smallest, largest)) => {
            let (smallest, largest) = (smallest.0, largest.0);
            writeln!(
                out,
                "series {} {rows} {nans} {smallest:016x} {largest:016x}",
                id.0
            )
        }
        None => writeln!(out, "series {} {rows} {nans} none", id.0),
    }
}

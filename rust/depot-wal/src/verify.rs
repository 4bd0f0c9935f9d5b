//! `depot-wal verify`: how much of a segment is good, and the first damage.

use crate::args::{Args, Failure};
use crate::end::End;
use crate::hex;
use crate::json::Object;
use crate::open::{self, Segment, Source};
use crate::out::Out;
use crate::words;
use depot_wal::body;
use depot_wal::segment::{Records, HEADER, PAGE, RECORD_MAX};
use depot_wal::{Error, Refusal};
use std::io::{self, Write};

/// What a reading of all records and bodies found.
struct Found {
    end: End,
    entries: u64,
    unknown: u64,
    /// The first record whose body is refused: its number and start, and the body's error.
    fault: Option<(u64, usize, Error)>,
}

pub fn run(args: &Args, out: &mut Out) -> Result<bool, Failure> {
    open::each("verify", args, out, |source, segment, out| {
        let found = read(source, segment);
        tell_counts(source, &found, out)?;
        if let Some((number, start, error)) = found.fault {
            tell_fault(source, segment, number, start, error, out)?;
        }
        found.end.print(source, segment, out)?;
        if let (Some(error), false) = (found.end.error, out.json) {
            write!(out, "{}", hex::dump(&segment.bytes, error.place))?;
        }
        let clean = found.end.advise(source, segment, out)?;
        Ok(clean && found.fault.is_none())
    })
}

fn tell_counts(source: &Source, found: &Found, out: &mut Out) -> io::Result<()> {
    let (entries, unknown) = (found.entries, found.unknown);
    if out.json {
        let line = Object::of(&source.name)
            .number("entries", entries)
            .number("unknown", unknown);
        return writeln!(out, "{line}");
    }
    match unknown {
        0 => writeln!(out, "{}", words::entries(entries)),
        _ => {
            let (entries, records) = (words::entries(entries), words::records(unknown));
            writeln!(out, "{entries}, {records} of an unknown type")
        }
    }
}

fn read(source: &Source, segment: &Segment) -> Found {
    let mut buffer = Box::new([0; RECORD_MAX]);
    let mut records = Records::new(source.version, &segment.bytes, &mut buffer);
    let (mut number, mut entries, mut unknown) = (0, 0, 0);
    let (mut fault, mut result) = (None, Ok(()));
    while let Some(read) = records.next() {
        let record = match read {
            Ok(record) => record,
            Err(error) => {
                result = Err(error);
                break;
            }
        };
        match body::check(record.bytes) {
            Ok(count) => entries += count,
            Err(error) if error.refusal == Refusal::UnknownType => unknown += 1,
            Err(error) => fault = fault.or(Some((number, record.start, error))),
        }
        number += 1;
    }
    let end = End::new(result, records.good());
    Found {
        end,
        entries,
        unknown,
        fault,
    }
}

/// A record that is whole, but whose body is refused.
fn tell_fault(
    source: &Source,
    segment: &Segment,
    number: u64,
    start: usize,
    error: Error,
    out: &mut Out,
) -> io::Result<()> {
    let place = place_of(&segment.bytes, start, error.place);
    let text = error.refusal.text();
    if out.json {
        let line = Object::of(&source.name)
            .number("refused_record", number)
            .count("start", start)
            .number("number", error.number())
            .count("place", place)
            .text("reason", text);
        writeln!(out, "{line}")?;
    } else {
        let what = error.number();
        writeln!(
            out,
            "record {number} at {start}: its body is refused at {place}: {text} (number {what})"
        )?;
        write!(out, "{}", hex::dump(&segment.bytes, place))?;
    }
    out.complain(&format!(
        "{}: record {number} is whole, but what it says cannot be read; send a copy to whoever \
         wrote it, a replay stops before it",
        source.name
    ))
}

/// The place in a segment of a byte of a body, whose record starts here and was found whole: its
/// fragments are walked. The body's end is behind the last fragment.
fn place_of(segment: &[u8], start: usize, in_body: usize) -> usize {
    const LAST: [u8; 2] = [1, 4];
    let (mut at, mut before) = (start, 0);
    loop {
        let length = usize::from(u16::from_be_bytes([segment[at + 1], segment[at + 2]]));
        let ends = LAST.contains(&segment[at]);
        if in_body < before + length || ends {
            return at + HEADER + (in_body - before);
        }
        before += length;
        at = next_header(at + HEADER + length);
    }
}

/// The header at a place, or behind padding.
fn next_header(place: usize) -> usize {
    let left = PAGE - place % PAGE;
    match left < HEADER {
        true => place + left,
        false => place,
    }
}

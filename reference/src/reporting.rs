//! The lines of `reference report NAME..` (document 02 [12]): of each segment that was refused or is
//! torn, and then of each series.

use crate::refusal::Refusal;
use crate::report::{Report, Series, SEGMENTS_MAX};
use crate::segment::{RECORD_MAX, SEGMENT_MAX};
use crate::version::{self, Version};
use std::ffi::{OsStr, OsString};
use std::fmt::Write;
use std::fs::File;
use std::io::{self, ErrorKind, Read};
use std::os::unix::ffi::OsStrExt;

/// No segment has it: what is misnamed or cannot be read is given to the report with it, and so is
/// refused with 30 and counts.
const NO_VERSION: u64 = 0;

/// What the program prints for these arguments. Each is opened as it stands; its part after the last
/// `/` is the segment's name.
pub fn text(arguments: &[OsString]) -> String {
    let mut lines = String::new();
    let mut report = Report::new();
    // Not touched before it is used. The byte above the limit tells that a file is too long.
    let mut room = vec![0; SEGMENT_MAX + 1];
    let mut buffer = vec![0; RECORD_MAX];
    for (argument, position) in arguments.iter().zip(1..) {
        let taken = match read_named(&report, argument, &mut room) {
            Some((version, segment)) => report.add_segment(version.number(), segment, &mut buffer),
            None => report.add_segment(NO_VERSION, &[], &mut buffer),
        };
        if let Err(Refusal { number, place }) = taken {
            line(
                &mut lines,
                format_args!("segment {position} {number} {place}"),
            );
        }
        if report.ended().is_some() {
            break;
        }
    }
    for series in report.series() {
        write_series(&mut lines, series);
    }
    lines
}

/// The version and the bytes of the segment of this name; `None` if it is misnamed or cannot be
/// opened or read. One that is too many for the report is not looked for.
fn read_named<'a>(
    report: &Report,
    argument: &OsStr,
    room: &'a mut [u8],
) -> Option<(Version, &'a [u8])> {
    if report.segments() == SEGMENTS_MAX {
        return None;
    }
    let name = argument.as_bytes().rsplit(|&byte| byte == b'/').next()?;
    let name = version::parse_name(name).ok()?;
    let length = fill(room, File::open(argument).ok()?).ok()?;
    Some((name.version, &room[..length]))
}

/// Reads the file to its end, or as much of it as there is room for.
fn fill(room: &mut [u8], mut file: File) -> io::Result<usize> {
    let mut filled = 0;
    while filled < room.len() {
        match file.read(&mut room[filled..]) {
            Ok(0) => break,
            Ok(more) => filled += more,
            Err(error) if error.kind() == ErrorKind::Interrupted => {}
            Err(error) => return Err(error),
        }
    }
    Ok(filled)
}

/// The extremes by their bits, or `none` if every row is NaN.
fn write_series(lines: &mut String, series: &Series) {
    let (id, rows, nans) = (series.id.0, series.rows, series.nans);
    if series.has_reading() {
        let (smallest, largest) = (series.smallest.to_bits(), series.largest.to_bits());
        line(
            lines,
            format_args!("series {id} {rows} {nans} {smallest:016x} {largest:016x}"),
        );
    } else {
        line(lines, format_args!("series {id} {rows} {nans} none"));
    }
}

fn line(lines: &mut String, line: std::fmt::Arguments) {
    writeln!(lines, "{line}").expect("memory takes every line");
}

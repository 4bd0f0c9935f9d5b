//! `depot-wal replay`: what every series had last.

use crate::args::{Args, Failure};
use crate::end::{too_long, End};
use crate::groups;
use crate::json::Object;
use crate::labels::{Labels, Pairs, Starts};
use crate::open::{self, Segment, Source};
use crate::out::Out;
use crate::words::{self, float, moment};
use depot_wal::replay::{Replay, Series};
use depot_wal::segment::RECORD_MAX;
use depot_wal::{Time, Value};
use std::io::{self, Write};

/// A series with its labels.
pub struct Named<'a> {
    pub series: Series,
    pub labels: Option<&'a Pairs>,
}

pub fn run(args: &Args, out: &mut Out) -> Result<bool, Failure> {
    let (strict, by) = (args.has("--strict"), args.value("--by"));
    let mut fine = true;
    for source in open::sources("replay", args, &args.files)? {
        let mut starts = Starts::default();
        let segment = source.read_watched(|bytes| starts.watch(bytes));
        fine &= open::with(
            &source,
            segment,
            out,
            |source, segment, out| match segment.too_long {
                true => Ok(too_long().tell(source, segment, out)?),
                false => replay(source, segment, &starts, strict, by, out),
            },
        )?;
    }
    Ok(fine)
}

fn replay(
    source: &Source,
    segment: &Segment,
    starts: &Starts,
    strict: bool,
    by: Option<&str>,
    out: &mut Out,
) -> Result<bool, Failure> {
    let (mut replay, mut buffer) = (Box::new(Replay::new()), Box::new([0; RECORD_MAX]));
    let (version, bytes) = (source.version, &segment.bytes);
    let result = match strict {
        true => replay.run_strict(version, bytes, &mut buffer),
        false => replay.run(version, bytes, &mut buffer),
    };
    let (good, wanted) = (replay.good(), replay.series().len());
    let labels = Labels::find(version, bytes, starts, good, wanted);
    let all: Vec<Named> = replay
        .series()
        .map(|series| Named {
            series,
            labels: labels.get(series.id),
        })
        .collect();
    let agree = match by {
        Some(label) => {
            groups::tell(source, label, &all, out)? & groups::complete(source, &replay, out)?
        }
        None => tell_all(source, &all, out)?,
    };
    tell_rest(source, &replay, out)?;
    Ok(End::new(result, good).tell(source, segment, out)? && agree)
}

fn tell_all(source: &Source, all: &[Named], out: &mut Out) -> io::Result<bool> {
    for named in all {
        match out.json {
            true => writeln!(out, "{}", named.object(Object::of(&source.name)))?,
            false => writeln!(out, "{}", named.line())?,
        }
    }
    Ok(true)
}

/// What was counted beside the series.
fn tell_rest(source: &Source, replay: &Replay, out: &mut Out) -> io::Result<()> {
    let (orphans, skipped) = (replay.orphans(), replay.skipped());
    if out.json {
        let line = Object::of(&source.name)
            .number("orphans", orphans)
            .number("skipped", skipped);
        return writeln!(out, "{line}");
    }
    if orphans > 0 {
        let samples = words::count(orphans, "sample", "samples");
        writeln!(
            out,
            "{samples} of series that are not named before: not counted"
        )?;
    }
    if skipped > 0 {
        writeln!(
            out,
            "{} of an unknown type: skipped",
            words::records(skipped)
        )?;
    }
    Ok(())
}

impl Named<'_> {
    /// True if it is on: its latest value is not 0, and it is not deleted. NaN is not 0.
    pub fn is_on(&self) -> bool {
        let not_0 = |(_, value): (Time, Value)| value.float() != 0.0;
        !self.series.deleted && self.series.last.is_some_and(not_0)
    }

    /// Labels and what it had last.
    pub fn line(&self) -> String {
        let name = words::series(self.series.id.0, self.labels);
        let rows = words::count(self.series.rows, "row", "rows");
        match self.series.last {
            None => format!("{name}: no rows"),
            Some((time, value)) => {
                let deleted = if self.series.deleted {
                    "deleted, was "
                } else {
                    ""
                };
                let (value, since) = (float(value), moment(time));
                format!("{name}: {deleted}{value} since {since}, {rows}")
            }
        }
    }

    /// The same for machines.
    pub fn object(&self, line: Object) -> Object {
        let line = line.number("id", self.series.id.0);
        let line = match self.labels {
            Some(pairs) => line.pairs("labels", pairs),
            None => line.raw("labels", "null"),
        };
        let line = line.number("rows", self.series.rows);
        match self.series.last {
            Some((time, value)) => line
                .time(time)
                .value(value)
                .flag("deleted", self.series.deleted),
            None => line,
        }
    }

    /// The value of a label.
    pub fn label(&self, name: &str) -> Option<&[u8]> {
        let mut pairs = self.labels?.iter();
        let (_, value) = pairs.find(|(label, _)| label == name.as_bytes())?;
        Some(value)
    }
}

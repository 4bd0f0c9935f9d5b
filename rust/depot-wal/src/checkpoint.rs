//! `depot-wal checkpoint`: what a segment says of some series from a time on, as a new segment.

use crate::args::{usage, Args, Failure};
use crate::end::{advice, good_before, too_long_error};
use crate::json::Object;
use crate::labels::Labels;
use crate::open::{self, named_version, Segment, Source};
use crate::out::Out;
use crate::save::save;
use crate::{time, words};
use depot_wal::body::{self, Entry};
use depot_wal::checkpoint::{checkpoint, Unfinished, Work};
use depot_wal::segment::{Records, RECORD_MAX, SEGMENT_MAX};
use depot_wal::{Good, Id, Time, Version};
use std::collections::BTreeSet;
use std::io::{self, Write};
use std::path::Path;

/// What is kept.
struct Kept {
    ids: Vec<u64>,
    labels: Vec<(String, String)>,
    all: bool,
    from: Time,
}

pub fn run(args: &Args, out: &mut Out) -> Result<bool, Failure> {
    let kept = Kept::parse(args).map_err(|why| usage("checkpoint", &why))?;
    let [from, to] = args.files.as_slice() else {
        let why = "name two files: the segment, and the new one to write";
        return Err(usage("checkpoint", why));
    };
    let sources = open::sources("checkpoint", args, std::slice::from_ref(from))?;
    let (source, target) = (&sources[0], Path::new(to));
    if to == "-" {
        return Err(usage(
            "checkpoint",
            "the new segment is a file, not standard output",
        ));
    }
    if let Some(why) = unfit(target, source.version) {
        return Ok(open::tell(source, &why, out)?);
    }
    match source.read() {
        Ok(segment) => work(source, &segment, target, &kept, out),
        Err(trouble) => Ok(open::tell(source, &trouble, out)?),
    }
}

/// Why a path cannot be the new segment's.
fn unfit(target: &Path, version: Version) -> Option<String> {
    let (name, number) = (
        words::text(target.as_os_str().as_encoded_bytes()),
        version.number(),
    );
    if target.symlink_metadata().is_ok() {
        return Some(format!(
            "{name} is there already; name a new file, nothing is written over"
        ));
    }
    match named_version(target) {
        Some(named) if named != version => Some(format!(
            "it is of version {number}, and {name} is a name of version {}; name the new file so \
             that it says {number}",
            named.number()
        )),
        _ => None,
    }
}

fn work(
    source: &Source,
    segment: &Segment,
    target: &Path,
    kept: &Kept,
    out: &mut Out,
) -> Result<bool, Failure> {
    let made = match segment.too_long {
        true => Err(advice(source, segment, too_long_error(), Good::default())),
        false => kept
            .ids(source.version, &segment.bytes)
            .and_then(|ids| Ok((make(source, segment, &ids, kept.from)?, ids))),
    };
    let (bytes, ids) = match made {
        Ok(made) => made,
        Err(sentence) => {
            let sentence = format!("{sentence}; no checkpoint was written");
            return Ok(open::tell(source, &sentence, out)?);
        }
    };
    if let Err(sentence) = save(target, &bytes) {
        return Ok(open::tell(source, &sentence, out)?);
    }
    tell(source, segment, target, &ids, &bytes, out)?;
    Ok(true)
}

/// The bytes of the new segment, or why there is none.
fn make(source: &Source, segment: &Segment, ids: &[Id], from: Time) -> Result<Vec<u8>, String> {
    // A record may grow, so all the room that a segment may have; what is not written costs nothing.
    let mut target = vec![0; SEGMENT_MAX];
    let mut work = Box::new(Work::default());
    let bytes = &segment.bytes;
    match checkpoint(source.version, bytes, ids, from, &mut target, &mut work) {
        Ok(0) => Err("nothing of it is kept; check the ids with `depot-wal replay`".to_string()),
        Ok(end) => {
            target.truncate(end);
            Ok(target)
        }
        Err(Unfinished { error, .. }) => {
            let good = good_before(source, segment, error.place);
            Err(advice(source, segment, error, good))
        }
    }
}

fn tell(
    source: &Source,
    segment: &Segment,
    target: &Path,
    ids: &[Id],
    bytes: &[u8],
    out: &mut Out,
) -> io::Result<()> {
    let (old, new) = (segment.bytes.len(), bytes.len());
    let name = words::text(target.as_os_str().as_encoded_bytes());
    let records = count(source.version, bytes);
    if out.json {
        let line = Object::of(&source.name)
            .text("checkpoint", &name)
            .count("series", ids.len())
            .number("records", records)
            .count("bytes", new);
        return writeln!(out, "{line}");
    }
    let (series, records) = (ids.len(), words::records(records));
    writeln!(
        out,
        "{}: version {}, {old} bytes",
        source.name,
        source.version.number()
    )?;
    writeln!(
        out,
        "{name}: written and read back, {series} series, {records}, {new} bytes"
    )
}

/// How many records a segment has that was just written.
fn count(version: Version, bytes: &[u8]) -> u64 {
    let mut buffer = Box::new([0; RECORD_MAX]);
    let mut records = Records::new(version, bytes, &mut buffer);
    while let Some(Ok(_)) = records.next() {}
    records.good().records
}

impl Kept {
    fn parse(args: &Args) -> Result<Kept, String> {
        let ids: Result<Vec<u64>, String> = args
            .values("--id")
            .map(|word| {
                word.parse()
                    .map_err(|_| format!("--id {word} is no number"))
            })
            .collect();
        let labels: Result<Vec<(String, String)>, String> = args
            .values("--label")
            .map(|word| match word.split_once('=') {
                Some((name, value)) => Ok((name.to_string(), value.to_string())),
                None => Err(format!("--label {word} is not NAME=VALUE")),
            })
            .collect();
        let (ids, labels, all) = (ids?, labels?, args.has("--all"));
        if ids.is_empty() && labels.is_empty() && !all {
            return Err("say which series are kept: --id, --label or --all".to_string());
        }
        let from = match args.value("--from") {
            None => Time(i64::MIN),
            Some(word) => time::parse(word).ok_or_else(|| {
                format!("--from {word} is neither milliseconds nor a time as 2026-11-17T23:38:13Z")
            })?,
        };
        Ok(Kept {
            ids,
            labels,
            all,
            from,
        })
    }

    /// The ids that are kept of a log, in order. Each label must be that of a series: a misspelt
    /// one would be missed only when the old log is gone.
    fn ids(&self, version: Version, segment: &[u8]) -> Result<Vec<Id>, String> {
        let mut ids: BTreeSet<u64> = self.ids.iter().copied().collect();
        let mut labels = Labels::default();
        let mut buffer = Box::new([0; RECORD_MAX]);
        let mut records = Records::new(version, segment, &mut buffer);
        while let Some(Ok(record)) = records.next() {
            labels.learn(record.bytes);
            if self.all {
                ids.extend(body::entries(record.bytes).flatten().map(|e| id_of(&e).0));
            }
        }
        for (name, value) in &self.labels {
            let wanted = |(n, v): &(Vec<u8>, Vec<u8>)| {
                (n.as_slice(), v.as_slice()) == (name.as_bytes(), value.as_bytes())
            };
            let found = labels.iter().filter(|(_, pairs)| pairs.iter().any(wanted));
            let mut found = found.map(|(id, _)| id.0).peekable();
            if found.peek().is_none() {
                return Err(format!(
                    "no series has the label {name}={value}; check its spelling"
                ));
            }
            ids.extend(found);
        }
        Ok(ids.into_iter().map(Id).collect())
    }
}

/// The series of an entry.
fn id_of(entry: &Entry) -> Id {
    match entry {
        Entry::Series(series) => series.id,
        Entry::Sample(sample) => sample.id,
        Entry::Tombstone(tombstone) => tombstone.id,
        Entry::Exemplar(exemplar) => exemplar.sample.id,
        Entry::Metadata(about) => about.id,
        Entry::Histogram(histogram) => histogram.id,
        Entry::FloatHistogram(histogram) => histogram.id,
        _ => Id::default(),
    }
}

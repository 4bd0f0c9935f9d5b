//! The entries of a record, for people and for machines.

use crate::histograms::Printed;
use crate::json::Object;
use crate::labels::{owned, Labels};
use crate::words::{float, moment, series};
use crate::{time, words};
use depot_wal::body::{Entry, Exemplar, Metadata, Sample, Tombstone};
use depot_wal::Id;

/// An entry as a line.
pub fn line(entry: &Entry, labels: &Labels) -> String {
    let named = |id: Id| series(id.0, labels.get(id));
    match entry {
        Entry::Series(new) => {
            let labels = words::labels(&owned(new.labels.clone()));
            format!("series {} {labels}", new.id.0)
        }
        Entry::Sample(sample) => format!("sample {}", reading(sample, labels)),
        Entry::Tombstone(Tombstone { id, min, max }) => format!(
            "tombstone {}: deleted from {} to {}",
            named(*id),
            moment(*min),
            moment(*max)
        ),
        Entry::Exemplar(exemplar) => {
            let own = words::labels(&owned(exemplar.labels.clone()));
            format!("exemplar {} {own}", reading(&exemplar.sample, labels))
        }
        Entry::Metadata(about) => {
            let fields = words::labels(&owned(about.fields.clone()));
            let (series, kind) = (named(about.id), about.metric_type);
            format!("metadata {series}: metric type {kind} {fields}")
        }
        Entry::Histogram(h) => format!("histogram {} at {}", named(h.id), Printed::whole(h)),
        Entry::FloatHistogram(h) => {
            format!("float histogram {} at {}", named(h.id), Printed::floats(h))
        }
        _ => "an entry of a kind that this program does not know".to_string(),
    }
}

/// Series, time and value.
fn reading(sample: &Sample, labels: &Labels) -> String {
    let Sample { id, time, value } = *sample;
    let (series, time) = (series(id.0, labels.get(id)), moment(time));
    format!("{series} at {time}: {}", float(value))
}

/// An entry as a line of JSON.
pub fn object(file: &str, entry: &Entry, labels: &Labels) -> Object {
    let of = |kind: &str, id: Id| {
        let line = Object::of(file).text("entry", kind).number("id", id.0);
        match labels.get(id) {
            Some(pairs) => line.pairs("labels", pairs),
            None => line.raw("labels", "null"),
        }
    };
    match entry {
        // Its own labels, which are not those of the series if the id came before.
        Entry::Series(new) => Object::of(file)
            .text("entry", "series")
            .number("id", new.id.0)
            .pairs("labels", &owned(new.labels.clone())),
        Entry::Sample(Sample { id, time, value }) => of("sample", *id).time(*time).value(*value),
        Entry::Tombstone(Tombstone { id, min, max }) => of("tombstone", *id)
            .number("min", min.0)
            .number("max", max.0)
            .text("min_utc", &time::utc(*min))
            .text("max_utc", &time::utc(*max)),
        Entry::Exemplar(Exemplar { sample, labels }) => of("exemplar", sample.id)
            .time(sample.time)
            .value(sample.value)
            .pairs("exemplar", &owned(labels.clone())),
        Entry::Metadata(Metadata {
            id,
            metric_type,
            fields,
        }) => of("metadata", *id)
            .number("metric_type", *metric_type)
            .pairs("fields", &owned(fields.clone())),
        Entry::Histogram(h) => Printed::whole(h).put(of("histogram", h.id)),
        Entry::FloatHistogram(h) => Printed::floats(h).put(of("float_histogram", h.id)),
        _ => Object::of(file).text("entry", "unknown"),
    }
}

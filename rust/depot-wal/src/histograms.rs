//! Histograms, for people and for machines.

use crate::json::{self, Object};
use crate::words::{float, moment};
use depot_wal::histogram::{Float, Histogram, Numbers, Side, Whole};
use depot_wal::{Time, Value};
use std::fmt;

/// A histogram whose numbers are texts, so that whole ones and floats are the same.
pub struct Printed {
    time: Time,
    hint: u8,
    schema: i32,
    zero_threshold: Value,
    zero_count: String,
    count: String,
    sum: Value,
    sides: [PrintedSide; 2],
}

/// A side of it: spans as offset and length, and buckets.
struct PrintedSide {
    name: &'static str,
    spans: Vec<(i32, u32)>,
    buckets: Vec<String>,
}

impl Printed {
    pub fn whole(h: &Histogram<Whole>) -> Printed {
        Printed::new(h, |count| count.to_string(), |bucket| bucket.to_string())
    }

    pub fn floats(h: &Histogram<Float>) -> Printed {
        Printed::new(h, json::float, json::float)
    }

    fn new<N: Numbers>(
        h: &Histogram<N>,
        count: impl Fn(N::Count) -> String,
        bucket: impl Fn(N::Bucket) -> String,
    ) -> Printed {
        let side = |name, Side { spans, buckets }: Side<N>| PrintedSide {
            name,
            spans: spans.map(|span| (span.offset, span.length)).collect(),
            buckets: buckets.map(&bucket).collect(),
        };
        Printed {
            time: h.time,
            hint: h.hint,
            schema: h.schema,
            zero_threshold: h.zero_threshold,
            zero_count: count(h.zero_count),
            count: count(h.count),
            sum: h.sum,
            sides: [
                side("positive", h.positive.clone()),
                side("negative", h.negative.clone()),
            ],
        }
    }

    /// Puts it into a line of JSON.
    pub fn put(&self, line: Object) -> Object {
        let line = line
            .time(self.time)
            .raw("count", &self.count)
            .float("sum", self.sum)
            .raw("zero_count", &self.zero_count)
            .float("zero_threshold", self.zero_threshold)
            .number("schema", self.schema)
            .number("hint", self.hint);
        self.sides.iter().fold(line, |line, side| {
            let spans = side.spans.iter();
            let spans = json::list(spans.map(|(offset, length)| format!("[{offset},{length}]")));
            line.raw(&format!("{}_spans", side.name), spans)
                .raw(&format!("{}_buckets", side.name), json::list(&side.buckets))
        })
    }
}

impl fmt::Display for Printed {
    fn fmt(&self, f: &mut fmt::Formatter<'_>) -> fmt::Result {
        let (count, zeros) = (&self.count, &self.zero_count);
        let (sum, width) = (float(self.sum), float(self.zero_threshold));
        write!(
            f,
            "{}: count {count}, sum {sum}, zero bucket {zeros} to {width}, schema {}, hint {}",
            moment(self.time),
            self.schema,
            self.hint
        )?;
        for PrintedSide {
            name,
            spans,
            buckets,
        } in &self.sides
        {
            let spans: Vec<String> = spans.iter().map(|(o, l)| format!("{o}:{l}")).collect();
            let (spans, buckets) = (spans.join(" "), buckets.join(" "));
            write!(f, ", {name} spans [{spans}] buckets [{buckets}]")?;
        }
        Ok(())
    }
}

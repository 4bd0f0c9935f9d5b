//! The voltage report over a night's segments (document 02 [12]): for each series met in sample
//! rows, how many there were, how many of them NaN, and the smallest and the largest other reading.
//! A record is added whole or not at all. One walk of its body checks it and finds the rows of its
//! ids; then its readings are compared.

use crate::body::{self, SeriesId, SAMPLES};
use crate::ids::{Index, SERIES_MAX};
use crate::refusal::*;
use crate::segment::{self, body_of, Good, Reading};
use crate::version::Version;

/// The most segments of a report.
pub const SEGMENTS_MAX: usize = 1_024;

/// What the report says of a series.
#[derive(Clone, Copy, Debug, Default)]
pub struct Series {
    pub id: SeriesId,
    pub rows: u64,
    /// Rows that are NaN.
    pub nans: u64,
    /// Of the other rows; both 0 while there is none.
    pub smallest: f64,
    pub largest: f64,
}

impl Series {
    fn new(id: SeriesId) -> Series {
        Series {
            id,
            ..Series::default()
        }
    }

    /// True if there is a row that is not NaN.
    pub fn has_reading(&self) -> bool {
        self.rows != self.nans
    }

    /// The first reading is both extremes. Of two equal ones, as -0 and 0 are, the first is kept.
    #[inline(always)]
    fn count(&mut self, bits: u64) {
        let reading = f64::from_bits(bits);
        let first = !self.has_reading();
        self.rows = self.rows.wrapping_add(1);
        if reading.is_nan() {
            self.nans = self.nans.wrapping_add(1);
            return;
        }
        if first || reading < self.smallest {
            self.smallest = reading;
        }
        if first || reading > self.largest {
            self.largest = reading;
        }
    }
}

/// The report so far.
pub struct Report {
    /// In the order in which they were first met.
    series: Vec<Series>,
    index: Index,
    segments: usize,
    ended: Option<Refusal>,
    /// The rows of the record at hand: the place of each series, and the reading's bits.
    found: Vec<(usize, u64)>,
}

impl Report {
    pub fn new() -> Report {
        Report::given(Vec::new(), 0, None)
    }

    /// A report to go on with; of two series with one id the first is counted.
    pub fn given(series: Vec<Series>, segments: usize, ended: Option<Refusal>) -> Report {
        let mut report = Report {
            series,
            index: Index::new(),
            segments,
            ended,
            found: Vec::new(),
        };
        report.enter_series();
        report
    }

    pub fn series(&self) -> &[Series] {
        &self.series
    }

    /// Segments so far, with those of which nothing was added.
    pub fn segments(&self) -> usize {
        self.segments
    }

    /// The answer that ended the report, which is the answer to every segment after.
    pub fn ended(&self) -> Option<Refusal> {
        self.ended
    }

    /// Adds the records of a segment up to a clean end or a refusal. Refusals in order: the one that
    /// ended the report; 1 for the 1,025th segment, which ends it; 30 for no version; 1; then that
    /// of the reading, or at the record's start of the body, or of a 257th series, which ends the
    /// report. The buffer is left as the reads left it.
    pub fn add_segment(
        &mut self,
        version: u64,
        segment: &[u8],
        buffer: &mut [u8],
    ) -> Result<(), Refusal> {
        if let Some(refusal) = self.ended {
            return Err(refusal);
        }
        if self.segments == SEGMENTS_MAX {
            return self.end(BAD_BUFFER, 0);
        }
        self.segments += 1;
        let version = Version::of(version)?;
        let mut good = Good::default();
        while let Reading::Record(record) =
            segment::read(version, segment, good.offset, buffer, &mut good)?
        {
            let added = self.add_body(body_of(&record, segment, buffer));
            match added.map_err(|refusal| refusal.number) {
                Ok(()) | Err(UNKNOWN_TYPE) => {}
                Err(TABLE_FULL) => return self.end(TABLE_FULL, record.start),
                Err(number) => return refuse(number, record.start),
            }
        }
        Ok(())
    }

    fn end(&mut self, number: u32, place: usize) -> Result<(), Refusal> {
        self.ended = Some(Refusal { number, place });
        refuse(number, place)
    }

    /// Adds the rows of a body of samples; of the other types it is only checked. A refusal changes
    /// nothing.
    fn add_body(&mut self, body: &[u8]) -> Result<(), Refusal> {
        if body.first() != Some(&SAMPLES) {
            return body::check(body).map(drop);
        }
        let known = self.series.len();
        if let Err(refusal) = self.find_rows(body) {
            self.series.truncate(known);
            self.enter_series();
            return Err(refusal);
        }
        for &(row, bits) in &self.found {
            self.series[row].count(bits);
        }
        Ok(())
    }

    /// Finds the series of each row; an id that is new enters. Refusals in order: the body's, 28.
    fn find_rows(&mut self, body: &[u8]) -> Result<(), Refusal> {
        let mut full = false;
        self.found.clear();
        body::walk_samples(body, |sample| {
            let row = match self.index.find(sample.id) {
                Some(row) => row,
                None if self.series.len() == SERIES_MAX => {
                    full = true;
                    return;
                }
                None => {
                    self.index.enter(sample.id, self.series.len());
                    self.series.push(Series::new(sample.id));
                    self.series.len() - 1
                }
            };
            self.found.push((row, sample.bits));
        })?;
        match full {
            true => refuse(TABLE_FULL, 0),
            false => Ok(()),
        }
    }

    /// Makes the index anew.
    fn enter_series(&mut self) {
        self.index = Index::new();
        for (row, series) in self.series.iter().enumerate() {
            self.index.enter(series.id, row);
        }
    }
}

impl Default for Report {
    fn default() -> Report {
        Report::new()
    }
}

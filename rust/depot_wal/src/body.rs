//! Record bodies: what a record says, built and read.
//!
//! A [`Builder`] has its buffer to itself until it is done, and its type takes the entries of one
//! kind alone. The bytes are then a record to write. [`entries`] reads a body of any kind; rows
//! (samples, exemplars, histograms) come with their own id and time, the deltas already added.
//!
//! ```
//! use depot_wal::body::{self, Builder, Entry, Kind, Sample};
//! use depot_wal::{Id, Time};
//!
//! let mut buffer = [0; 64];
//! let mut body = Builder::samples(&mut buffer)?;
//! let switch = [
//!     Sample { id: Id(7), time: Time(1000), value: 0.0.into() },
//!     Sample { id: Id(8), time: Time(1000), value: 1.0.into() },
//! ];
//! for sample in switch {
//!     body.push(sample)?;
//! }
//! let record = body.finish();
//! assert_eq!(record.len(), 37);
//!
//! assert_eq!(body::kind(record)?, Kind::Samples);
//! assert_eq!(body::check(record)?, 2);
//! for (entry, sample) in body::entries(record).zip(switch) {
//!     assert!(matches!(entry?, Entry::Sample(read) if read == sample));
//! }
//! # Ok::<(), depot_wal::Error>(())
//! ```
//!
//! Labels, and the fields of metadata, are pairs of strings. To build, lend all strings one after
//! the other, and their lengths:
//!
//! ```
//! use depot_wal::body::{self, Builder, Entry, Strings};
//! use depot_wal::Id;
//!
//! let mut buffer = [0; 64];
//! let mut body = Builder::series(&mut buffer)?;
//! body.push(Id(7), Strings { text: b"profiledepot", lengths: &[7, 5] })?;
//! let Some(Ok(Entry::Series(series))) = body::entries(body.bytes()).next() else { panic!() };
//! assert_eq!(series.id, Id(7));
//! assert_eq!(series.labels.collect::<Vec<_>>(), [(&b"profile"[..], &b"depot"[..])]);
//! # Ok::<(), depot_wal::Error>(())
//! ```

use crate::error::{done, done_or_end};
use crate::histogram::{Float, Histogram, NewHistogram, Whole};
use crate::{sys, Error, Id, Refusal, Time, Value};
use core::iter::FusedIterator;
use core::marker::PhantomData;

/// The kind of a body, which is its first byte.
#[derive(Clone, Copy, Debug, PartialEq, Eq, Hash)]
#[repr(u8)]
#[non_exhaustive]
pub enum Kind {
    /// Series: an id and labels.
    Series = 1,
    /// Samples: a value of a series at a time.
    Samples = 2,
    /// Tombstones: times of a series that are deleted.
    Tombstones = 3,
    /// Exemplars: samples with labels.
    Exemplars = 4,
    /// Metadata of series.
    Metadata = 6,
    /// Histograms whose counts and buckets are whole numbers.
    Histograms = 7,
    /// Histograms whose counts and buckets are floats.
    FloatHistograms = 8,
}

impl Kind {
    /// The kind with this number, if there is one.
    pub const fn from_number(number: u8) -> Option<Kind> {
        Some(match number {
            1 => Kind::Series,
            2 => Kind::Samples,
            3 => Kind::Tombstones,
            4 => Kind::Exemplars,
            6 => Kind::Metadata,
            7 => Kind::Histograms,
            8 => Kind::FloatHistograms,
            _ => return None,
        })
    }
}

/// The kind of a body: [`EmptyBody`](Refusal::EmptyBody) or [`UnknownType`](Refusal::UnknownType)
/// where it has none. The rest is not looked at.
pub fn kind(body: &[u8]) -> Result<Kind, Error> {
    let first = body.first().ok_or(Error::new(Refusal::EmptyBody, 0))?;
    Kind::from_number(*first).ok_or(Error::new(Refusal::UnknownType, 0))
}

/// A value of a series at a time.
#[derive(Clone, Copy, Debug, Default, PartialEq, Eq, Hash)]
pub struct Sample {
    /// The series.
    pub id: Id,
    /// The time.
    pub time: Time,
    /// The value.
    pub value: Value,
}

/// The samples of a series from `min` to `max` are deleted.
#[derive(Clone, Copy, Debug, PartialEq, Eq, Hash)]
pub struct Tombstone {
    /// The series.
    pub id: Id,
    /// The first time.
    pub min: Time,
    /// The last time.
    pub max: Time,
}

// ---- Reading ----

/// A series that was read.
#[derive(Clone, Debug)]
pub struct Series<'a> {
    /// Its id.
    pub id: Id,
    /// Its labels.
    pub labels: Pairs<'a>,
}

/// An exemplar that was read.
#[derive(Clone, Debug)]
pub struct Exemplar<'a> {
    /// Its series, time and value.
    pub sample: Sample,
    /// Its labels.
    pub labels: Pairs<'a>,
}

/// Metadata that was read.
#[derive(Clone, Debug)]
pub struct Metadata<'a> {
    /// The series.
    pub id: Id,
    /// Its metric type, any byte.
    pub metric_type: u8,
    /// Its fields, each a name and a text.
    pub fields: Pairs<'a>,
}

/// An entry of a body.
#[derive(Clone, Debug)]
#[non_exhaustive]
pub enum Entry<'a> {
    /// Of [`Kind::Series`].
    Series(Series<'a>),
    /// Of [`Kind::Samples`].
    Sample(Sample),
    /// Of [`Kind::Tombstones`].
    Tombstone(Tombstone),
    /// Of [`Kind::Exemplars`].
    Exemplar(Exemplar<'a>),
    /// Of [`Kind::Metadata`].
    Metadata(Metadata<'a>),
    /// Of [`Kind::Histograms`].
    Histogram(Histogram<'a, Whole>),
    /// Of [`Kind::FloatHistograms`].
    FloatHistogram(Histogram<'a, Float>),
}

/// Checks a body and counts its entries.
pub fn check(body: &[u8]) -> Result<u64, Error> {
    let mut out = [0; 1];
    // SAFETY: the body is valid for its length.
    let number = unsafe { sys::depot_wal_body_check(body.as_ptr(), body.len(), &mut out) };
    done(number, out[0]).map(|()| out[0])
}

/// The entries of a body, each read as it is reached: after one that is refused it ends.
pub fn entries(body: &[u8]) -> Entries<'_> {
    Entries {
        body,
        place: Some(1),
    }
}

/// Fills the front of a list with the samples of a body, and hands back how many they are. Refused,
/// in this order, are a body that is empty or of an unknown kind,
/// [`WrongKind`](Refusal::WrongKind), a body that cannot be read, and
/// [`ListFull`](Refusal::ListFull); then the list is as it was.
pub fn fill_samples(body: &[u8], list: &mut [Sample]) -> Result<usize, Error> {
    if kind(body)? != Kind::Samples {
        return Err(Error::new(Refusal::WrongKind, 0));
    }
    let count = check(body)? as usize;
    let list = list
        .get_mut(..count)
        .ok_or(Error::new(Refusal::ListFull, 0))?;
    for (slot, entry) in list.iter_mut().zip(entries(body)) {
        if let Entry::Sample(sample) = entry? {
            *slot = sample;
        }
    }
    Ok(count)
}

/// The entries of a body.
#[derive(Clone, Debug)]
pub struct Entries<'a> {
    body: &'a [u8],
    /// The place of the next one; `None` after the last.
    place: Option<usize>,
}

impl<'a> Entries<'a> {
    /// The entry at a place, and the place after it; `None` at the end.
    #[inline]
    fn read(&self, place: usize) -> Result<Option<(Entry<'a>, usize)>, Error> {
        match self.body.first() {
            Some(7) => {
                let read = Histogram::read(self.body, place)?;
                Ok(read.map(|(histogram, next)| (Entry::Histogram(histogram), next)))
            }
            Some(8) => {
                let read = Histogram::read(self.body, place)?;
                Ok(read.map(|(histogram, next)| (Entry::FloatHistogram(histogram), next)))
            }
            _ => self.read_plain(place),
        }
    }

    /// The same, of a body other than of histograms.
    #[inline]
    fn read_plain(&self, place: usize) -> Result<Option<(Entry<'a>, usize)>, Error> {
        let (bytes, len) = (self.body.as_ptr(), self.body.len());
        let mut out = [0; 8];
        // SAFETY: the body is valid for its length.
        let number = unsafe { sys::depot_wal_entry_at(bytes, len, place, &mut out) };
        if !done_or_end(number, out[0])? {
            return Ok(None);
        }
        let [kind, id, time, max, bits, strings, strings_at, next] = out;
        let (id, time, max) = (Id(id), Time(time as i64), Time(max as i64));
        let sample = Sample {
            id,
            time,
            value: Value(bits),
        };
        let pairs = Pairs {
            body: self.body,
            place: strings_at as usize,
            left: strings / 2,
        };
        let entry = match Kind::from_number(kind as u8) {
            Some(Kind::Series) => Entry::Series(Series { id, labels: pairs }),
            Some(Kind::Tombstones) => Entry::Tombstone(Tombstone { id, min: time, max }),
            Some(Kind::Exemplars) => Entry::Exemplar(Exemplar {
                sample,
                labels: pairs,
            }),
            Some(Kind::Metadata) => Entry::Metadata(Metadata {
                id,
                metric_type: bits as u8,
                fields: pairs,
            }),
            _ => Entry::Sample(sample),
        };
        Ok(Some((entry, next as usize)))
    }
}

impl<'a> Iterator for Entries<'a> {
    type Item = Result<Entry<'a>, Error>;

    #[inline]
    fn next(&mut self) -> Option<Self::Item> {
        let place = self.place.take()?;
        let read = self.read(place).transpose()?;
        Some(read.map(|(entry, next)| {
            self.place = Some(next);
            entry
        }))
    }
}

impl FusedIterator for Entries<'_> {}

/// The pairs of strings of an entry: name and text.
#[derive(Clone, Debug)]
pub struct Pairs<'a> {
    body: &'a [u8],
    place: usize,
    left: u64,
}

impl<'a> Pairs<'a> {
    /// The string at the place. The entry was read, and so were its strings: none is refused.
    fn string(&mut self) -> &'a [u8] {
        let (bytes, len) = (self.body.as_ptr(), self.body.len());
        let mut out = [0; 2];
        // SAFETY: the body is valid for its length.
        let number = unsafe { sys::depot_wal_string_at(bytes, len, self.place, &mut out) };
        done(number, out[0]).expect("the string was read with its entry");
        let [start, length] = out.map(|number| number as usize);
        self.place = start + length;
        &self.body[start..self.place]
    }
}

impl<'a> Iterator for Pairs<'a> {
    type Item = (&'a [u8], &'a [u8]);

    fn next(&mut self) -> Option<Self::Item> {
        self.left = self.left.checked_sub(1)?;
        Some((self.string(), self.string()))
    }

    fn size_hint(&self) -> (usize, Option<usize>) {
        (self.left as usize, Some(self.left as usize))
    }
}

impl ExactSizeIterator for Pairs<'_> {}
impl FusedIterator for Pairs<'_> {}

// ---- Building ----

/// Strings to build with: pairs of a name and a text, one after the other, and the length of each.
/// Where the lengths are an odd number, or do not add up to the text, it is
/// [`BadList`](Refusal::BadList).
#[derive(Clone, Copy, Debug, Default)]
pub struct Strings<'a> {
    /// All strings.
    pub text: &'a [u8],
    /// The length of each.
    pub lengths: &'a [u64],
}

/// The types of builders, one for each [`Kind`].
pub mod of {
    /// Builds [`Kind::Series`](super::Kind::Series).
    #[derive(Debug)]
    pub enum Series {}
    /// Builds [`Kind::Samples`](super::Kind::Samples).
    #[derive(Debug)]
    pub enum Samples {}
    /// Builds [`Kind::Tombstones`](super::Kind::Tombstones).
    #[derive(Debug)]
    pub enum Tombstones {}
    /// Builds [`Kind::Exemplars`](super::Kind::Exemplars).
    #[derive(Debug)]
    pub enum Exemplars {}
    /// Builds [`Kind::Metadata`](super::Kind::Metadata).
    #[derive(Debug)]
    pub enum Metadata {}
    /// Builds [`Kind::Histograms`](super::Kind::Histograms).
    #[derive(Debug)]
    pub enum Histograms {}
    /// Builds [`Kind::FloatHistograms`](super::Kind::FloatHistograms).
    #[derive(Debug)]
    pub enum FloatHistograms {}
}

/// A body under construction, of a kind of [`of`]. An entry that is refused,
/// [`TooLong`](Refusal::TooLong) or [`NoRoom`](Refusal::NoRoom), leaves it as it was.
#[derive(Debug)]
pub struct Builder<'b, K> {
    buffer: &'b mut [u8],
    kind: Kind,
    used: usize,
    of: PhantomData<K>,
}

/// What an addition takes first, buffer, length, kind and used, and `out`.
type Addition<'o> = (*mut u8, usize, u8, usize, &'o mut [u64; 2]);

impl<'b, K> Builder<'b, K> {
    /// Starts a body: [`NoRoom`](Refusal::NoRoom) where the buffer is empty.
    fn start(buffer: &'b mut [u8], kind: Kind) -> Result<Self, Error> {
        let (bytes, len) = (buffer.as_mut_ptr(), buffer.len());
        let mut out = [0; 2];
        // SAFETY: the buffer is valid for its length and borrowed for this call alone.
        let number = unsafe { sys::depot_wal_body_start(bytes, len, kind as u8, &mut out) };
        let [used, error_at] = out;
        done(number, error_at)?;
        Ok(Builder {
            buffer,
            kind,
            used: used as usize,
            of: PhantomData,
        })
    }

    /// Adds an entry by a call, which gets the state of this body and the buffer to itself.
    #[inline]
    fn add(&mut self, call: impl FnOnce(Addition) -> u32) -> Result<(), Error> {
        let (bytes, len) = (self.buffer.as_mut_ptr(), self.buffer.len());
        let mut out = [0; 2];
        let number = call((bytes, len, self.kind as u8, self.used, &mut out));
        let [used, error_at] = out;
        done(number, error_at)?;
        self.used = used as usize;
        Ok(())
    }

    /// The body so far.
    pub fn bytes(&self) -> &[u8] {
        &self.buffer[..self.used]
    }

    /// The body, which is a record to write.
    pub fn finish(self) -> &'b [u8] {
        &self.buffer[..self.used]
    }
}

impl<'b> Builder<'b, of::Series> {
    /// Starts a body of series.
    pub fn series(buffer: &'b mut [u8]) -> Result<Self, Error> {
        Builder::start(buffer, Kind::Series)
    }

    /// Adds a series: its id and its labels.
    pub fn push(&mut self, id: Id, labels: Strings) -> Result<(), Error> {
        let Strings { text, lengths } = labels;
        // SAFETY: the strings are valid for their lengths, the buffer is this body's alone.
        self.add(|(buffer, len, kind, used, out)| unsafe {
            sys::depot_wal_add_series(
                buffer,
                len,
                kind,
                used,
                id.0,
                text.as_ptr(),
                text.len(),
                lengths.as_ptr(),
                lengths.len(),
                out,
            )
        })
    }
}

impl<'b> Builder<'b, of::Samples> {
    /// Starts a body of samples.
    pub fn samples(buffer: &'b mut [u8]) -> Result<Self, Error> {
        Builder::start(buffer, Kind::Samples)
    }

    /// Adds a sample.
    #[inline]
    pub fn push(&mut self, sample: Sample) -> Result<(), Error> {
        let Sample { id, time, value } = sample;
        // SAFETY: the buffer is this body's alone.
        self.add(|(buffer, len, kind, used, out)| unsafe {
            sys::depot_wal_add_sample(buffer, len, kind, used, id.0, time.0, value.0, out)
        })
    }
}

impl<'b> Builder<'b, of::Tombstones> {
    /// Starts a body of tombstones.
    pub fn tombstones(buffer: &'b mut [u8]) -> Result<Self, Error> {
        Builder::start(buffer, Kind::Tombstones)
    }

    /// Adds a tombstone.
    pub fn push(&mut self, tombstone: Tombstone) -> Result<(), Error> {
        let Tombstone { id, min, max } = tombstone;
        // SAFETY: the buffer is this body's alone.
        self.add(|(buffer, len, kind, used, out)| unsafe {
            sys::depot_wal_add_tombstone(buffer, len, kind, used, id.0, min.0, max.0, out)
        })
    }
}

impl<'b> Builder<'b, of::Exemplars> {
    /// Starts a body of exemplars.
    pub fn exemplars(buffer: &'b mut [u8]) -> Result<Self, Error> {
        Builder::start(buffer, Kind::Exemplars)
    }

    /// Adds an exemplar: a sample with labels.
    pub fn push(&mut self, sample: Sample, labels: Strings) -> Result<(), Error> {
        let (Sample { id, time, value }, Strings { text, lengths }) = (sample, labels);
        // SAFETY: the strings are valid for their lengths, the buffer is this body's alone.
        self.add(|(buffer, len, kind, used, out)| unsafe {
            sys::depot_wal_add_exemplar(
                buffer,
                len,
                kind,
                used,
                id.0,
                time.0,
                value.0,
                text.as_ptr(),
                text.len(),
                lengths.as_ptr(),
                lengths.len(),
                out,
            )
        })
    }
}

impl<'b> Builder<'b, of::Metadata> {
    /// Starts a body of metadata.
    pub fn metadata(buffer: &'b mut [u8]) -> Result<Self, Error> {
        Builder::start(buffer, Kind::Metadata)
    }

    /// Adds metadata of a series: its metric type, any byte, and its fields.
    pub fn push(&mut self, id: Id, metric_type: u8, fields: Strings) -> Result<(), Error> {
        let Strings { text, lengths } = fields;
        // SAFETY: the strings are valid for their lengths, the buffer is this body's alone.
        self.add(|(buffer, len, kind, used, out)| unsafe {
            sys::depot_wal_add_metadata(
                buffer,
                len,
                kind,
                used,
                id.0,
                metric_type,
                text.as_ptr(),
                text.len(),
                lengths.as_ptr(),
                lengths.len(),
                out,
            )
        })
    }
}

impl<'b> Builder<'b, of::Histograms> {
    /// Starts a body of histograms of whole numbers.
    pub fn histograms(buffer: &'b mut [u8]) -> Result<Self, Error> {
        Builder::start(buffer, Kind::Histograms)
    }

    /// Adds a histogram.
    pub fn push(&mut self, histogram: &NewHistogram<Whole>) -> Result<(), Error> {
        self.add(|state| histogram.add(sys::depot_wal_add_histogram, state))
    }
}

impl<'b> Builder<'b, of::FloatHistograms> {
    /// Starts a body of histograms of floats.
    pub fn float_histograms(buffer: &'b mut [u8]) -> Result<Self, Error> {
        Builder::start(buffer, Kind::FloatHistograms)
    }

    /// Adds a histogram.
    pub fn push(&mut self, histogram: &NewHistogram<Float>) -> Result<(), Error> {
        self.add(|state| histogram.add(sys::depot_wal_add_float_histogram, state))
    }
}

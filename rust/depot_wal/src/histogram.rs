//! Histograms, of whole numbers or of floats.
//!
//! A histogram has two sides, positive and negative, each of spans and buckets. Whether buckets and
//! spans go together is not checked: the buckets of whole numbers are the differences that
//! Prometheus stores.
//!
//! ```
//! use depot_wal::body::{self, Builder, Entry};
//! use depot_wal::histogram::{NewHistogram, NewSide, Span, Whole};
//! use depot_wal::{Id, Time};
//!
//! let mut buffer = [0; 128];
//! let mut body = Builder::histograms(&mut buffer)?;
//! body.push(&NewHistogram::<Whole> {
//!     id: Id(3),
//!     time: Time(1000),
//!     count: 5,
//!     sum: 12.5.into(),
//!     positive: NewSide { offsets: &[0], lengths: &[2], buckets: &[2, 1] },
//!     ..NewHistogram::default()
//! })?;
//!
//! let Some(Ok(Entry::Histogram(read))) = body::entries(body.bytes()).next() else { panic!() };
//! assert_eq!((read.count, read.sum.float()), (5, 12.5));
//! assert_eq!(read.positive.spans.collect::<Vec<_>>(), [Span { offset: 0, length: 2 }]);
//! assert_eq!(read.positive.buckets.collect::<Vec<_>>(), [2, 1]);
//! assert_eq!(read.negative.spans.len(), 0);
//! # Ok::<(), depot_wal::Error>(())
//! ```

use crate::error::{done, done_or_end};
use crate::{sys, Error, Id, Time, Value};
use core::iter::FusedIterator;
use core::marker::PhantomData;

/// What the counts and buckets of a histogram are: [`Whole`] or [`Float`].
pub trait Numbers: sealed::Sealed {
    /// A count.
    type Count: Copy + Default + core::fmt::Debug + PartialEq;
    /// A bucket.
    type Bucket: Copy + core::fmt::Debug + PartialEq + 'static;
}

mod sealed {
    use super::{Float, Numbers, Value, Whole};

    /// How counts and buckets are 64 bits.
    pub trait Sealed: Copy + Default + core::fmt::Debug {
        /// A bucket as C has it.
        type Raw;
        fn count(bits: u64) -> <Self as Numbers>::Count
        where
            Self: Numbers;
        fn count_bits(count: <Self as Numbers>::Count) -> u64
        where
            Self: Numbers;
        fn bucket(bits: u64) -> <Self as Numbers>::Bucket
        where
            Self: Numbers;
    }

    impl Sealed for Whole {
        type Raw = i64;
        fn count(bits: u64) -> u64 {
            bits
        }
        fn count_bits(count: u64) -> u64 {
            count
        }
        fn bucket(bits: u64) -> i64 {
            bits as i64
        }
    }

    impl Sealed for Float {
        type Raw = u64;
        fn count(bits: u64) -> Value {
            Value(bits)
        }
        fn count_bits(count: Value) -> u64 {
            count.0
        }
        fn bucket(bits: u64) -> Value {
            Value(bits)
        }
    }
}

/// Counts are whole numbers, buckets signed ones.
#[derive(Clone, Copy, Debug, Default, PartialEq, Eq)]
pub struct Whole;

impl Numbers for Whole {
    type Count = u64;
    type Bucket = i64;
}

/// Counts and buckets are floats.
#[derive(Clone, Copy, Debug, Default, PartialEq, Eq)]
pub struct Float;

impl Numbers for Float {
    type Count = Value;
    type Bucket = Value;
}

/// A span of buckets.
#[derive(Clone, Copy, Debug, PartialEq, Eq, Hash)]
pub struct Span {
    /// How far it is from the one before.
    pub offset: i32,
    /// How many buckets it has.
    pub length: u32,
}

// ---- Building ----

/// A histogram to build.
#[derive(Clone, Copy, Debug, Default)]
pub struct NewHistogram<'a, N: Numbers> {
    /// The series.
    pub id: Id,
    /// The time.
    pub time: Time,
    /// The hint about counter resets, any byte.
    pub hint: u8,
    /// The schema.
    pub schema: i32,
    /// The width of the zero bucket.
    pub zero_threshold: Value,
    /// The count of the zero bucket.
    pub zero_count: N::Count,
    /// The count of all.
    pub count: N::Count,
    /// The sum of all.
    pub sum: Value,
    /// The positive side.
    pub positive: NewSide<'a, N>,
    /// The negative side.
    pub negative: NewSide<'a, N>,
}

/// A side of a histogram to build: its spans as offsets and lengths, as many of the one as of the
/// other, else it is [`BadList`](crate::Refusal::BadList); and its buckets.
#[derive(Clone, Copy, Debug)]
pub struct NewSide<'a, N: Numbers> {
    /// The offset of each span.
    pub offsets: &'a [i32],
    /// The length of each span.
    pub lengths: &'a [u32],
    /// The buckets.
    pub buckets: &'a [N::Bucket],
}

impl<N: Numbers> Default for NewSide<'_, N> {
    fn default() -> Self {
        NewSide {
            offsets: &[],
            lengths: &[],
            buckets: &[],
        }
    }
}

impl<N: Numbers> NewHistogram<'_, N> {
    /// Adds it to a body of its type by the call for that.
    pub(crate) fn add(
        &self,
        call: sys::AddHistogram<N::Raw>,
        (buffer, len, kind, used, out): (*mut u8, usize, u8, usize, &mut [u64; 2]),
    ) -> u32 {
        let (positive, negative) = (&self.positive, &self.negative);
        // SAFETY: the slices are valid for their lengths, the buffer is the body's alone, and a
        // bucket has the bits that the call takes: `i64`, or `Value`, which is a `u64`.
        unsafe {
            call(
                buffer,
                len,
                kind,
                used,
                self.id.0,
                self.time.0,
                self.hint,
                self.schema,
                self.zero_threshold.0,
                N::count_bits(self.zero_count),
                N::count_bits(self.count),
                self.sum.0,
                positive.offsets.as_ptr(),
                positive.offsets.len(),
                positive.lengths.as_ptr(),
                positive.lengths.len(),
                negative.offsets.as_ptr(),
                negative.offsets.len(),
                negative.lengths.as_ptr(),
                negative.lengths.len(),
                positive.buckets.as_ptr().cast(),
                positive.buckets.len(),
                negative.buckets.as_ptr().cast(),
                negative.buckets.len(),
                out,
            )
        }
    }
}

// ---- Reading ----

/// A histogram that was read.
#[derive(Clone, Debug)]
pub struct Histogram<'a, N: Numbers> {
    /// The series.
    pub id: Id,
    /// The time.
    pub time: Time,
    /// The hint about counter resets, any byte.
    pub hint: u8,
    /// The schema.
    pub schema: i32,
    /// The width of the zero bucket.
    pub zero_threshold: Value,
    /// The count of the zero bucket.
    pub zero_count: N::Count,
    /// The count of all.
    pub count: N::Count,
    /// The sum of all.
    pub sum: Value,
    /// The positive side.
    pub positive: Side<'a, N>,
    /// The negative side.
    pub negative: Side<'a, N>,
}

/// A side of a histogram that was read.
#[derive(Clone, Debug)]
pub struct Side<'a, N: Numbers> {
    /// Its spans.
    pub spans: Spans<'a>,
    /// Its buckets.
    pub buckets: Buckets<'a, N>,
}

impl<'a, N: Numbers> Histogram<'a, N> {
    /// The histogram at a place of a body of its type, and the place after it; `None` at the end.
    pub(crate) fn read(body: &'a [u8], place: usize) -> Result<Option<(Self, usize)>, Error> {
        let mut out = [0; sys::HISTOGRAM_LEN];
        // SAFETY: the body is valid for its length.
        let number =
            unsafe { sys::depot_wal_histogram_at(body.as_ptr(), body.len(), place, &mut out) };
        if !done_or_end(number, out[0])? {
            return Ok(None);
        }
        let [_, id, time, hint, schema, zero_threshold, zero_count, count, sum, lists @ .., next] =
            out;
        let [positive_spans, at, negative_spans, negative_at, buckets @ ..] = lists;
        let [positive, buckets_at, negative, negative_buckets_at] = buckets;
        let histogram = Histogram {
            id: Id(id),
            time: Time(time as i64),
            hint: hint as u8,
            schema: schema as i32,
            zero_threshold: Value(zero_threshold),
            zero_count: N::count(zero_count),
            count: N::count(count),
            sum: Value(sum),
            positive: Side::new(body, [positive_spans, at], [positive, buckets_at]),
            negative: Side::new(
                body,
                [negative_spans, negative_at],
                [negative, negative_buckets_at],
            ),
        };
        Ok(Some((histogram, next as usize)))
    }
}

impl<'a, N: Numbers> Side<'a, N> {
    /// Of the counts and first places of its lists.
    fn new(body: &'a [u8], spans: [u64; 2], buckets: [u64; 2]) -> Side<'a, N> {
        Side {
            spans: Spans(List::new(body, spans)),
            buckets: Buckets(List::new(body, buckets), PhantomData),
        }
    }
}

/// A list in a body.
#[derive(Clone, Debug)]
struct List<'a> {
    body: &'a [u8],
    left: u64,
    place: usize,
}

impl<'a> List<'a> {
    fn new(body: &'a [u8], [left, place]: [u64; 2]) -> List<'a> {
        let place = place as usize;
        List { body, left, place }
    }

    /// The next element by the call that reads one, whose last number is the place after it. The
    /// histogram was read, and so were its lists: none is refused.
    fn next<const N: usize>(
        &mut self,
        call: unsafe extern "C" fn(*const u8, usize, usize, *mut [u64; N]) -> u32,
    ) -> Option<[u64; N]> {
        self.left = self.left.checked_sub(1)?;
        let mut out = [0; N];
        // SAFETY: the body is valid for its length.
        let number = unsafe { call(self.body.as_ptr(), self.body.len(), self.place, &mut out) };
        done(number, out[0]).expect("the element was read with its histogram");
        self.place = out[N - 1] as usize;
        Some(out)
    }
}

/// The spans of a side.
#[derive(Clone, Debug)]
pub struct Spans<'a>(List<'a>);

impl Iterator for Spans<'_> {
    type Item = Span;

    fn next(&mut self) -> Option<Span> {
        let [offset, length, _] = self.0.next(sys::depot_wal_span_at)?;
        Some(Span {
            offset: offset as i32,
            length: length as u32,
        })
    }

    fn size_hint(&self) -> (usize, Option<usize>) {
        (self.0.left as usize, Some(self.0.left as usize))
    }
}

impl ExactSizeIterator for Spans<'_> {}
impl FusedIterator for Spans<'_> {}

/// The buckets of a side.
#[derive(Clone, Debug)]
pub struct Buckets<'a, N>(List<'a>, PhantomData<N>);

impl<N: Numbers> Iterator for Buckets<'_, N> {
    type Item = N::Bucket;

    fn next(&mut self) -> Option<N::Bucket> {
        let [bits, _] = self.0.next(sys::depot_wal_bucket_at)?;
        Some(N::bucket(bits))
    }

    fn size_hint(&self) -> (usize, Option<usize>) {
        (self.0.left as usize, Some(self.0.left as usize))
    }
}

impl<N: Numbers> ExactSizeIterator for Buckets<'_, N> {}
impl<N: Numbers> FusedIterator for Buckets<'_, N> {}

//! Bodies of histograms, types 7 and 8 (document 003 and document 02 [7]). An entry begins as a row
//! of samples does and has a histogram in place of the value. The two types differ only in how a
//! count and a bucket are written: that is `Bucket`, and all else is written once over it.

use crate::body::{
    has_histograms, kind_of, Cursor, First, Row, SeriesId, Timestamp, Writer, HISTOGRAMS,
};
use crate::refusal::*;
use crate::varint;

/// A histogram to be added. Floats are given as their 64 bits, carried unread. Type 7 has signed
/// buckets, `i64`; type 8 has floats as its two counts and as its buckets, `u64`.
#[derive(Clone, Copy, Debug)]
pub struct NewHistogram<'a, B> {
    pub id: SeriesId,
    pub time: Timestamp,
    /// The counter reset hint.
    pub hint: u8,
    pub schema: i32,
    pub zero_threshold: u64,
    pub zero_count: u64,
    pub count: u64,
    pub sum: u64,
    pub positive_spans: Spans<'a>,
    pub negative_spans: Spans<'a>,
    pub positive_buckets: &'a [B],
    pub negative_buckets: &'a [B],
}

/// Spans as the caller gives them; both lists have to have one length.
#[derive(Clone, Copy, Debug)]
pub struct Spans<'a> {
    pub offsets: &'a [i32],
    pub lengths: &'a [u32],
}

/// A histogram as it is read. Its lists are not checked against each other.
#[derive(Clone, Copy, Debug, PartialEq, Eq)]
pub struct Histogram {
    pub kind: u8,
    pub id: SeriesId,
    pub time: Timestamp,
    pub hint: u8,
    pub schema: i32,
    pub zero_threshold: u64,
    pub zero_count: u64,
    pub count: u64,
    pub sum: u64,
    pub positive_spans: List,
    pub negative_spans: List,
    pub positive_buckets: List,
    pub negative_buckets: List,
    /// The place after it.
    pub after: usize,
}

/// A list in a body: the number of its elements, and the place of the first, which is the place
/// after that number even if there is none.
#[derive(Clone, Copy, Debug, PartialEq, Eq)]
pub struct List {
    pub count: u64,
    pub first: usize,
}

// ---- What is different in the two types ----

/// How a count and a bucket are written.
pub(crate) trait Bucket: Copy {
    fn count_size(count: u64) -> usize;
    fn put_count(count: u64, writer: &mut Writer);
    fn read_count(cursor: &mut Cursor) -> Result<u64, Refusal>;
    fn size(self) -> usize;
    fn put(self, writer: &mut Writer);
    /// Signed buckets as two's complement.
    fn read(cursor: &mut Cursor) -> Result<u64, Refusal>;
    /// Passes so many buckets. A body may say 2^61 or more, so their bytes are not multiplied out.
    fn pass(cursor: &mut Cursor, buckets: u64) -> Result<(), Refusal>;
}

/// Type 7: counts are uvarints, buckets varints.
impl Bucket for i64 {
    fn count_size(count: u64) -> usize {
        varint::uvarint_length(count)
    }

    fn put_count(count: u64, writer: &mut Writer) {
        writer.uvarint(count);
    }

    fn read_count(cursor: &mut Cursor) -> Result<u64, Refusal> {
        cursor.uvarint()
    }

    fn size(self) -> usize {
        varint::varint_length(self)
    }

    fn put(self, writer: &mut Writer) {
        writer.uvarint(varint::zigzag(self));
    }

    fn read(cursor: &mut Cursor) -> Result<u64, Refusal> {
        Ok(cursor.varint()? as u64)
    }

    /// Most buckets take one byte: eight of these are passed at once.
    #[inline(always)]
    fn pass(cursor: &mut Cursor, mut buckets: u64) -> Result<(), Refusal> {
        const GO_ON: u64 = 0x8080_8080_8080_8080;
        while buckets >= 8 {
            match cursor.rest.split_first_chunk() {
                Some((&bytes, rest)) if u64::from_ne_bytes(bytes) & GO_ON == 0 => {
                    cursor.rest = rest;
                    buckets -= 8;
                }
                _ => {
                    cursor.uvarint()?;
                    buckets -= 1;
                }
            }
        }
        for _ in 0..buckets {
            cursor.uvarint()?;
        }
        Ok(())
    }
}

/// Type 8: all of them floats of 8 bytes.
impl Bucket for u64 {
    fn count_size(_: u64) -> usize {
        8
    }

    fn put_count(count: u64, writer: &mut Writer) {
        writer.eight(count);
    }

    fn read_count(cursor: &mut Cursor) -> Result<u64, Refusal> {
        cursor.eight()
    }

    fn size(self) -> usize {
        8
    }

    fn put(self, writer: &mut Writer) {
        writer.eight(self);
    }

    fn read(cursor: &mut Cursor) -> Result<u64, Refusal> {
        cursor.eight()
    }

    /// The first that is not whole is short.
    #[inline(always)]
    fn pass(cursor: &mut Cursor, buckets: u64) -> Result<(), Refusal> {
        let whole = cursor.rest.len() / 8;
        if buckets > whole as u64 {
            return refuse(SHORT, cursor.place() + 8 * whole);
        }
        cursor.rest = &cursor.rest[8 * buckets as usize..];
        Ok(())
    }
}

// ---- Building ----

/// Writes the entry into the room after the body and answers its size. Refusals in order: 25, 9,
/// 11.
pub(crate) fn add<B: Bucket>(
    histogram: &NewHistogram<B>,
    body: &[u8],
    room: &mut [u8],
) -> Result<usize, Refusal> {
    let row = Row::new(histogram.id, histogram.time, body);
    let size = row.size() + size_after_row(histogram)?;
    let mut writer = Writer::new(room, body.len(), size)?;
    writer.row(&row);
    put_after_row(histogram, &mut writer);
    Ok(size)
}

fn size_after_row<B: Bucket>(histogram: &NewHistogram<B>) -> Result<usize, Refusal> {
    let schema = varint::varint_length(histogram.schema.into());
    let counts = B::count_size(histogram.zero_count) + B::count_size(histogram.count);
    let spans = histogram.positive_spans.size()? + histogram.negative_spans.size()?;
    let buckets = list_size(histogram.positive_buckets) + list_size(histogram.negative_buckets);
    // The hint, the zero threshold and the sum have a fixed size.
    Ok(1 + schema + 8 + counts + 8 + spans + buckets)
}

/// The fields in the order of document 003.
fn put_after_row<B: Bucket>(histogram: &NewHistogram<B>, writer: &mut Writer) {
    writer.bytes(&[histogram.hint]);
    writer.uvarint(varint::zigzag(histogram.schema.into()));
    writer.eight(histogram.zero_threshold);
    B::put_count(histogram.zero_count, writer);
    B::put_count(histogram.count, writer);
    writer.eight(histogram.sum);
    histogram.positive_spans.put(writer);
    histogram.negative_spans.put(writer);
    put_list(histogram.positive_buckets, writer);
    put_list(histogram.negative_buckets, writer);
}

impl Spans<'_> {
    /// The bytes of their number and of all spans. Refusal: 25, if there are more offsets than
    /// lengths or fewer.
    fn size(&self) -> Result<usize, Refusal> {
        if self.offsets.len() != self.lengths.len() {
            return refuse(BAD_LIST, 0);
        }
        let offsets = self.offsets.iter();
        let lengths = self.lengths.iter();
        let offsets: usize = offsets.map(|&n| varint::varint_length(n.into())).sum();
        let lengths: usize = lengths.map(|&n| varint::uvarint_length(n.into())).sum();
        Ok(varint::uvarint_length(self.offsets.len() as u64) + offsets + lengths)
    }

    fn put(&self, writer: &mut Writer) {
        writer.uvarint(self.offsets.len() as u64);
        for (&offset, &length) in self.offsets.iter().zip(self.lengths) {
            writer.uvarint(varint::zigzag(offset.into()));
            writer.uvarint(length.into());
        }
    }
}

/// The bytes of the number of buckets and of all of them.
fn list_size<B: Bucket>(buckets: &[B]) -> usize {
    let sizes = buckets.iter().map(|bucket| bucket.size());
    varint::uvarint_length(buckets.len() as u64) + sizes.sum::<usize>()
}

fn put_list<B: Bucket>(buckets: &[B], writer: &mut Writer) {
    writer.uvarint(buckets.len() as u64);
    for bucket in buckets {
        bucket.put(writer);
    }
}

// ---- Reading ----

/// The histogram at a place; `None` is a plain end. Refusals in order: 21, 20, 26, 2, then the
/// fault.
pub fn histogram_at(body: &[u8], place: usize) -> Result<Option<Histogram>, Refusal> {
    let kind = histogram_kind(body)?;
    let cursor = Cursor::at_entry(body, place)?;
    if cursor.rest.is_empty() {
        return Ok(None);
    }
    let (histogram, _) = read(kind, cursor)?;
    Ok(Some(histogram))
}

/// The span at a place: its offset, its length and the place after it. Refusals in order: 21, 20,
/// 26, 2, then the fault.
pub fn span_at(body: &[u8], place: usize) -> Result<(i32, u32, usize), Refusal> {
    histogram_kind(body)?;
    let mut cursor = Cursor::at(body, place)?;
    let (offset, length) = cursor.span()?;
    Ok((offset, length, cursor.place()))
}

/// The bucket at a place, signed or the bits of a float as the body's type has it, and the place
/// after it. Refusals in order: 21, 20, 26, 2, then the fault.
pub fn bucket_at(body: &[u8], place: usize) -> Result<(u64, usize), Refusal> {
    let kind = histogram_kind(body)?;
    let mut cursor = Cursor::at(body, place)?;
    let bucket = match kind {
        HISTOGRAMS => i64::read(&mut cursor)?,
        _ => u64::read(&mut cursor)?,
    };
    Ok((bucket, cursor.place()))
}

/// The type of a body of histograms. Refusals in order: 21, 20, 26.
fn histogram_kind(body: &[u8]) -> Result<u8, Refusal> {
    match kind_of(body)? {
        kind if has_histograms(kind) => Ok(kind),
        _ => refuse(WRONG_KIND, 0),
    }
}

/// Hands on each histogram in order, up to the first fault; the body's type is the one of these
/// buckets. Refusals as for `check`. Inlined, so that each caller makes only what it uses.
#[inline(always)]
pub(crate) fn walk<B: Bucket>(
    body: &[u8],
    mut each: impl FnMut(&Histogram),
) -> Result<(), Refusal> {
    let mut cursor = Cursor::at_entry(body, 1)?;
    while !cursor.rest.is_empty() {
        let (histogram, rest) = read_as::<B>(body[0], cursor)?;
        each(&histogram);
        cursor.rest = rest;
    }
    Ok(())
}

/// The histogram at the cursor, and the bytes after it.
#[inline(never)]
pub(crate) fn read<'a>(kind: u8, cursor: Cursor<'a>) -> Result<(Histogram, &'a [u8]), Refusal> {
    match kind {
        HISTOGRAMS => read_as::<i64>(kind, cursor),
        _ => read_as::<u64>(kind, cursor),
    }
}

/// The fields are read as they are written here: in the order of document 003.
#[inline(always)]
fn read_as<B: Bucket>(kind: u8, mut cursor: Cursor<'_>) -> Result<(Histogram, &'_ [u8]), Refusal> {
    let (id, time) = cursor.row(First::of(cursor.body))?;
    let histogram = Histogram {
        kind,
        id,
        time,
        hint: cursor.byte()?,
        schema: cursor.varint32()?,
        zero_threshold: cursor.eight()?,
        zero_count: B::read_count(&mut cursor)?,
        count: B::read_count(&mut cursor)?,
        sum: cursor.eight()?,
        positive_spans: cursor.list(Cursor::pass_spans)?,
        negative_spans: cursor.list(Cursor::pass_spans)?,
        positive_buckets: cursor.list(B::pass)?,
        negative_buckets: cursor.list(B::pass)?,
        after: cursor.place(),
    };
    Ok((histogram, cursor.rest))
}

impl Cursor<'_> {
    /// A list: its number, then so many elements, which are passed. A number that no body holds is
    /// found out by the first element that is not there.
    #[inline(always)]
    fn list(
        &mut self,
        pass: impl FnOnce(&mut Self, u64) -> Result<(), Refusal>,
    ) -> Result<List, Refusal> {
        let count = self.uvarint()?;
        let first = self.place();
        pass(self, count)?;
        Ok(List { count, first })
    }

    fn pass_spans(&mut self, spans: u64) -> Result<(), Refusal> {
        for _ in 0..spans {
            self.span()?;
        }
        Ok(())
    }

    /// Its offset and its length are two fields.
    fn span(&mut self) -> Result<(i32, u32), Refusal> {
        Ok((self.varint32()?, self.uvarint32()?))
    }

    /// A varint that has to fit 32 signed bits.
    fn varint32(&mut self) -> Result<i32, Refusal> {
        let field = self.place();
        let number = i32::try_from(self.varint()?);
        number.or_else(|_| refuse(BAD_RANGE, field))
    }

    /// A uvarint that has to fit 32 bits.
    fn uvarint32(&mut self) -> Result<u32, Refusal> {
        let field = self.place();
        let number = u32::try_from(self.uvarint()?);
        number.or_else(|_| refuse(BAD_RANGE, field))
    }
}

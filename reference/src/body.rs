//! The seven record bodies (FORMAT 8 to 11 and document 02 [7]), built and read. What types 7 and 8
//! have of their own stands in `histogram.rs`.

use crate::histogram::{self, NewHistogram};
use crate::refusal::*;
use crate::varint::{self, Fault};
use std::mem::take;

/// The longest body that is built.
pub const BODY_MAX: usize = 65_536;

pub const SERIES: u8 = 1;
pub const SAMPLES: u8 = 2;
pub const TOMBSTONES: u8 = 3;
pub const EXEMPLARS: u8 = 4;
pub const METADATA: u8 = 6;
pub const HISTOGRAMS: u8 = 7;
pub const FLOAT_HISTOGRAMS: u8 = 8;

/// Where the rows of types 2, 4, 7 and 8 begin: after the type, the first id and the first
/// timestamp.
const ROWS: usize = 17;

#[derive(Clone, Copy, Debug, Default, PartialEq, Eq)]
pub struct SeriesId(pub u64);

#[derive(Clone, Copy, Debug, Default, PartialEq, Eq)]
pub struct Timestamp(pub i64);

fn is_known(kind: u8) -> bool {
    matches!(kind, SERIES..=EXEMPLARS | METADATA..=FLOAT_HISTOGRAMS)
}

/// Types 2, 4, 7 and 8 open with a first id and a first timestamp.
fn has_rows(kind: u8) -> bool {
    matches!(kind, SAMPLES | EXEMPLARS | HISTOGRAMS | FLOAT_HISTOGRAMS)
}

pub(crate) fn has_histograms(kind: u8) -> bool {
    kind == HISTOGRAMS || kind == FLOAT_HISTOGRAMS
}

/// The first id and the first timestamp, which deltas are counted from modulo 2^64.
#[derive(Clone, Copy)]
pub(crate) struct First {
    id: SeriesId,
    time: Timestamp,
}

impl First {
    /// Those in bytes 1 to 16.
    pub(crate) fn of(body: &[u8]) -> First {
        let (id, time) = body[1..ROWS].split_at(8);
        let eight = |bytes: &[u8]| bytes.try_into().expect("eight bytes");
        First {
            id: SeriesId(u64::from_be_bytes(eight(id))),
            time: Timestamp(i64::from_be_bytes(eight(time))),
        }
    }

    /// Document 02 [1]: deltas are signed varints. Here as they are coded: the difference modulo
    /// 2^64, read as two's complement, in zigzag form.
    fn deltas_to(self, id: SeriesId, time: Timestamp) -> (u64, u64) {
        let id_delta = id.0.wrapping_sub(self.id.0) as i64;
        let time_delta = time.0.wrapping_sub(self.time.0);
        (varint::zigzag(id_delta), varint::zigzag(time_delta))
    }

    /// Adding back modulo 2^64 undoes every such difference.
    fn plus(self, id_delta: i64, time_delta: i64) -> (SeriesId, Timestamp) {
        let id = SeriesId(self.id.0.wrapping_add_signed(id_delta));
        let time = Timestamp(self.time.0.wrapping_add(time_delta));
        (id, time)
    }
}

// ---- Building ----

/// A body being built: its type and the bytes used.
#[derive(Clone, Copy, Debug, PartialEq, Eq)]
pub struct State {
    pub kind: u8,
    pub used: usize,
}

/// Strings as the caller gives them: their lengths, and all their bytes in one slice.
#[derive(Clone, Copy, Debug)]
pub struct Strings<'a> {
    pub text: &'a [u8],
    pub lengths: &'a [u64],
}

/// An entry to be added.
#[derive(Clone, Copy, Debug)]
pub enum NewEntry<'a> {
    Series(SeriesId, Strings<'a>),
    Sample(Sample),
    Tombstone(SeriesId, Timestamp, Timestamp),
    Exemplar(Sample, Strings<'a>),
    /// With the metric type.
    Metadata(SeriesId, u8, Strings<'a>),
    Histogram(&'a NewHistogram<'a, i64>),
    FloatHistogram(&'a NewHistogram<'a, u64>),
}

/// A sample; the value's 64 bits are carried unread.
#[derive(Clone, Copy, Debug, Default, PartialEq, Eq)]
pub struct Sample {
    pub id: SeriesId,
    pub time: Timestamp,
    pub bits: u64,
}

/// Starts a body: its type byte. Refusals in order: 20, 11.
pub fn start(buffer: &mut [u8], kind: u8) -> Result<State, Refusal> {
    if !is_known(kind) {
        return refuse(UNKNOWN_TYPE, 0);
    }
    let Some(first) = buffer.first_mut() else {
        return refuse(NO_ROOM, 0);
    };
    *first = kind;
    Ok(State { kind, used: 1 })
}

/// Adds an entry, written straight into the buffer once its size is known to fit. Refusals in
/// order: 2, 26, 25, 9, 11.
pub fn add(buffer: &mut [u8], state: State, entry: &NewEntry) -> Result<State, Refusal> {
    let State { kind, used } = state;
    check_state(buffer, state)?;
    if kind != entry.kind() {
        return refuse(WRONG_KIND, 0);
    }
    let (body, room) = buffer.split_at_mut(used);
    let size = match entry {
        NewEntry::Series(id, strings) => {
            let size = 8 + strings.size()?;
            let mut writer = Writer::new(room, used, size)?;
            writer.eight(id.0);
            writer.strings(strings);
            size
        }
        NewEntry::Sample(sample) => {
            let row = Row::new(sample.id, sample.time, body);
            let size = row.size() + 8;
            let mut writer = Writer::new(room, used, size)?;
            writer.row(&row);
            writer.eight(sample.bits);
            size
        }
        NewEntry::Tombstone(id, min, max) => {
            let (min, max) = (varint::zigzag(min.0), varint::zigzag(max.0));
            let size = 8 + varint::uvarint_length(min) + varint::uvarint_length(max);
            let mut writer = Writer::new(room, used, size)?;
            writer.eight(id.0);
            writer.uvarint(min);
            writer.uvarint(max);
            size
        }
        NewEntry::Exemplar(sample, strings) => {
            let row = Row::new(sample.id, sample.time, body);
            let size = row.size() + 8 + strings.size()?;
            let mut writer = Writer::new(room, used, size)?;
            writer.row(&row);
            writer.eight(sample.bits);
            writer.strings(strings);
            size
        }
        NewEntry::Metadata(id, metric_type, strings) => {
            let size = varint::uvarint_length(id.0) + 1 + strings.size()?;
            let mut writer = Writer::new(room, used, size)?;
            writer.uvarint(id.0);
            writer.bytes(&[*metric_type]);
            writer.strings(strings);
            size
        }
        NewEntry::Histogram(new) => histogram::add(new, body, room)?,
        NewEntry::FloatHistogram(new) => histogram::add(new, body, room)?,
    };
    let used = used + size;
    Ok(State { kind, used })
}

/// BadPlace (FORMAT 10.5): the bytes used are 0, more than the buffer has, or 2 to 16 for types 2,
/// 4, 7 and 8, or the buffer's first byte is not the type.
fn check_state(buffer: &[u8], state: State) -> Result<(), Refusal> {
    let State { kind, used } = state;
    let inside_first = has_rows(kind) && (2..ROWS).contains(&used);
    if used == 0 || used > buffer.len() || inside_first || buffer[0] != kind {
        return refuse(BAD_PLACE, 0);
    }
    Ok(())
}

impl NewEntry<'_> {
    fn kind(&self) -> u8 {
        match self {
            NewEntry::Series(..) => SERIES,
            NewEntry::Sample(..) => SAMPLES,
            NewEntry::Tombstone(..) => TOMBSTONES,
            NewEntry::Exemplar(..) => EXEMPLARS,
            NewEntry::Metadata(..) => METADATA,
            NewEntry::Histogram(..) => HISTOGRAMS,
            NewEntry::FloatHistogram(..) => FLOAT_HISTOGRAMS,
        }
    }
}

impl Strings<'_> {
    /// The bytes that the number of pairs and the strings with their lengths take. Refusal: 25, if
    /// their number is odd or their lengths do not add up to the slice.
    fn size(&self) -> Result<usize, Refusal> {
        let mut size = varint::uvarint_length(self.pairs());
        let mut sum = 0u128;
        for &length in self.lengths {
            size += varint::uvarint_length(length);
            sum += u128::from(length);
        }
        if !self.lengths.len().is_multiple_of(2) || sum != self.text.len() as u128 {
            return refuse(BAD_LIST, 0);
        }
        Ok(size + self.text.len())
    }

    fn pairs(&self) -> u64 {
        self.lengths.len() as u64 / 2
    }
}

/// How a row begins, its deltas coded. What follows is up to its type.
pub(crate) struct Row {
    /// Written before it if the body has none yet.
    first: Option<First>,
    id_delta: u64,
    time_delta: u64,
}

impl Row {
    pub(crate) fn new(id: SeriesId, time: Timestamp, body: &[u8]) -> Row {
        let (first, (id_delta, time_delta)) = match body.len() {
            1 => (Some(First { id, time }), (0, 0)),
            _ => (None, First::of(body).deltas_to(id, time)),
        };
        Row {
            first,
            id_delta,
            time_delta,
        }
    }

    pub(crate) fn size(&self) -> usize {
        let first = if self.first.is_some() { 16 } else { 0 };
        let id_delta = varint::uvarint_length(self.id_delta);
        let time_delta = varint::uvarint_length(self.time_delta);
        first + id_delta + time_delta
    }
}

/// Writes one field after the other; it holds the room left. What a row needs is inlined, so that
/// this stays in registers.
pub(crate) struct Writer<'a>(&'a mut [u8]);

impl<'a> Writer<'a> {
    /// Over the first bytes of the room after those used. Refusals in order: 9, 11.
    pub(crate) fn new(room: &'a mut [u8], used: usize, size: usize) -> Result<Self, Refusal> {
        if used + size > BODY_MAX {
            return refuse(TOO_LONG, used);
        }
        match room.get_mut(..size) {
            Some(room) => Ok(Writer(room)),
            None => refuse(NO_ROOM, used),
        }
    }

    pub(crate) fn bytes(&mut self, bytes: &[u8]) {
        let (front, left) = take(&mut self.0).split_at_mut(bytes.len());
        front.copy_from_slice(bytes);
        self.0 = left;
    }

    pub(crate) fn eight(&mut self, number: u64) {
        self.bytes(&number.to_be_bytes());
    }

    #[inline(always)]
    pub(crate) fn uvarint(&mut self, number: u64) {
        let length = varint::put_uvarint(number, self.0);
        self.0 = &mut take(&mut self.0)[length..];
    }

    /// The number of pairs, then each string with its length.
    fn strings(&mut self, strings: &Strings) {
        self.uvarint(strings.pairs());
        let mut rest = strings.text;
        for &length in strings.lengths {
            let (string, later) = rest.split_at(length as usize);
            self.uvarint(length);
            self.bytes(string);
            rest = later;
        }
    }

    #[inline(always)]
    pub(crate) fn row(&mut self, row: &Row) {
        if let Some(first) = row.first {
            self.eight(first.id.0);
            self.eight(first.time.0 as u64);
        }
        self.uvarint(row.id_delta);
        self.uvarint(row.time_delta);
    }
}

// ---- Reading ----

/// An entry as it is read; what its type lacks is 0.
#[derive(Clone, Copy, Debug, Default, PartialEq, Eq)]
pub struct Entry {
    pub kind: u8,
    pub id: SeriesId,
    /// The time of a row, or a tombstone's min time.
    pub time: Timestamp,
    /// A tombstone's max time.
    pub max: Timestamp,
    /// The value of a row; of a histogram, its sum.
    pub bits: u64,
    pub metric_type: u8,
    pub string_count: u64,
    /// Where its strings begin; the place after it if it has none.
    pub strings: usize,
    /// The place after it.
    pub after: usize,
}

/// The number of entries. Refusals in order: 21, 20, then the first fault from the left.
pub fn check(body: &[u8]) -> Result<usize, Refusal> {
    let mut count = 0;
    match body.first() {
        // The types with many rows have a walk of their own.
        Some(&SAMPLES) => walk_samples(body, |_| count += 1)?,
        Some(&HISTOGRAMS) => histogram::walk::<i64>(body, |_| count += 1)?,
        Some(&FLOAT_HISTOGRAMS) => histogram::walk::<u64>(body, |_| count += 1)?,
        _ => walk(body, |_| count += 1)?,
    }
    Ok(count)
}

/// Hands on each entry in order, up to the first fault. Refusals as for `check`. Inlined, so that
/// each caller makes only what it uses of an entry.
#[inline(always)]
pub(crate) fn walk(body: &[u8], mut each: impl FnMut(&Entry)) -> Result<(), Refusal> {
    let mut cursor = Cursor::at_entry(body, 1)?;
    while !cursor.rest.is_empty() {
        each(&cursor.entry()?);
    }
    Ok(())
}

/// As `walk`, for a body whose type byte says samples: the type is not asked again for each row.
#[inline(always)]
pub(crate) fn walk_samples(body: &[u8], mut each: impl FnMut(Sample)) -> Result<(), Refusal> {
    let mut cursor = Cursor::at_entry(body, 1)?;
    if cursor.rest.is_empty() {
        return Ok(());
    }
    let first = First::of(body);
    while !cursor.rest.is_empty() {
        each(cursor.sample(first)?);
    }
    Ok(())
}

/// The entry at a place; `None` is a plain end. Refusals in order: 21, 20, 2, then the fault.
pub fn entry_at(body: &[u8], place: usize) -> Result<Option<Entry>, Refusal> {
    let mut cursor = Cursor::at_entry(body, place)?;
    if cursor.rest.is_empty() {
        return Ok(None);
    }
    cursor.entry().map(Some)
}

/// The start and the length of the string at a place. Refusals in order: 21, 20, 2, then the fault.
pub fn string_at(body: &[u8], place: usize) -> Result<(usize, usize), Refusal> {
    let mut cursor = Cursor::at(body, place)?;
    let string = cursor.string()?;
    Ok((cursor.place() - string.len(), string.len()))
}

/// Fills the first entries of the list from a samples body and answers their number. The body is
/// walked twice, since a refusal changes no entry of the list. Refusals in order: 21, 20, 26, the
/// first fault from the left, 24.
pub fn fill_samples(body: &[u8], list: &mut [Sample]) -> Result<usize, Refusal> {
    if kind_of(body)? != SAMPLES {
        return refuse(WRONG_KIND, 0);
    }
    let count = check(body)?;
    let Some(filled) = list.get_mut(..count) else {
        return refuse(LIST_FULL, 0);
    };
    let mut cursor = Cursor::at_entry(body, 1)?;
    for sample in filled {
        let Entry { id, time, bits, .. } = cursor.entry()?;
        *sample = Sample { id, time, bits };
    }
    Ok(count)
}

/// The body's type. Refusals in order: 21, 20.
pub(crate) fn kind_of(body: &[u8]) -> Result<u8, Refusal> {
    match body.first() {
        None => refuse(EMPTY_BODY, 0),
        Some(&kind) if is_known(kind) => Ok(kind),
        Some(_) => refuse(UNKNOWN_TYPE, 0),
    }
}

/// Reads one field after the other; a fault is reported at the field's first byte.
#[derive(Clone, Copy)]
pub(crate) struct Cursor<'a> {
    pub(crate) body: &'a [u8],
    kind: u8,
    /// The bytes that are not read yet.
    pub(crate) rest: &'a [u8],
}

impl<'a> Cursor<'a> {
    /// At a place of the body. Refusals in order: 21, 20, 2.
    pub(crate) fn at(body: &'a [u8], place: usize) -> Result<Self, Refusal> {
        let kind = kind_of(body)?;
        match body.get(place..) {
            Some(rest) if place > 0 => Ok(Cursor { body, kind, rest }),
            _ => refuse(BAD_PLACE, 0),
        }
    }

    /// At a place where an entry may begin; place 1 of types 2, 4, 7 and 8 is before the first id
    /// and the first timestamp, which are passed. Refusals in order: 21, 20, 2, then the fault.
    pub(crate) fn at_entry(body: &'a [u8], place: usize) -> Result<Self, Refusal> {
        let mut cursor = Cursor::at(body, place)?;
        if has_rows(cursor.kind) && place < ROWS {
            if place > 1 {
                return refuse(BAD_PLACE, 0);
            }
            if body.len() > 1 {
                cursor.eight()?;
                cursor.eight()?;
            }
        }
        Ok(cursor)
    }

    pub(crate) fn place(&self) -> usize {
        self.body.len() - self.rest.len()
    }

    pub(crate) fn byte(&mut self) -> Result<u8, Refusal> {
        let Some((&byte, rest)) = self.rest.split_first() else {
            return refuse(SHORT, self.place());
        };
        self.rest = rest;
        Ok(byte)
    }

    pub(crate) fn eight(&mut self) -> Result<u64, Refusal> {
        let Some((&bytes, rest)) = self.rest.split_first_chunk() else {
            return refuse(SHORT, self.place());
        };
        self.rest = rest;
        Ok(u64::from_be_bytes(bytes))
    }

    /// Most numbers take one byte: that comes first.
    pub(crate) fn uvarint(&mut self) -> Result<u64, Refusal> {
        if let [byte @ ..=0x7F, rest @ ..] = self.rest {
            self.rest = rest;
            return Ok(u64::from(*byte));
        }
        match varint::read_uvarint(self.rest) {
            Ok((number, length)) => {
                self.rest = &self.rest[length..];
                Ok(number)
            }
            Err(Fault::Short) => refuse(SHORT, self.place()),
            Err(Fault::BadVarint) => refuse(BAD_VARINT, self.place()),
        }
    }

    pub(crate) fn varint(&mut self) -> Result<i64, Refusal> {
        Ok(varint::unzigzag(self.uvarint()?))
    }

    /// A string with its length is one field (FORMAT 8.4).
    fn string(&mut self) -> Result<&'a [u8], Refusal> {
        let field = self.place();
        let length = self.uvarint()?;
        if length > self.rest.len() as u64 {
            return refuse(SHORT, field);
        }
        let (string, rest) = self.rest.split_at(length as usize);
        self.rest = rest;
        Ok(string)
    }

    /// How a row begins: its id and its time.
    #[inline(always)]
    pub(crate) fn row(&mut self, first: First) -> Result<(SeriesId, Timestamp), Refusal> {
        let (id_delta, time_delta) = (self.varint()?, self.varint()?);
        Ok(first.plus(id_delta, time_delta))
    }

    #[inline(always)]
    fn sample(&mut self, first: First) -> Result<Sample, Refusal> {
        let (id, time) = self.row(first)?;
        let bits = self.eight()?;
        Ok(Sample { id, time, bits })
    }

    /// Inlined, so that each caller keeps the cursor in registers and makes only what it uses.
    #[inline(always)]
    fn entry(&mut self) -> Result<Entry, Refusal> {
        let mut entry = Entry {
            kind: self.kind,
            ..Entry::default()
        };
        match self.kind {
            SERIES => entry.id = SeriesId(self.eight()?),
            TOMBSTONES => {
                entry.id = SeriesId(self.eight()?);
                entry.time = Timestamp(self.varint()?);
                entry.max = Timestamp(self.varint()?);
            }
            METADATA => {
                entry.id = SeriesId(self.uvarint()?);
                entry.metric_type = self.byte()?;
            }
            HISTOGRAMS | FLOAT_HISTOGRAMS => {
                // By value: the cursor stays in registers for the other types.
                let (read, rest) = histogram::read(self.kind, *self)?;
                (entry.id, entry.time, entry.bits) = (read.id, read.time, read.sum);
                self.rest = rest;
            }
            _ => {
                let Sample { id, time, bits } = self.sample(First::of(self.body))?;
                (entry.id, entry.time, entry.bits) = (id, time, bits);
            }
        }
        if matches!(self.kind, SERIES | EXEMPLARS | METADATA) {
            let pairs = self.uvarint()?;
            entry.strings = self.place();
            // Counted pair by pair: 2n may not fit 64 bits, but then a string is short long before.
            for _ in 0..pairs {
                self.string()?;
                self.string()?;
            }
            entry.string_count = 2 * pairs;
        } else {
            entry.strings = self.place();
        }
        entry.after = self.place();
        Ok(entry)
    }
}

#[cfg(test)]
mod tests {
    use super::*;
    use crate::vectors::SWITCH;

    fn sample(id: u64, time: i64, bits: u64) -> Sample {
        let (id, time) = (SeriesId(id), Timestamp(time));
        Sample { id, time, bits }
    }

    fn build(buffer: &mut [u8], kind: u8, entries: &[NewEntry]) -> Result<State, Refusal> {
        let mut state = start(buffer, kind)?;
        for entry in entries {
            state = add(buffer, state, entry)?;
        }
        Ok(state)
    }

    #[test]
    fn switch() {
        let samples = [sample(7, 1000, 0), sample(8, 1000, 1f64.to_bits())];
        let mut buffer = [0xAA; 40];
        let entries = samples.map(NewEntry::Sample);
        let state = build(&mut buffer, SAMPLES, &entries).expect("it fits");
        assert_eq!(state.used, 37);
        assert_eq!(buffer[..37], SWITCH);
        assert_eq!(buffer[37..], [0xAA; 3]);
        assert_eq!(check(&SWITCH), Ok(2));
        let mut list = [Sample::default(); 3];
        assert_eq!(fill_samples(&SWITCH, &mut list), Ok(2));
        assert_eq!(list[..2], samples);
        assert_eq!(fill_samples(&SWITCH, &mut list[..1]), refuse(LIST_FULL, 0));
    }

    #[test]
    fn earlier_id() {
        let mut buffer = [0; 64];
        let entries = [sample(7, 5, 0), sample(6, 5, 0)].map(NewEntry::Sample);
        let state = build(&mut buffer, SAMPLES, &entries).expect("it fits");
        assert_eq!(buffer[27..29], [0x01, 0x00]);
        let body = &buffer[..state.used];
        let second = entry_at(body, 27).expect("good").expect("an entry");
        assert_eq!(second.id, SeriesId(6));
        assert_eq!(second.after, body.len());
    }

    #[test]
    fn deltas_wrap() {
        let ids = [0, 1, 7, 1 << 63, (1 << 63) - 1, (1 << 63) + 7, u64::MAX];
        let times = [0, 1, -1, 1 << 62, i64::MAX, i64::MIN];
        let mut samples = Vec::new();
        for id in ids {
            samples.extend(times.map(|time| sample(id, time, id ^ time as u64)));
        }
        let entries: Vec<NewEntry> = samples.iter().copied().map(NewEntry::Sample).collect();
        for first in 0..entries.len() {
            // Each of them comes first once.
            let entries = [&entries[first..], &entries[..first]].concat();
            let mut buffer = [0; 2_048];
            let state = build(&mut buffer, SAMPLES, &entries).expect("it fits");
            let mut list = vec![Sample::default(); samples.len()];
            let filled = fill_samples(&buffer[..state.used], &mut list);
            assert_eq!(filled, Ok(samples.len()));
            assert_eq!(list, [&samples[first..], &samples[..first]].concat());
        }
    }

    #[test]
    fn the_largest_deltas_take_ten_bytes() {
        let mut buffer = [0; 64];
        let entries = [sample(7, 5, 0), sample(7 + (1 << 63), 5, 0)].map(NewEntry::Sample);
        let state = build(&mut buffer, SAMPLES, &entries).expect("it fits");
        assert_eq!(state.used, 27 + 10 + 1 + 8);
        assert_eq!(buffer[27..36], [0xFF; 9]);
        assert_eq!(buffer[36], 0x01);
    }

    #[test]
    fn first_id_and_time() {
        let body = [2; 17];
        for (length, answer) in [
            (1, Ok(0)),
            (2, refuse(SHORT, 1)),
            (8, refuse(SHORT, 1)),
            (9, refuse(SHORT, 9)),
            (16, refuse(SHORT, 9)),
            (17, Ok(0)),
        ] {
            assert_eq!(check(&body[..length]), answer);
        }
        assert_eq!(entry_at(&body[..8], 8), refuse(BAD_PLACE, 0));
        assert_eq!(entry_at(&body[..1], 1), Ok(None));
        assert_eq!(entry_at(&body, 17), Ok(None));
        assert_eq!(entry_at(&body, 1), Ok(None));
        assert_eq!(entry_at(&body, 18), refuse(BAD_PLACE, 0));
    }

    #[test]
    fn label_count_of_2_to_63() {
        let mut body = vec![SERIES; 9];
        varint::write_uvarint(1 << 63, &mut body);
        assert_eq!(check(&body), refuse(SHORT, 19));
        body.extend([0; 4]);
        assert_eq!(check(&body), refuse(SHORT, 23));
    }

    #[test]
    fn series_and_strings() {
        let text = b"jobdepot";
        let strings = Strings {
            text,
            lengths: &[3, 5],
        };
        let mut buffer = [0; 32];
        let entry = NewEntry::Series(SeriesId(9), strings);
        let state = build(&mut buffer, SERIES, &[entry]).expect("it fits");
        let body = &buffer[..state.used];
        let read = entry_at(body, 1).expect("good").expect("an entry");
        assert_eq!((read.string_count, read.strings, read.after), (2, 10, 20));
        assert_eq!(string_at(body, 10), Ok((11, 3)));
        assert_eq!(string_at(body, 14), Ok((15, 5)));
        assert_eq!(string_at(body, 20), refuse(SHORT, 20));
        assert_eq!(string_at(body, 21), refuse(BAD_PLACE, 0));
        assert_eq!(string_at(body, 0), refuse(BAD_PLACE, 0));
    }

    #[test]
    fn lists_that_do_not_add_up() {
        let mut buffer = [0; 64];
        let state = start(&mut buffer, SERIES).expect("it fits");
        for lengths in [&[3][..], &[3, 4], &[u64::MAX, 9], &[1 << 63, 1 << 63]] {
            let text = b"jobdepot";
            let entry = NewEntry::Series(SeriesId(9), Strings { text, lengths });
            assert_eq!(add(&mut buffer, state, &entry), refuse(BAD_LIST, 0));
        }
    }

    #[test]
    fn tombstones_and_metadata() {
        let mut buffer = [0; 64];
        let (min, max) = (Timestamp(i64::MIN), Timestamp(i64::MAX));
        let entry = NewEntry::Tombstone(SeriesId(3), min, max);
        let state = build(&mut buffer, TOMBSTONES, &[entry]).expect("it fits");
        assert_eq!(state.used, 29);
        let read = entry_at(&buffer[..29], 1).expect("good").expect("an entry");
        assert_eq!((read.time, read.max, read.strings), (min, max, 29));
        let text = b"";
        let lengths = &[0, 0];
        let entry = NewEntry::Metadata(SeriesId(300), 7, Strings { text, lengths });
        build(&mut buffer, METADATA, &[entry]).expect("it fits");
        assert_eq!(buffer[..7], [6, 0xAC, 0x02, 7, 1, 0, 0]);
        assert_eq!(check(&buffer[..7]), Ok(1));
        assert_eq!(check(&buffer[..3]), refuse(SHORT, 3));
    }

    #[test]
    fn states() {
        let mut buffer = [SAMPLES; 64];
        let entry = NewEntry::Sample(sample(1, 2, 3));
        for (kind, used, number) in [
            (SAMPLES, 0, BAD_PLACE),
            (SAMPLES, 2, BAD_PLACE),
            (SAMPLES, 16, BAD_PLACE),
            (SAMPLES, 65, BAD_PLACE),
            (SERIES, 1, BAD_PLACE),
        ] {
            let state = State { kind, used };
            assert_eq!(add(&mut buffer, state, &entry), refuse(number, 0));
        }
        buffer[0] = SERIES;
        let state = State {
            kind: SERIES,
            used: 1,
        };
        assert_eq!(add(&mut buffer, state, &entry), refuse(WRONG_KIND, 0));
        assert_eq!(start(&mut [], 5), refuse(UNKNOWN_TYPE, 0));
        assert_eq!(start(&mut [], 2), refuse(NO_ROOM, 0));
    }

    #[test]
    fn too_long_before_no_room() {
        let mut buffer = vec![SAMPLES; 70_000];
        let entry = NewEntry::Sample(sample(1, 2, 3));
        let kind = SAMPLES;
        let add_at = |buffer: &mut [u8], used| add(buffer, State { kind, used }, &entry);
        assert_eq!(add_at(&mut buffer, 69_000), refuse(TOO_LONG, 69_000));
        assert_eq!(
            add_at(&mut buffer[..65_536], 65_530),
            refuse(TOO_LONG, 65_530)
        );
        assert_eq!(add_at(&mut buffer[..40], 35), refuse(NO_ROOM, 35));
    }
}

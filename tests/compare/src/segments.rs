//! Writing and reading of segments against the second program: answer, `out`, the good length,
//! every byte of the slice and of the buffer.

mod pairs;
mod sizes;
mod zeros;

use crate::checksums::{fill_with_noise, own_table};
use crate::ffi::{self, Answer, Table, END};
use crate::generate::{
    self, any_buffer, any_cut, any_sample, any_version, some_fragments, tail_end, Fragment, Sample,
    Splitting,
};
use crate::rng::Rng;
use crate::twin::Twin;
use crate::{Group, Outcome};
use reference::refusal::Refusal;
use reference::segment::{self, Good, Reading, HEADER, PAGE, RECORD_MAX, SEGMENT_MAX};
use reference::version::Version;

pub fn groups() -> Vec<Group> {
    vec![
        ("write, places and lengths", compare_writes),
        ("write, lists of calls", compare_write_lists),
        ("write, bad slices", compare_bad_slices),
        ("write, at the limit", compare_write_limit),
        ("pages for a list, numbers", sizes::compare_numbers),
        ("pages for a list, one record", sizes::compare_one_record),
        ("pages for a list, written", sizes::compare_lists),
        ("read, written segments", compare_written),
        ("read, cuts", compare_cuts),
        ("read, damage", compare_damage),
        ("read, tails of zeros", compare_tails),
        ("read, zeros after a cut", zeros::compare_cuts),
        ("read, zeros after a type byte", zeros::compare_type_bytes),
        ("read, foreign splittings", compare_foreign),
        ("read, foreign long records", compare_foreign_long),
        ("read, random bytes", compare_noise),
        ("read, bad lengths and places", compare_bad_lengths),
        ("read, any good length", pairs::compare_pairs),
        ("read, at the limit", compare_read_limit),
        ("strange tables", compare_strange_tables),
    ]
}

/// Pages of the longest slice, the limit's cases aside.
const PAGES: usize = generate::PAGES_MAX;

/// The caller-owned bytes, used again from case to case.
struct Bench {
    segment: Twin,
    /// What it is written and read as.
    version: Version,
    buffer: Twin,
    /// Noise to take the records from.
    records: Twin,
    table: Box<Table>,
    /// Decides between the plain call and the one with a caller's table.
    coin: Rng,
    cases: u64,
}

impl Bench {
    fn new(rng: &mut Rng) -> Bench {
        let segment = Twin::new(rng, PAGES * PAGE);
        Bench::with_segment(rng, segment)
    }

    fn with_segment(rng: &mut Rng, segment: Twin) -> Bench {
        let buffer = Twin::new(rng, RECORD_MAX + 64);
        let records = Twin::new(rng, RECORD_MAX + 6_000);
        let table = own_table();
        let coin = Rng::new(rng.number());
        let cases = 0;
        Bench {
            segment,
            version: Version::One,
            buffer,
            records,
            table,
            coin,
            cases,
        }
    }

    /// Puts a sample into the segment, at any alignment; it is read as the version that it has.
    fn put(&mut self, rng: &mut Rng, sample: &Sample) {
        self.segment.shift(rng);
        self.buffer.shift(rng);
        self.segment.put(&sample.bytes);
        self.version = sample.version;
        if rng.once_in(8) {
            self.buffer.refill(rng);
        }
    }

    /// Reads the first `length` bytes of the segment at a place, with a caller's table or without,
    /// and with any pair that is good there.
    fn read(&mut self, length: usize, place: usize) -> Result<Answer<5>, String> {
        self.read_into(length, place, RECORD_MAX)
    }

    fn read_into(
        &mut self,
        length: usize,
        place: usize,
        buffer: usize,
    ) -> Result<Answer<5>, String> {
        let good = pairs::good_pair(&mut self.coin, place);
        self.read_given(length, place, buffer, good)
    }

    fn read_given(
        &mut self,
        length: usize,
        place: usize,
        buffer: usize,
        given: Good,
    ) -> Result<Answer<5>, String> {
        let lent = self.coin.once_in(2);
        self.cases += 1;
        let pair = [given.records, given.offset as u64];
        let mut good = given;
        let version = self.version.number() as u32;
        let (ours, theirs) = self.segment.both(0..length);
        let (our_buffer, their_buffer) = self.buffer.both(0..buffer);
        let got = if lent {
            ffi::read_with_table(&self.table, version, ours, place, our_buffer, pair)
        } else {
            ffi::read(version, ours, place, our_buffer, pair)
        };
        let wanted = segment::read(self.version, theirs, place, their_buffer, &mut good);
        let wanted = read_answer(wanted, good);
        let what = || {
            let what = format!("read at {place} of {length} bytes into {buffer}, table {lent}");
            format!("version {version}, {what}, pair {given:?}")
        };
        self.compare((length, place), got, wanted, what)?;
        Ok(wanted)
    }

    /// Writes a record of `size` bytes into the first `length` bytes of the segment, likewise.
    fn write(&mut self, length: usize, place: usize, size: usize) -> Result<Answer<2>, String> {
        let lent = self.coin.once_in(2);
        self.cases += 1;
        let start = self.cases as usize % 64;
        let version = self.version.number() as u32;
        let (our_record, their_record) = self.records.both(start..start + size);
        let (ours, theirs) = self.segment.both(0..length);
        let got = if lent {
            ffi::write_with_table(&self.table, version, ours, place, our_record)
        } else {
            ffi::write(version, ours, place, our_record)
        };
        let wanted = segment::write(self.version, theirs, place, their_record);
        let wanted = write_answer(place, wanted);
        let what = || {
            let what = format!("write of {size} at {place} of {length} bytes, table {lent}");
            format!("version {version}, {what}")
        };
        self.compare((length, place), got, wanted, what)?;
        Ok(wanted)
    }

    /// The answer, then every caller-owned byte and the guards around them. Of segments at the
    /// limit the bytes are compared at the group's end.
    fn compare<const N: usize>(
        &self,
        (length, place): (usize, usize),
        got: Answer<N>,
        wanted: Answer<N>,
        what: impl Fn() -> String,
    ) -> Result<(), String> {
        if got != wanted {
            let from = place.min(length);
            let bytes = self.segment.bytes(from..length.min(from + 48));
            return Err(format!(
                "{}: got {got:?}, wanted {wanted:?}; the bytes there are {bytes:02X?}",
                what()
            ));
        }
        if length <= PAGES * PAGE && !self.segment.equal_to(length) {
            let place = self.segment.first_difference();
            return Err(format!("{}: segment differs at {place:?}", what()));
        }
        for (name, twin) in [("buffer", &self.buffer), ("record", &self.records)] {
            if !twin.equal_to(usize::MAX) {
                let place = twin.first_difference();
                return Err(format!("{}: {name} differs at {place:?}", what()));
            }
        }
        Ok(())
    }

    /// Reads records from a place on until none comes, each with the pair last handed back.
    fn read_on(&mut self, length: usize, start: usize) -> Result<(), String> {
        self.read_ends(length, start).map(drop)
    }

    /// The same, and hands back the places after the records. The pair counts them, and has the
    /// last of them.
    fn read_ends(&mut self, length: usize, start: usize) -> Result<Vec<usize>, String> {
        let mut ends = Vec::new();
        let mut good = Good::default();
        loop {
            let place = *ends.last().unwrap_or(&start);
            let answer = self.read_given(length, place, RECORD_MAX, good)?;
            if answer.number == 0 {
                ends.push(answer.out[2] as usize);
            }
            good = Good {
                records: answer.out[3],
                offset: answer.out[4] as usize,
            };
            let last = ends.last().copied().unwrap_or(0);
            if good.records != ends.len() as u64 || good.offset != last {
                return Err(format!(
                    "{length} bytes from {start}: {good:?} for {ends:?}"
                ));
            }
            if answer.number != 0 {
                return Ok(ends);
            }
        }
    }
}

/// What `depot_wal_read` has to answer, and then the pair.
fn read_answer(reading: Result<Reading, Refusal>, good: Good) -> Answer<5> {
    let (number, [first, length, after]) = match reading {
        Ok(Reading::Record(record)) => (0, [record.start, record.length, record.after]),
        Ok(Reading::End) => (END, [0; 3]),
        Err(refusal) => (refusal.number, [refusal.place, 0, 0]),
    };
    let pair = [good.records, good.offset as u64];
    let out = [first as u64, length as u64, after as u64, pair[0], pair[1]];
    Answer::new(number, out)
}

/// What `depot_wal_write` has to answer: after a refusal the place given comes first.
fn write_answer(place: usize, written: Result<usize, Refusal>) -> Answer<2> {
    match written {
        Ok(next) => Answer::new(0, [next as u64, 0]),
        Err(refusal) => Answer::new(refusal.number, [place as u64, refusal.place as u64]),
    }
}

// ---- Writing ----

/// Places near the pages' edges, anywhere, and past the end.
fn any_place(rng: &mut Rng, length: usize) -> usize {
    match rng.below(16) {
        0..=9 => (rng.below(length / PAGE + 2) * PAGE + 24).saturating_sub(rng.below(64)),
        10..=13 => rng.below(length + 1),
        14 => length + rng.below(20),
        _ => rng.pick(&[
            usize::MAX,
            usize::MAX - 1,
            usize::MAX - 6,
            usize::MAX - 32_767,
            usize::MAX / 2,
            usize::MAX / 2 + 1,
            1 << 32,
            (1 << 32) + 7,
        ]),
    }
}

/// Lengths near what fits from a place, near the limits, and short ones.
fn any_length(rng: &mut Rng, length: usize, place: usize) -> usize {
    let left = segment::left_in_page(place);
    let pages_after = length.saturating_sub(place.saturating_add(left)) / PAGE;
    let room = left.saturating_sub(HEADER) + pages_after * (PAGE - HEADER);
    match rng.below(16) {
        0..=5 => rng.below(64),
        6 => rng.below(2_000),
        7 | 8 => (left + 8).saturating_sub(rng.below(24)),
        9 | 10 => (room + 4).saturating_sub(rng.below(8)).min(RECORD_MAX + 8),
        11 => RECORD_MAX + 3 - rng.below(6),
        12 => RECORD_MAX + rng.below(5_000),
        _ => rng.below(4),
    }
}

/// Single writes into slices of 1 to 3 pages that hold anything.
fn compare_writes(rng: &mut Rng) -> Outcome {
    let mut bench = Bench::new(rng);
    for _ in 0..120_000 {
        bench.version = any_version(rng);
        let length = PAGE * (1 + rng.below(3));
        let place = any_place(rng, length);
        let size = any_length(rng, length, place);
        bench.write(length, place, size)?;
        if rng.once_in(500) {
            bench.segment.refill(rng);
            bench.segment.shift(rng);
        }
    }
    Ok(bench.cases)
}

/// Lists of writes from place 0, refused ones among them, each at the place that `out` names; then
/// what was written is read back.
fn compare_write_lists(rng: &mut Rng) -> Outcome {
    let mut bench = Bench::new(rng);
    for _ in 0..200 {
        bench.segment.refill(rng);
        bench.segment.shift(rng);
        bench.version = any_version(rng);
        let length = PAGE * (1 + rng.below(PAGES));
        let place = write_list(rng, &mut bench, length)?;
        bench.read_on(place, 0)?;
        bench.read_on(length, 0)?;
    }
    Ok(bench.cases)
}

/// Writes a list and hands back the final place.
fn write_list(rng: &mut Rng, bench: &mut Bench, length: usize) -> Result<usize, String> {
    let mut place = 0;
    for _ in 0..rng.below(200) {
        let size = any_length(rng, length, place);
        place = bench.write(length, place, size)?.out[0] as usize;
    }
    Ok(place)
}

/// Slices that are no whole pages, or none at all.
fn compare_bad_slices(rng: &mut Rng) -> Outcome {
    let mut bench = Bench::new(rng);
    for _ in 0..20_000 {
        bench.version = any_version(rng);
        let length = match rng.below(4) {
            0 => 0,
            1 => rng.below(40),
            2 => PAGE * (1 + rng.below(3)) + 3 - rng.below(6),
            _ => rng.below(3 * PAGE),
        };
        let place = any_place(rng, length);
        let size = any_length(rng, length, place);
        bench.write(length, place, size)?;
    }
    Ok(bench.cases)
}

/// The longest slice, one a byte shorter, and slices one byte and one page longer.
const NEAR_LIMIT: [usize; 4] = [
    SEGMENT_MAX - 1,
    SEGMENT_MAX,
    SEGMENT_MAX + 1,
    SEGMENT_MAX + PAGE,
];

/// Places to write at, counted back from the limit.
const BACK: [usize; 10] = [
    SEGMENT_MAX,
    2 * PAGE + 7,
    2 * PAGE,
    PAGE,
    PAGE - 1,
    8,
    7,
    6,
    1,
    0,
];

fn compare_write_limit(rng: &mut Rng) -> Outcome {
    let segment = Twin::zeroed(rng, SEGMENT_MAX + PAGE);
    let mut bench = Bench::with_segment(rng, segment);
    for version in [Version::One, Version::Two] {
        bench.version = version;
        for length in NEAR_LIMIT {
            write_near_limit(&mut bench, length)?;
            write_past_limit(&mut bench, length)?;
        }
    }
    whole_equal(&bench)
}

fn write_near_limit(bench: &mut Bench, length: usize) -> Result<(), String> {
    for back in BACK {
        for size in [0, 1, 2, 32_761, 32_762, RECORD_MAX, RECORD_MAX + 1] {
            bench.write(length, SEGMENT_MAX - back, size)?;
        }
    }
    Ok(())
}

fn write_past_limit(bench: &mut Bench, length: usize) -> Result<(), String> {
    for place in [SEGMENT_MAX + 1, SEGMENT_MAX + PAGE, usize::MAX] {
        bench.write(length, place, 1)?;
    }
    Ok(())
}

/// The bytes of a segment at the limit, once for all its cases.
fn whole_equal(bench: &Bench) -> Outcome {
    if bench.segment.equal_to(SEGMENT_MAX + PAGE) {
        return Ok(bench.cases);
    }
    let place = bench.segment.first_difference();
    Err(format!("the segment differs at {place:?}"))
}

// ---- Reading ----

/// Written segments read from the start, and from any place.
fn compare_written(rng: &mut Rng) -> Outcome {
    let mut bench = Bench::new(rng);
    for _ in 0..300 {
        let pages = 1 + rng.below(PAGES);
        let sample = generate::written(rng, pages).in_any_version(rng);
        bench.put(rng, &sample);
        let length = sample.bytes.len();
        bench.read_on(length, 0)?;
        read_anywhere(rng, &mut bench, length, 40)?;
    }
    Ok(bench.cases)
}

/// So many reads, each at any place.
fn read_anywhere(
    rng: &mut Rng,
    bench: &mut Bench,
    length: usize,
    reads: usize,
) -> Result<(), String> {
    for _ in 0..reads {
        bench.read(length, rng.below(length + 1))?;
    }
    Ok(())
}

/// Segments cut at every place near the edges of fragments and pages.
fn compare_cuts(rng: &mut Rng) -> Outcome {
    let mut bench = Bench::new(rng);
    for _ in 0..900 {
        let sample = any_sample(rng);
        bench.put(rng, &sample);
        let length = sample.bytes.len();
        for fragment in some_fragments(rng, &sample) {
            read_cuts(rng, &mut bench, length, fragment)?;
        }
        let cut = rng.below(length + 1);
        bench.read_on(cut, sample.start.min(cut))?;
    }
    Ok(bench.cases)
}

/// Cuts in and after the header of a fragment, and before and after its end.
fn read_cuts(
    rng: &mut Rng,
    bench: &mut Bench,
    length: usize,
    fragment: Fragment,
) -> Result<(), String> {
    for cut in generate::cuts_near(fragment, length) {
        bench.read(cut, fragment.record.min(cut))?;
        if rng.once_in(20) {
            bench.read(cut, fragment.end.min(cut))?;
        }
    }
    Ok(())
}

/// One byte of a header, of the data or of the filler changed, then put back.
fn compare_damage(rng: &mut Rng) -> Outcome {
    let mut bench = Bench::new(rng);
    for _ in 0..700 {
        let sample = any_sample(rng);
        bench.put(rng, &sample);
        for fragment in some_fragments(rng, &sample) {
            for change in generate::damages(rng, &sample, fragment) {
                damage(rng, &mut bench, &sample, fragment, change)?;
            }
        }
    }
    Ok(bench.cases)
}

/// Reads with one byte changed, whole and sometimes cut.
fn damage(
    rng: &mut Rng,
    bench: &mut Bench,
    sample: &Sample,
    fragment: Fragment,
    (place, byte): (usize, u8),
) -> Result<(), String> {
    let length = sample.bytes.len();
    let old = sample.bytes[place];
    bench.segment.put_at(place, &[byte]);
    bench.read(length, fragment.record)?;
    if rng.once_in(3) {
        let cut = fragment.record + rng.below(length - fragment.record + 1);
        bench.read(cut, fragment.record)?;
    }
    bench.segment.put_at(place, &[old]);
    Ok(())
}

/// Cut segments with zeros after the cut, up to a page's end or not, with or without another byte
/// among the zeros.
fn compare_tails(rng: &mut Rng) -> Outcome {
    let mut bench = Bench::new(rng);
    let zeros = vec![0; PAGES * PAGE];
    for _ in 0..3_000 {
        let mut sample = generate::foreign(rng, Splitting::Short).in_any_version(rng);
        let cut = any_cut(rng, &sample);
        sample.bytes.truncate(cut);
        let length = tail_end(rng, sample.bytes.len()).min(PAGES * PAGE);
        sample.bytes.truncate(length);
        bench.put(rng, &sample);
        let kept = sample.bytes.len();
        bench.segment.put_at(kept, &zeros[kept..length]);
        let start = sample.start.min(length);
        read_tail(rng, &mut bench, length, start)?;
        if kept < length {
            let place = kept + rng.below(length - kept).min(rng.below(60));
            bench.segment.put_at(place, &[rng.byte() % 5]);
            bench.read_on(length, start)?;
            bench.read(length, kept)?;
        }
    }
    Ok(bench.cases)
}

/// Reads from the start on, and at some places after it.
fn read_tail(rng: &mut Rng, bench: &mut Bench, length: usize, start: usize) -> Result<(), String> {
    bench.read_on(length, start)?;
    for _ in 0..8 {
        bench.read(length, start + rng.below(length - start + 1))?;
    }
    Ok(())
}

fn compare_foreign(rng: &mut Rng) -> Outcome {
    compare_splitting(rng, Splitting::Short, 4_000)
}

fn compare_foreign_long(rng: &mut Rng) -> Outcome {
    compare_splitting(rng, Splitting::Long, 600)
}

/// Foreign segments read from their start, from each fragment, and cut near their end.
fn compare_splitting(rng: &mut Rng, splitting: Splitting, samples: usize) -> Outcome {
    let mut bench = Bench::new(rng);
    for _ in 0..samples {
        let sample = generate::foreign(rng, splitting).in_any_version(rng);
        bench.put(rng, &sample);
        let length = sample.bytes.len();
        bench.read_on(length, sample.start.min(length))?;
        read_fragments(&mut bench, &sample)?;
        read_cut_ends(rng, &mut bench, &sample)?;
    }
    Ok(bench.cases)
}

fn read_fragments(bench: &mut Bench, sample: &Sample) -> Result<(), String> {
    let length = sample.bytes.len();
    for fragment in &sample.fragments {
        bench.read(length, fragment.start.min(length))?;
    }
    Ok(())
}

fn read_cut_ends(rng: &mut Rng, bench: &mut Bench, sample: &Sample) -> Result<(), String> {
    let length = sample.bytes.len();
    for _ in 0..10 {
        let cut = length - rng.below(200).min(length);
        bench.read(cut, sample.start.min(cut))?;
    }
    Ok(())
}

/// Short segments of any bytes, at the start of a page and across a page's edge.
fn compare_noise(rng: &mut Rng) -> Outcome {
    let mut bench = Bench::new(rng);
    let mut bytes = Vec::new();
    for case in 0..250_000 {
        generate::noise(rng, &mut bytes);
        let origin = match case % 4 {
            0 => PAGE - 1 - rng.below(30),
            _ => 0,
        };
        bench.segment.put_at(origin, &bytes);
        bench.version = any_version(rng);
        let length = origin + bytes.len();
        let place = origin + rng.below(bytes.len() + 1);
        bench.read(length, place)?;
        if origin == 0 && rng.once_in(2) {
            bench.read(length, 0)?;
        }
    }
    Ok(bench.cases)
}

/// Buffers too short or longer than needed, places past the end.
fn compare_bad_lengths(rng: &mut Rng) -> Outcome {
    let mut bench = Bench::new(rng);
    for _ in 0..2_000 {
        let sample = any_sample(rng);
        bench.put(rng, &sample);
        read_badly(rng, &mut bench, &sample)?;
    }
    Ok(bench.cases)
}

fn read_badly(rng: &mut Rng, bench: &mut Bench, sample: &Sample) -> Result<(), String> {
    let length = sample.bytes.len();
    for _ in 0..20 {
        let buffer = any_buffer(rng);
        let cut = rng.pick(&[0, length, length]);
        let place = match rng.below(3) {
            0 => sample.start,
            _ => any_place(rng, cut),
        };
        bench.read_into(cut, place, buffer)?;
    }
    Ok(())
}

const LAST_PAGE: usize = SEGMENT_MAX - PAGE;

fn compare_read_limit(rng: &mut Rng) -> Outcome {
    let segment = Twin::zeroed(rng, SEGMENT_MAX + PAGE);
    let mut bench = Bench::with_segment(rng, segment);
    let mut record = [37; HEADER + 1];
    let mut open = [0; HEADER];
    for version in [Version::One, Version::Two] {
        bench.version = version;
        generate::make_fragment(version, &mut record, segment::FULL);
        generate::make_fragment(version, &mut open, segment::FIRST);
        bench.segment.put_at(LAST_PAGE, &record);
        bench.segment.put_at(LAST_PAGE + 8, &open);
        for length in NEAR_LIMIT {
            read_near_limit(&mut bench, length)?;
        }
    }
    whole_equal(&bench)
}

fn read_near_limit(bench: &mut Bench, length: usize) -> Result<(), String> {
    for place in [
        0,
        1,
        LAST_PAGE - 3,
        LAST_PAGE,
        LAST_PAGE + 8,
        LAST_PAGE + 15,
        SEGMENT_MAX - 7,
        SEGMENT_MAX - 6,
        SEGMENT_MAX - 1,
        SEGMENT_MAX,
        SEGMENT_MAX + 1,
        SEGMENT_MAX + PAGE,
        usize::MAX,
    ] {
        bench.read(length, place)?;
    }
    Ok(())
}

/// A real segment, as it is and in version 2: read whole, cut anywhere, and from any place.
pub fn compare_file(rng: &mut Rng, bytes: &[u8]) -> Outcome {
    let segment = Twin::new(rng, bytes.len());
    let mut bench = Bench::with_segment(rng, segment);
    for version in [Version::One, Version::Two] {
        let mut bytes = bytes.to_vec();
        generate::resum(version, &mut bytes);
        bench.version = version;
        bench.segment.put(&bytes);
        bench.read_on(bytes.len(), 0)?;
        for _ in 0..20 {
            bench.read_on(rng.below(bytes.len() + 1), 0)?;
        }
        read_anywhere(rng, &mut bench, bytes.len(), 1_000)?;
    }
    Ok(bench.cases)
}

// ---- Tables with other contents ----

/// A write with such a table gives the same answer, and the same bytes but for the sums; a reading
/// changes no byte unless it yields a record.
fn compare_strange_tables(rng: &mut Rng) -> Outcome {
    let mut bench = Bench::new(rng);
    for _ in 0..3_000 {
        fill_with_noise(rng, &mut bench.table);
        bench.version = any_version(rng);
        let length = PAGE * (1 + rng.below(3));
        let place = any_place(rng, length);
        let size = any_length(rng, length, place);
        strange_write(&mut bench, length, place, size)?;
        strange_read(&mut bench, length, place)?;
    }
    Ok(bench.cases)
}

fn strange_write(
    bench: &mut Bench,
    length: usize,
    place: usize,
    size: usize,
) -> Result<(), String> {
    bench.cases += 1;
    let (our_record, their_record) = bench.records.both(0..size);
    let (ours, theirs) = bench.segment.both(0..length);
    let version = bench.version.number() as u32;
    let got = ffi::write_with_table(&bench.table, version, ours, place, our_record);
    let wanted = segment::write(bench.version, theirs, place, their_record);
    let wanted = write_answer(place, wanted);
    if wanted.number == 0 {
        copy_sums(ours, theirs, place);
    }
    let what = || format!("strange table, write of {size} at {place}");
    bench.compare((length, place), got, wanted, what)
}

/// Takes over the sums of the record written at a place.
fn copy_sums(ours: &[u8], theirs: &mut [u8], mut place: usize) {
    loop {
        let sum = place + 3..place + HEADER;
        theirs[sum.clone()].copy_from_slice(&ours[sum]);
        let kind = theirs[place];
        if kind == segment::FULL || kind == segment::LAST {
            return;
        }
        place += segment::left_in_page(place);
    }
}

fn strange_read(bench: &mut Bench, length: usize, place: usize) -> Result<(), String> {
    bench.cases += 1;
    let (ours, _) = bench.segment.both(0..length);
    let (our_buffer, their_buffer) = bench.buffer.both(0..RECORD_MAX);
    let version = bench.version.number() as u32;
    let got = ffi::read_with_table(&bench.table, version, ours, place, our_buffer, [0, 0]);
    if got.number == 0 {
        let filled = (got.out[1] as usize).min(RECORD_MAX);
        their_buffer[..filled].copy_from_slice(&our_buffer[..filled]);
    }
    let what = || format!("strange table, read at {place}");
    bench.compare((length, place), got, got, what)?;
    let pair = match got.number {
        0 => [1, got.out[2]],
        _ => [0, 0],
    };
    match got.beside || got.out[3..] != pair {
        false => Ok(()),
        true => Err(format!("{}: {got:?}", what())),
    }
}

//! Going on after a cut, against the second program: answer, `out` and every byte of the slice. And
//! against the log that was never cut: the archive goes on, writes the records that did not come out,
//! and no byte before the final place differs.

use crate::ffi::resume::resume;
use crate::ffi::{self, Answer};
use crate::generate::{self, any_version, some_fragments, Sample, Splitting, ZEROS};
use crate::rng::Rng;
use crate::twin::Twin;
use crate::{Group, Outcome};
use reference::refusal::{BAD_BUFFER, BAD_NAME, BAD_PLACE};
use reference::resume::Resumed;
use reference::segment::{self, left_in_page, PAGE, RECORD_MAX, SEGMENT_MAX};
use reference::version::Version;

pub fn groups() -> Vec<Group> {
    vec![
        ("resume, every cut of short logs", compare_short),
        ("resume, every cut around filler", compare_filler),
        ("resume, cuts of long logs", compare_long),
        ("resume, cut again and again", compare_again),
        ("resume, zeros after a cut", compare_zeros),
        ("resume, damage", compare_damage),
        ("resume, foreign bytes", compare_foreign),
        ("resume, random bytes", compare_noise),
        ("resume, bad slices and cuts", compare_bad),
        ("resume, at the limit", compare_limit),
    ]
}

/// Pages of the longest slice, the limit's aside.
const PAGES: usize = generate::PAGES_MAX + 1;

/// The slice that is cut.
struct Cuts {
    segment: Twin,
    /// Bytes of it that are lent.
    length: usize,
    version: u32,
    cases: u64,
}

impl Cuts {
    fn new(rng: &mut Rng) -> Cuts {
        Cuts::of_pages(rng, PAGES)
    }

    fn of_pages(rng: &mut Rng, pages: usize) -> Cuts {
        Cuts {
            segment: Twin::new(rng, pages * PAGE),
            length: pages * PAGE,
            version: 1,
            cases: 0,
        }
    }

    /// Puts bytes of this version into a slice with room for them, which holds anything behind them.
    fn put(&mut self, rng: &mut Rng, version: Version, bytes: &[u8]) {
        self.version = version.number() as u32;
        self.length = (bytes.len() / PAGE + 1) * PAGE;
        self.segment.shift(rng);
        self.segment.put(bytes);
        self.spoil(rng, bytes.len());
    }

    /// Noise from a cut on: nothing stands there.
    fn spoil(&mut self, rng: &mut Rng, cut: usize) {
        let noise = rng.bytes(self.length - cut);
        self.segment.put_at(cut, &noise);
    }

    /// Goes on after so many bytes, and compares.
    fn resume(&mut self, survived: usize) -> Result<Answer<4>, String> {
        self.cases += 1;
        let (ours, theirs) = self.segment.both(0..self.length);
        let got = resume(self.version, ours, survived);
        let wanted = match Version::of(self.version.into()) {
            Err(refusal) => Answer::new(refusal.number, [0; 4]),
            Ok(version) => resume_answer(reference::resume::resume(version, theirs, survived)),
        };
        self.compare(got, wanted, || format!("{survived} bytes survived"))
    }

    /// Writes a record by both, and hands back the next place.
    fn write(&mut self, place: usize, record: &[u8]) -> Result<usize, String> {
        let version = Version::of(self.version.into()).map_err(|why| format!("{why:?}"))?;
        let (ours, theirs) = self.segment.both(0..self.length);
        let got = ffi::write(self.version, ours, place, record);
        let wanted = match segment::write(version, theirs, place, record) {
            Ok(next) => Answer::new(0, [next as u64, 0]),
            Err(refusal) => Answer::new(refusal.number, [place as u64, refusal.place as u64]),
        };
        let what = || format!("{} bytes written at {place}", record.len());
        Ok(self.compare(got, wanted, what)?.out[0] as usize)
    }

    fn compare<const N: usize>(
        &self,
        got: Answer<N>,
        wanted: Answer<N>,
        what: impl Fn() -> String,
    ) -> Result<Answer<N>, String> {
        let slice = || format!("version {}, {} bytes", self.version, self.length);
        if got != wanted {
            return Err(format!(
                "{}, {}: got {got:?}, wanted {wanted:?}",
                slice(),
                what()
            ));
        }
        // Of a slice at the limit the bytes are compared at the group's end.
        if self.length < SEGMENT_MAX && !self.segment.equal_to(self.length) {
            let place = self.segment.first_difference();
            return Err(format!(
                "{}, {}: the slice differs at {place:?}",
                slice(),
                what()
            ));
        }
        Ok(got)
    }

    /// Cuts the log, goes on, writes the records that did not come out, up to record number `end`,
    /// and hands back the final place. What stands before it is what the log has there.
    fn go_on(
        &mut self,
        rng: &mut Rng,
        log: &Written,
        cut: usize,
        end: usize,
    ) -> Result<usize, String> {
        self.spoil(rng, cut);
        let [mut place, _, records, _] = self.resume(cut)?.out.map(|number| number as usize);
        let came_out = log.ends.iter().filter(|&&end| end <= cut).count();
        if records != came_out {
            return Err(format!("cut at {cut}: {records} came out of {came_out}"));
        }
        for record in log.records.iter().take(end).skip(records) {
            place = self.write(place, record)?;
        }
        let last = end.max(records);
        let wanted = if last == 0 { 0 } else { log.places[last - 1] };
        if place != wanted || self.segment.bytes(0..place) != &log.bytes[..place] {
            return Err(format!(
                "cut at {cut}: a scar before {place}, which is to be {wanted}"
            ));
        }
        Ok(place)
    }
}

/// What `depot_wal_resume` has to answer.
fn resume_answer(resumed: Resumed) -> Answer<4> {
    let pair = [resumed.good.records, resumed.good.offset as u64];
    match resumed.next {
        Ok(next) => Answer::new(0, [next as u64, 0, pair[0], pair[1]]),
        Err(refusal) => {
            let out = [0, refusal.place as u64, pair[0], pair[1]];
            Answer::new(refusal.number, out)
        }
    }
}

// ---- Logs that were written from the start ----

/// A log that was never cut.
struct Written {
    version: Version,
    records: Vec<Vec<u8>>,
    /// The place after the last fragment of each record, and the place for the next.
    ends: Vec<usize>,
    places: Vec<usize>,
    bytes: Vec<u8>,
}

impl Written {
    /// Records of these lengths, as many as fit.
    fn new(rng: &mut Rng, lengths: impl IntoIterator<Item = usize>) -> Written {
        let version = any_version(rng);
        let (mut records, mut ends, mut places) = (Vec::new(), Vec::new(), Vec::new());
        let mut bytes = vec![0; (PAGES - 1) * PAGE];
        let mut place = 0;
        for length in lengths {
            let record = rng.bytes(length.clamp(1, RECORD_MAX));
            let Ok(next) = segment::write(version, &mut bytes, place, &record) else {
                continue;
            };
            let mut fragments = Vec::new();
            generate::add_fragments(&mut fragments, &bytes, place);
            ends.extend(fragments.last().map(|fragment| fragment.end));
            places.push(next);
            records.push(record);
            place = next;
        }
        bytes.truncate(place);
        Written {
            version,
            records,
            ends,
            places,
            bytes,
        }
    }

    /// Of any lengths, many of which end near a page's end.
    fn any(rng: &mut Rng, writes: usize) -> Written {
        let mut place = 0;
        let lengths: Vec<usize> = (0..writes)
            .map(|_| {
                let length = generate::record_length(rng, left_in_page(place)).max(1);
                place += length + 7;
                length
            })
            .collect();
        Written::new(rng, lengths)
    }
}

/// Cuts the log there and goes on to its end.
fn compare_cut(rng: &mut Rng, cuts: &mut Cuts, log: &Written, cut: usize) -> Result<(), String> {
    cuts.go_on(rng, log, cut, log.records.len()).map(drop)
}

fn compare_short(rng: &mut Rng) -> Outcome {
    let mut cuts = Cuts::new(rng);
    for _ in 0..60 {
        let count = 1 + rng.below(6);
        let lengths: Vec<usize> = (0..count).map(|_| 1 + rng.below(30)).collect();
        let log = Written::new(rng, lengths);
        cuts.put(rng, log.version, &log.bytes);
        for cut in 0..=log.bytes.len() {
            compare_cut(rng, &mut cuts, &log, cut)?;
        }
    }
    Ok(cuts.cases)
}

/// A record that leaves from 0 to 20 bytes in its page, and one after it that is short or goes on
/// into the next: every cut from before the first one's end until after the second one's header.
fn compare_filler(rng: &mut Rng) -> Outcome {
    let mut cuts = Cuts::new(rng);
    for left in 0..=20 {
        for second in [1, 5, 13, 40, 32_761, 40_000] {
            let front = rng.below(40);
            let lengths = [front + 1, PAGE - left - 15 - front, second, 3];
            let log = Written::new(rng, lengths);
            if log.ends[1] != PAGE - left {
                return Err(format!("{left} are to be left after {:?}", log.ends));
            }
            cuts.put(rng, log.version, &log.bytes);
            for cut in PAGE - left - 4..PAGE + 12 {
                compare_cut(rng, &mut cuts, &log, cut.min(log.bytes.len()))?;
            }
        }
    }
    Ok(cuts.cases)
}

fn compare_long(rng: &mut Rng) -> Outcome {
    let mut cuts = Cuts::new(rng);
    for _ in 0..20 {
        let log = Written::any(rng, 14);
        cuts.put(rng, log.version, &log.bytes);
        for _ in 0..60 {
            let near = match (rng.below(4), log.ends.len()) {
                (0, _) | (_, 0) => rng.below(log.bytes.len() + 1),
                (1, _) => rng.below(log.bytes.len() / PAGE + 2) * PAGE,
                (2, count) => log.places[rng.below(count)],
                (_, count) => log.ends[rng.below(count)],
            };
            let cut = (near + rng.below(20))
                .saturating_sub(10)
                .min(log.bytes.len());
            compare_cut(rng, &mut cuts, &log, cut)?;
        }
    }
    Ok(cuts.cases)
}

/// The power fails while the log is gone on with, after any of its records or in the middle of one,
/// several times; only then is it written to its end.
fn compare_again(rng: &mut Rng) -> Outcome {
    let mut cuts = Cuts::new(rng);
    for case in 0..400 {
        let writes = 1 + rng.below(14);
        let log = match case % 4 {
            0 => Written::any(rng, writes),
            _ => {
                let lengths: Vec<usize> = (0..writes).map(|_| 1 + rng.below(60)).collect();
                Written::new(rng, lengths)
            }
        };
        cuts.put(rng, log.version, &log.bytes);
        let mut place = log.bytes.len();
        for _ in 0..rng.below(8) {
            let cut = rng.below(place + 1);
            let end = rng.below(log.records.len() + 1);
            place = cuts.go_on(rng, &log, cut, end)?;
        }
        let cut = rng.below(place + 1);
        compare_cut(rng, &mut cuts, &log, cut)?;
    }
    Ok(cuts.cases)
}

// ---- Other bytes ----

/// Zeros after a cut: those of a new slice, or of a flash part.
fn compare_zeros(rng: &mut Rng) -> Outcome {
    let mut cuts = Cuts::new(rng);
    for _ in 0..60 {
        let count = 1 + rng.below(6);
        let lengths: Vec<usize> = (0..count).map(|_| 1 + rng.below(30)).collect();
        let log = Written::new(rng, lengths);
        for cut in 0..=log.bytes.len() {
            let zeros = rng.pick(&ZEROS);
            let mut bytes = log.bytes[..cut].to_vec();
            bytes.resize(cut + zeros, 0);
            cuts.put(rng, log.version, &bytes);
            cuts.resume(bytes.len())?;
        }
    }
    Ok(cuts.cases)
}

/// One byte changed.
fn compare_damage(rng: &mut Rng) -> Outcome {
    let mut cuts = Cuts::new(rng);
    for _ in 0..150 {
        let sample = generate::any_sample(rng);
        cuts.put(rng, sample.version, &sample.bytes);
        for fragment in some_fragments(rng, &sample) {
            for (place, byte) in generate::damages(rng, &sample, fragment) {
                cuts.segment.put_at(place, &[byte]);
                cuts.resume(sample.bytes.len())?;
                cuts.segment.put(&sample.bytes);
            }
        }
    }
    Ok(cuts.cases)
}

/// Segments that we would never write, cut anywhere and whole, and read as the other version.
fn compare_foreign(rng: &mut Rng) -> Outcome {
    let mut cuts = Cuts::new(rng);
    for _ in 0..2_500 {
        let splitting = rng.pick(&[Splitting::Short, Splitting::Short, Splitting::Long]);
        let sample: Sample = generate::foreign_from_0(rng, splitting).in_any_version(rng);
        cuts.put(rng, sample.version, &sample.bytes);
        for _ in 0..4 {
            let cut = generate::any_cut(rng, &sample).min(cuts.length);
            cuts.resume(cut)?;
            cuts.segment.put(&sample.bytes);
        }
        cuts.resume(sample.bytes.len())?;
        cuts.version = 3 - cuts.version;
        cuts.resume(sample.bytes.len())?;
    }
    Ok(cuts.cases)
}

/// A real segment, whole and cut anywhere.
pub fn compare_file(rng: &mut Rng, bytes: &[u8]) -> Outcome {
    let mut cuts = Cuts::of_pages(rng, bytes.len() / PAGE + 1);
    for _ in 0..20 {
        cuts.put(rng, Version::One, bytes);
        cuts.resume(bytes.len())?;
        cuts.resume(rng.below(bytes.len() + 1))?;
    }
    Ok(cuts.cases)
}

fn compare_noise(rng: &mut Rng) -> Outcome {
    let mut cuts = Cuts::new(rng);
    let mut noise = Vec::new();
    for _ in 0..20_000 {
        generate::noise(rng, &mut noise);
        let version = any_version(rng);
        let mut bytes = Vec::new();
        if rng.once_in(2) {
            // At the end of a page.
            bytes.resize(PAGE - rng.below(60), 7);
            generate::make_fragment(version, &mut bytes, 1);
        }
        bytes.extend(&noise);
        cuts.version = version.number() as u32;
        cuts.length = (bytes.len() / PAGE + 1) * PAGE;
        cuts.segment.put(&bytes);
        cuts.resume(bytes.len())?;
    }
    Ok(cuts.cases)
}

// ---- Lengths, and numbers that are no version ----

fn compare_bad(rng: &mut Rng) -> Outcome {
    let mut cuts = Cuts::new(rng);
    for _ in 0..6_000 {
        let log = Written::new(rng, [20, 9]);
        cuts.put(rng, log.version, &log.bytes);
        let whole = cuts.length;
        let version = rng.pick(&[cuts.version, cuts.version, 0, 3, 258, u32::MAX]);
        cuts.length = match rng.below(3) {
            0 => rng.pick(&[0, 1, PAGE - 1, PAGE + 1, 2 * PAGE - 1]),
            1 => rng.below(2 * PAGE),
            _ => whole,
        };
        let survived = match rng.below(4) {
            0 => rng.pick(&[usize::MAX, 1 << 32, SEGMENT_MAX, cuts.length + 1]),
            1 => rng.below(PAGE),
            2 => cuts.length,
            _ => log.bytes.len(),
        };
        let good = cuts.length > 0 && cuts.length.is_multiple_of(PAGE);
        let wanted = match version {
            1 | 2 if !good => Some(BAD_BUFFER),
            1 | 2 if survived > cuts.length => Some(BAD_PLACE),
            1 | 2 => None,
            _ => Some(BAD_NAME),
        };
        cuts.version = version;
        let got = cuts.resume(survived)?;
        if wanted.is_some_and(|wanted| got != Answer::new(wanted, [0; 4])) {
            return Err(format!(
                "{survived} of {}: {got:?}, not {wanted:?}",
                cuts.length
            ));
        }
    }
    Ok(cuts.cases)
}

/// A slice of 4,096 pages whose last record ends in its last page, whole and cut there; and a page
/// more.
fn compare_limit(rng: &mut Rng) -> Outcome {
    let mut segment = Twin::zeroed(rng, SEGMENT_MAX + PAGE);
    let (ours, theirs) = segment.both(0..SEGMENT_MAX);
    let record = rng.bytes(PAGE - 7 - 3);
    let fail = |why| format!("{why:?}");
    let start = SEGMENT_MAX - PAGE;
    segment::write(Version::Two, ours, 0, &record[..40]).map_err(fail)?;
    segment::write(Version::Two, ours, start, &record).map_err(fail)?;
    theirs.copy_from_slice(ours);
    let mut cuts = Cuts {
        segment,
        length: SEGMENT_MAX,
        version: 2,
        cases: 0,
    };
    let end = SEGMENT_MAX as u64;
    for (length, survived, number, out) in [
        (SEGMENT_MAX, SEGMENT_MAX, 0, [end, 0, 2, end - 3]),
        (SEGMENT_MAX, SEGMENT_MAX - 1, 0, [end, 0, 2, end - 3]),
        (SEGMENT_MAX, SEGMENT_MAX - 3, 0, [end, 0, 2, end - 3]),
        (SEGMENT_MAX, SEGMENT_MAX - 4, 0, [start as u64, 0, 1, 47]),
        (SEGMENT_MAX, start, 0, [47, 0, 1, 47]),
        (SEGMENT_MAX + PAGE, 47, BAD_BUFFER, [0; 4]),
        (SEGMENT_MAX, SEGMENT_MAX + 1, BAD_PLACE, [0; 4]),
    ] {
        cuts.length = length;
        let got = cuts.resume(survived)?;
        if got != Answer::new(number, out) {
            return Err(format!(
                "{survived} of {length}: {got:?}, not {number}, {out:?}"
            ));
        }
    }
    match cuts.segment.equal_to(usize::MAX) {
        true => Ok(cuts.cases),
        false => Err("the bytes differ".to_string()),
    }
}

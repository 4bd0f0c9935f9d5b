//! Segments to try: such as the writer makes them, and such as it never would.

use crate::rng::Rng;
use reference::segment::{self, EMPTY, FIRST, FULL, HEADER, LAST, MIDDLE, PAGE, RECORD_MAX};
use reference::version::Version;

/// Pages of the longest sample.
pub const PAGES_MAX: usize = 5;

/// A segment and where the things in it are. It is made in version 1.
pub struct Sample {
    pub version: Version,
    pub bytes: Vec<u8>,
    /// The place of the first record.
    pub start: usize,
    pub fragments: Vec<Fragment>,
}

#[derive(Clone, Copy)]
pub struct Fragment {
    /// The type byte.
    pub start: usize,
    /// The place after the data.
    pub end: usize,
    /// The first type byte of its record.
    pub record: usize,
}

/// A list of writes on a slice of `pages`, cut after the last one's filler.
pub fn written(rng: &mut Rng, pages: usize) -> Sample {
    let writes = rng.below(300);
    written_by(rng, pages, writes)
}

/// The same with so many writes, some of which may not fit.
pub fn written_by(rng: &mut Rng, pages: usize, writes: usize) -> Sample {
    let mut bytes = vec![0; pages * PAGE];
    let data = rng.bytes(RECORD_MAX);
    let mut fragments = Vec::new();
    let mut place = 0;
    for _ in 0..writes {
        let length = record_length(rng, segment::left_in_page(place));
        if let Ok(next) = segment::write(Version::One, &mut bytes, place, &data[..length]) {
            add_fragments(&mut fragments, &bytes, place);
            place = next;
        }
    }
    bytes.truncate(place);
    let (version, start) = (Version::One, 0);
    Sample {
        version,
        bytes,
        start,
        fragments,
    }
}

/// Lengths that end near a page's edge as often as not.
pub fn record_length(rng: &mut Rng, left: usize) -> usize {
    let length = match rng.below(12) {
        0..=5 => rng.below(60),
        6 | 7 => rng.below(2_000),
        8 => rng.below(RECORD_MAX + 1),
        9 => (left + 20).saturating_sub(rng.below(40) + HEADER),
        10 => (left + PAGE).saturating_sub(rng.below(20) + 2 * HEADER),
        _ => rng.below(3),
    };
    length.min(RECORD_MAX)
}

/// The fragments of the record written at a place.
pub fn add_fragments(fragments: &mut Vec<Fragment>, bytes: &[u8], record: usize) {
    let mut start = record;
    loop {
        let length = u16::from_be_bytes([bytes[start + 1], bytes[start + 2]]);
        let end = start + HEADER + usize::from(length);
        fragments.push(Fragment { start, end, record });
        if bytes[start] == FULL || bytes[start] == LAST {
            return;
        }
        start = end;
    }
}

/// How the fragments of a foreign segment are split.
#[derive(Clone, Copy, PartialEq)]
pub enum Splitting {
    /// Short ones, several in a page, length 0 among them.
    Short,
    /// Records whose length is near 65,536 or above it.
    Long,
}

/// Fragments written one by one from some place on, as no writer of ours splits them; now and then
/// with a wrong kind, a wrong sum or a filler that is not zero.
pub fn foreign(rng: &mut Rng, splitting: Splitting) -> Sample {
    let start = foreign_start(rng);
    let mut maker = Maker {
        bytes: rng.bytes(start),
        fragments: Vec::new(),
        open: None,
        length: 0,
    };
    let count = match splitting {
        Splitting::Short => rng.below(30),
        Splitting::Long => 3 + rng.below(12),
    };
    for _ in 0..count {
        if maker.bytes.len() >= (PAGES_MAX - 1) * PAGE {
            break;
        }
        let wanted = maker.data_length(rng, splitting);
        maker.add_fragment(rng, wanted);
    }
    Sample {
        version: Version::One,
        bytes: maker.bytes,
        start,
        fragments: maker.fragments,
    }
}

/// Near the end of a page, or anywhere in the first.
fn foreign_start(rng: &mut Rng) -> usize {
    match rng.below(4) {
        0 => 0,
        1 => rng.below(PAGE),
        _ => PAGE - 1 - rng.below(80),
    }
}

struct Maker {
    bytes: Vec<u8>,
    fragments: Vec<Fragment>,
    /// The start of the open record.
    open: Option<usize>,
    /// The data of the open record so far.
    length: usize,
}

impl Maker {
    fn left(&self) -> usize {
        segment::left_in_page(self.bytes.len())
    }

    fn data_length(&self, rng: &mut Rng, splitting: Splitting) -> usize {
        let room = self.left().saturating_sub(HEADER);
        let near_limit = (RECORD_MAX + 3).saturating_sub(self.length + rng.below(6));
        match (splitting, rng.below(8)) {
            (_, 0) => 0,
            (Splitting::Long, 1..=5) if near_limit <= room => near_limit,
            (Splitting::Long, 1..=6) => room,
            (_, 1) => room.saturating_sub(rng.below(14)),
            (_, 2) => rng.below(1_000),
            _ => rng.below(20),
        }
    }

    /// A fragment of at most `wanted` bytes after the filler that is due.
    fn add_fragment(&mut self, rng: &mut Rng, wanted: usize) {
        self.add_filler(rng);
        let length = wanted.min(self.left() - HEADER);
        let kind = self.kind(rng, length);
        let start = self.bytes.len();
        let record = *self.open.get_or_insert(start);
        let data = rng.bytes(length);
        let mut sum = Version::One.sum(&[], &data);
        if rng.once_in(200) {
            sum ^= 1 << rng.below(32);
        }
        self.bytes.push(kind);
        self.bytes.extend((length as u16).to_be_bytes());
        self.bytes.extend(sum.to_be_bytes());
        self.bytes.extend(data);
        let end = self.bytes.len();
        self.fragments.push(Fragment { start, end, record });
        self.length += length;
        if kind == FULL || kind == LAST {
            self.open = None;
            self.length = 0;
        }
    }

    fn add_filler(&mut self, rng: &mut Rng) {
        if self.left() >= HEADER {
            return;
        }
        for _ in 0..self.left() {
            let byte = if rng.once_in(300) { rng.byte() } else { 0 };
            self.bytes.push(byte);
        }
    }

    /// A fragment without data does not end a record, but for a few: these are hollow, and nothing
    /// behind them is read.
    fn kind(&self, rng: &mut Rng, length: usize) -> u8 {
        if rng.once_in(100) {
            return rng.byte() & 0b111;
        }
        if length == 0 && !rng.once_in(16) {
            return self.open.map_or(FIRST, |_| MIDDLE);
        }
        let long_enough = self.length + length > RECORD_MAX - 4;
        match self.open {
            None => rng.pick(&[FULL, FIRST, FIRST]),
            Some(_) if long_enough => rng.pick(&[MIDDLE, LAST, LAST, LAST]),
            Some(_) => rng.pick(&[MIDDLE, MIDDLE, MIDDLE, LAST]),
        }
    }
}

/// A few bytes, most of them such as headers have.
pub fn noise(rng: &mut Rng, bytes: &mut Vec<u8>) {
    bytes.clear();
    for _ in 0..rng.below(48) {
        let byte = match rng.below(8) {
            0 => rng.byte(),
            1..=3 => 0,
            _ => rng.byte() % 6,
        };
        bytes.push(byte);
    }
}

/// A written or a foreign segment, in any version.
pub fn any_sample(rng: &mut Rng) -> Sample {
    let pages = 1 + rng.below(3);
    let sample = match rng.below(3) {
        0 | 1 => written(rng, pages),
        _ => foreign(rng, Splitting::Short),
    };
    sample.in_any_version(rng)
}

/// A foreign segment with a record before its start, so that it can be read from 0.
pub fn foreign_from_0(rng: &mut Rng, splitting: Splitting) -> Sample {
    let mut sample = foreign(rng, splitting);
    if sample.start >= HEADER {
        make_fragment(Version::One, &mut sample.bytes[..sample.start], FULL);
    }
    sample
}

/// Makes the bytes, at least 7 and at most a page, one good fragment.
pub fn make_fragment(version: Version, bytes: &mut [u8], kind: u8) {
    let (header, data) = bytes.split_at_mut(HEADER);
    header[0] = kind;
    header[1..3].copy_from_slice(&(data.len() as u16).to_be_bytes());
    let sum = version.sum(header, data);
    header[3..].copy_from_slice(&sum.to_be_bytes());
}

// ---- Versions ----

/// One of the two.
pub fn any_version(rng: &mut Rng) -> Version {
    rng.pick(&[Version::One, Version::Two])
}

impl Sample {
    /// In version 1 or 2, with the sums that were wrong wrong again.
    pub fn in_any_version(mut self, rng: &mut Rng) -> Sample {
        self.version = any_version(rng);
        for fragment in &self.fragments {
            let end = fragment.end.min(self.bytes.len());
            if fragment.start < end && self.version == Version::Two {
                resum_fragment(&mut self.bytes[fragment.start..end]);
            }
        }
        self
    }
}

/// A segment of version 1 in this version, up to the first fragment that is not good.
pub fn resum(version: Version, bytes: &mut [u8]) {
    let mut at = 0;
    while version == Version::Two && at < bytes.len() {
        let left = segment::left_in_page(at);
        if left < HEADER || bytes[at] == EMPTY {
            at += left;
            continue;
        }
        let end = bytes.len().min(at + left);
        match resum_fragment(&mut bytes[at..end]) {
            Some(length) => at += length,
            None => return,
        }
    }
}

/// Puts the sum of version 2 where a good one of version 1 is, and hands back the fragment's length.
fn resum_fragment(bytes: &mut [u8]) -> Option<usize> {
    let (header, rest) = bytes.split_at_mut_checked(HEADER)?;
    let length = usize::from(u16::from_be_bytes([header[1], header[2]]));
    let data = rest.get(..length)?;
    if header[3..] != Version::One.sum(header, data).to_be_bytes() {
        return None;
    }
    let sum = Version::Two.sum(header, data);
    header[3..].copy_from_slice(&sum.to_be_bytes());
    Some(HEADER + length)
}

// ---- Where to cut a sample, and what to change in it ----

/// Some fragments of a sample; the last ones always, since they are near the end.
pub fn some_fragments(rng: &mut Rng, sample: &Sample) -> Vec<Fragment> {
    let count = sample.fragments.len();
    let few = |index: usize| index + 4 > count;
    let near_edge = |end: usize| segment::left_in_page(end) < 16;
    let mut chosen = Vec::new();
    for (index, fragment) in sample.fragments.iter().enumerate() {
        if few(index) || near_edge(fragment.end) || rng.once_in(12) {
            chosen.push(*fragment);
        }
    }
    chosen
}

/// Cuts in and after the header of a fragment, and before and after its end.
pub fn cuts_near(fragment: Fragment, length: usize) -> impl Iterator<Item = usize> {
    let header = fragment.start..fragment.start + HEADER + 3;
    let end = fragment.end.saturating_sub(3)..fragment.end + 10;
    header.chain(end).filter(move |&cut| cut <= length)
}

/// Numbers of zeros that a flash part leaves after a cut: none, one, those that complete a header
/// after its type byte, one more, some, and a page.
pub const ZEROS: [usize; 6] = [0, 1, 6, 7, 40, PAGE];

/// Cuts before, in and just after the header of a fragment.
pub fn cuts_in_header(fragment: Fragment) -> impl Iterator<Item = usize> {
    fragment.start..fragment.start + HEADER + 1
}

/// A cut in a fragment or shortly after it.
pub fn any_cut(rng: &mut Rng, sample: &Sample) -> usize {
    match sample.fragments.len() {
        0 => sample.start,
        count => {
            let fragment = sample.fragments[rng.below(count)];
            fragment.start + rng.below(fragment.end - fragment.start + 8)
        }
    }
}

/// Where the zeros after a cut end.
pub fn tail_end(rng: &mut Rng, cut: usize) -> usize {
    let page_end = cut + segment::left_in_page(cut);
    match rng.below(4) {
        0 => cut + rng.below(40),
        1 => page_end,
        2 => page_end + PAGE * rng.below(2) + rng.below(10),
        _ => page_end - rng.below(10).min(page_end - cut),
    }
}

/// Changes of one byte each, in a fragment and in the filler after it: the place and the new byte.
pub fn damages(rng: &mut Rng, sample: &Sample, fragment: Fragment) -> Vec<(usize, u8)> {
    let Fragment { start, end, .. } = fragment;
    let mut changes = type_damages(rng, start);
    let filler = end..end + 6;
    for place in (start + 1..start + HEADER).chain(filler) {
        let Some(&old) = sample.bytes.get(place) else {
            continue;
        };
        let byte = match rng.below(3) {
            0 => rng.byte(),
            1 => old ^ 1 << rng.below(8),
            _ => old.wrapping_add(1),
        };
        changes.push((place, byte));
    }
    let data = end - start - HEADER;
    for _ in 0..data.min(4) {
        changes.push((start + HEADER + rng.below(data), rng.byte()));
    }
    changes
}

/// Every low type byte, and some of the others.
fn type_damages(rng: &mut Rng, place: usize) -> Vec<(usize, u8)> {
    let mut changes: Vec<(usize, u8)> = (0..8).map(|byte| (place, byte)).collect();
    changes.extend([(); 4].map(|()| (place, rng.byte())));
    changes
}

/// Lengths of record buffers, of which those from 65,536 on are good.
pub fn any_buffer(rng: &mut Rng) -> usize {
    match rng.below(4) {
        0 => rng.below(RECORD_MAX),
        1 => rng.pick(&[0, 1, RECORD_MAX - 1]),
        2 => RECORD_MAX,
        _ => RECORD_MAX + rng.below(48),
    }
}

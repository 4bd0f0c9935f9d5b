//! The page feed (document 02 [2]) against the reader of one slice, and calls in orders that nobody
//! should make.

mod rng;

use reference::crc32c;
use reference::feed::{Feed, Read};
use reference::refusal::*;
use reference::segment::{
    self, left_in_page, Good, Reading, EMPTY, FIRST, FRAGMENT_MAX, FULL, HEADER, LAST, MIDDLE,
    PAGE, RECORD_MAX, SEGMENT_MAX,
};
use reference::version::Version;
use rng::Rng;
use std::collections::BTreeSet;

/// What the record buffer holds where nothing was stored.
const UNTOUCHED: u8 = 0xAA;

/// The number of a clean end, in the sets of answers met.
const CLEAN: u32 = 0;

fn refused(number: u32, place: usize) -> Read {
    Read::Refused(Refusal { number, place })
}

fn fragment(kind: u8, data: &[u8]) -> Vec<u8> {
    let mut bytes = vec![kind];
    bytes.extend((data.len() as u16).to_be_bytes());
    bytes.extend(crc32c::checksum(data).to_be_bytes());
    bytes.extend(data);
    bytes
}

// ---- The feed against the slice reader ----

/// A caller that does as the papers say, with everything that it has to see.
struct Caller<'a> {
    segment: &'a [u8],
    feed: Feed,
    page: &'a [u8],
    /// Bytes fed so far.
    fed: usize,
    /// Where the slice reader stands, and its pair.
    place: usize,
    good: Good,
    buffer: Vec<u8>,
    slice_buffer: Vec<u8>,
}

impl<'a> Caller<'a> {
    fn new(segment: &'a [u8]) -> Self {
        Caller {
            segment,
            feed: Feed::start(Version::One),
            page: &[],
            fed: 0,
            place: 0,
            good: Good::default(),
            buffer: vec![UNTOUCHED; RECORD_MAX],
            slice_buffer: vec![UNTOUCHED; RECORD_MAX],
        }
    }

    /// Reads to the end or the refusal and answers its number.
    fn read_through(mut self) -> u32 {
        loop {
            match self.feed.read(self.page, &mut self.buffer) {
                Read::More => self.feed_next(),
                Read::Record {
                    start,
                    length,
                    next,
                } => self.compare_record(start, length, next),
                Read::CleanEnd => {
                    assert_eq!(self.read_slice(), Ok(Reading::End));
                    self.compare_stored(0, 0);
                    return self.compare_again(Read::CleanEnd, CLEAN);
                }
                Read::Refused(refusal) => {
                    assert_eq!(self.read_slice(), Err(refusal));
                    self.compare_open(refusal);
                    return self.compare_again(Read::Refused(refusal), refusal.number);
                }
            }
        }
    }

    /// The answer of the slice reader, whose pair is the feed's.
    fn read_slice(&mut self) -> Result<Reading, Refusal> {
        let buffer = &mut self.slice_buffer;
        let read = segment::read(
            Version::One,
            self.segment,
            self.place,
            buffer,
            &mut self.good,
        );
        assert_eq!(self.feed.good(), self.good);
        read
    }

    /// The answer for the first bytes only.
    fn read_first(&mut self, length: usize) -> Result<Reading, Refusal> {
        let first = &self.segment[..length];
        segment::read(
            Version::One,
            first,
            self.place,
            &mut self.slice_buffer,
            &mut Good::default(),
        )
    }

    /// More is asked for exactly when the pages so far leave the slice reader at their end, and
    /// never after the last page. Asked again, it is the same.
    fn feed_next(&mut self) {
        match self.read_first(self.fed) {
            Ok(Reading::End) => {}
            Err(refusal) => assert_eq!(refusal.number, TORN),
            record => panic!("more is asked for, but there is {record:?}"),
        }
        assert_eq!(self.fed % PAGE, 0);
        let before = self.feed;
        assert_eq!(self.feed.read(&[1], &mut self.buffer), Read::More);
        assert_eq!(self.feed, before);
        let later = &self.segment[self.fed..];
        self.page = &later[..later.len().min(PAGE)];
        self.fed += self.page.len();
        assert_eq!(self.feed.feed_page(self.page), Ok(()));
        assert_eq!(self.feed.good(), self.good);
    }

    fn compare_record(&mut self, start: usize, length: usize, next: usize) {
        let same = Reading::Record(segment::Record {
            start,
            length,
            after: next,
        });
        assert_eq!(self.read_slice(), Ok(same));
        assert_eq!(self.buffer[..length], self.slice_buffer[..length]);
        assert!(self.buffer[length..].iter().all(|&byte| byte == UNTOUCHED));
        self.buffer[..length].fill(UNTOUCHED);
        self.place = next;
    }

    /// At a refusal the buffer holds the verified fragments of the open record, and nothing else.
    fn compare_open(&mut self, refusal: Refusal) {
        let Refusal { number, place } = refusal;
        if number == TORN {
            return self.compare_stored(place, self.segment.len());
        }
        match self.read_first(place) {
            Err(torn) => self.compare_stored(torn.place, place),
            Ok(_) => self.compare_stored(place, place),
        }
    }

    /// The buffer holds the data of the whole fragments from a record's start to a place.
    fn compare_stored(&self, start: usize, end: usize) {
        let mut stored = Vec::new();
        let mut at = start;
        while at < end {
            if left_in_page(at) < HEADER {
                at += left_in_page(at);
                continue;
            }
            let Some(length) = self.segment[at..end].get(1..3) else {
                break;
            };
            let length = usize::from(u16::from_be_bytes([length[0], length[1]]));
            let Some(data) = self.segment[at..end].get(HEADER..HEADER + length) else {
                break;
            };
            stored.extend(data);
            at += HEADER + length;
        }
        stored.resize(RECORD_MAX, UNTOUCHED);
        assert!(self.buffer == stored, "the buffer after a refusal");
    }

    /// The last answer stays, in the state too; no further page is taken.
    fn compare_again(mut self, answer: Read, number: u32) -> u32 {
        let (feed, buffer) = (self.feed, self.buffer.clone());
        assert_eq!(self.feed.read(self.page, &mut self.buffer), answer);
        assert!(self.buffer == buffer, "the buffer after the last answer");
        let fed = match answer {
            Read::Refused(refusal) if number != TORN => Err(refusal),
            _ => refuse(BAD_PLACE, 0),
        };
        assert_eq!(self.feed.feed_page(&[]), fed);
        assert_eq!(self.feed, feed);
        number
    }
}

fn compare(segment: &[u8]) -> u32 {
    Caller::new(segment).read_through()
}

// ---- Generated segments ----

impl Rng {
    /// Short, or long, or such that 0 to 14 bytes are left in the page.
    fn length(&mut self, room: usize) -> usize {
        let length = match self.below(6) {
            0 => self.below(3),
            1 => self.below(100),
            2 => self.below(5_000),
            3 => room.saturating_sub(self.below(15)),
            4 => room + self.below(3),
            _ => self.below(RECORD_MAX + 1),
        };
        length.min(RECORD_MAX)
    }
}

/// Records as `segment::write` puts them down, with pages left empty here and there.
fn written(rng: &mut Rng) -> Vec<u8> {
    let mut segment = vec![0; (1 + rng.below(6)) * PAGE];
    let mut place = 0;
    for _ in 0..rng.below(20) {
        let length = rng.length(left_in_page(place) - HEADER).max(1);
        let record = rng.bytes(length);
        match segment::write(Version::One, &mut segment, place, &record) {
            Ok(next) => place = next,
            Err(_) => break,
        }
        if rng.once_in(8) {
            place = (place / PAGE + 1 + rng.below(2)) * PAGE;
        }
        if place > segment.len() {
            break;
        }
    }
    if rng.once_in(2) {
        segment.truncate(place);
    }
    segment
}

/// Fragments in a good order that stop anywhere in their pages, as no writer of ours splits.
fn foreign(rng: &mut Rng) -> Vec<u8> {
    let mut segment = Vec::new();
    let mut open = false;
    let longest = (1 + rng.below(6)) * PAGE;
    while segment.len() < longest {
        let left = left_in_page(segment.len());
        if left < HEADER {
            segment.resize(segment.len() + left, 0);
            continue;
        }
        let kind = match open {
            true => rng.pick(&[MIDDLE, MIDDLE, LAST]),
            false => rng.pick(&[EMPTY, FULL, FIRST, FIRST]),
        };
        if kind == EMPTY {
            segment.resize(segment.len() + left, 0);
            continue;
        }
        let mut length = rng.length(left - HEADER).min(left - HEADER);
        // A hollow fragment ends the reading, so it is rare; where there is no room for a byte it
        // is a type 2 or 3 instead, which stays good.
        let kind = match kind {
            FULL if left == HEADER => FIRST,
            LAST if left == HEADER => MIDDLE,
            _ => kind,
        };
        if length == 0 && (kind == FULL || kind == LAST) && !rng.once_in(8) {
            length = 1;
        }
        segment.extend(fragment(kind, &rng.bytes(length)));
        open = kind == FIRST || kind == MIDDLE;
    }
    segment
}

/// Cuts, appends or alters bytes, or leaves them.
fn damage(rng: &mut Rng, segment: &mut Vec<u8>) {
    match rng.below(6) {
        0 => {}
        1 => segment.truncate(rng.below(segment.len() + 1)),
        2 => {
            let more = rng.below(2 * PAGE);
            segment.resize(segment.len() + more, 0);
        }
        3 => {
            let noise = rng.below(20);
            segment.extend(rng.bytes(noise));
        }
        4 => damage_header(rng, segment),
        _ if segment.is_empty() => {}
        _ => {
            let place = rng.below(segment.len());
            segment[place] ^= 1 << rng.below(8);
        }
    }
}

/// Another type byte or length for one of the first fragments, since nothing behind a refusal is
/// read.
fn damage_header(rng: &mut Rng, segment: &mut [u8]) {
    let mut at = 0;
    while at + HEADER <= segment.len() && !rng.once_in(6) {
        let length = u16::from_be_bytes([segment[at + 1], segment[at + 2]]);
        at += HEADER + usize::from(length);
        if segment.get(at) == Some(&EMPTY) || left_in_page(at) < HEADER {
            at += left_in_page(at);
        }
    }
    if let Some([kind, high, ..]) = segment.get_mut(at..) {
        match rng.below(3) {
            0 => *high = rng.next() as u8,
            1 => *kind = rng.below(8) as u8,
            _ => *kind = rng.next() as u8,
        }
    }
}

#[test]
fn generated_segments() {
    let mut rng = Rng(2);
    let mut answers = BTreeSet::new();
    for case in 0..4_000 {
        let mut segment = match case % 2 {
            0 => written(&mut rng),
            _ => foreign(&mut rng),
        };
        damage(&mut rng, &mut segment);
        answers.insert(compare(&segment));
    }
    // Every way in which a reading ends was met.
    let all = [
        CLEAN,
        RESERVED,
        COMPRESSED,
        BAD_TYPE,
        NOT_ZERO,
        OUT_OF_ORDER,
        PAST_PAGE,
        TOO_LONG,
        BAD_SUM,
        TORN,
        HOLLOW,
    ];
    assert_eq!(answers, BTreeSet::from(all));
}

#[test]
fn noise() {
    let mut rng = Rng(3);
    for _ in 0..2_000 {
        let length = rng.below(2 * PAGE);
        let mut segment = rng.bytes(length.min(40));
        segment.resize(length, 0);
        if let Some(kind) = segment.first_mut() {
            *kind %= 5;
        }
        compare(&segment);
    }
}

/// Four pages each: a record that leaves 0, 6 or 7 bytes of the first page, one over page ends,
/// zeros to the end of the third page, and one that fills the fourth.
fn bordered() -> [Vec<u8>; 3] {
    [32_761, 32_755, 32_754].map(|length| {
        let mut segment = vec![0; 4 * PAGE];
        let next =
            segment::write(Version::One, &mut segment, 0, &vec![1; length]).expect("it fits");
        let next = segment::write(Version::One, &mut segment, next, &[2; 40_000]).expect("it fits");
        assert_eq!(next / PAGE, 2);
        segment::write(Version::One, &mut segment, 3 * PAGE, &[3; FRAGMENT_MAX]).expect("it fits");
        segment
    })
}

#[test]
fn cuts_at_every_byte_near_page_ends() {
    for segment in bordered() {
        for page_end in (0..=segment.len()).step_by(PAGE) {
            for length in page_end.saturating_sub(20)..=page_end + 20 {
                compare(&segment[..length.min(segment.len())]);
            }
        }
    }
}

#[test]
fn every_byte_near_page_ends_damaged() {
    for mut segment in bordered() {
        for page_end in (0..=segment.len()).step_by(PAGE) {
            for place in page_end.saturating_sub(12)..(page_end + 12).min(segment.len()) {
                let byte = segment[place];
                for other in [byte ^ 1, byte ^ 8, 4, 3] {
                    segment[place] = other;
                    compare(&segment);
                }
                segment[place] = byte;
            }
        }
    }
}

#[test]
fn the_longest_record_and_one_byte_more() {
    let mut segment = fragment(FIRST, &[1; FRAGMENT_MAX]);
    segment.extend(fragment(MIDDLE, &[2; FRAGMENT_MAX]));
    let two = segment.len();
    segment.extend(fragment(LAST, &[3; 14]));
    assert_eq!(compare(&segment), CLEAN);
    segment.truncate(two);
    segment.extend(fragment(LAST, &[3; 15]));
    assert_eq!(compare(&segment), TOO_LONG);
}

/// Document 02 [5]: bytes that were written, cut just after a fragment's type byte and followed by
/// zeros, give exactly the records that are whole before the cut.
#[test]
fn zeros_after_a_type_byte() {
    let mut rng = Rng(6);
    for _ in 0..60 {
        let segment = written(&mut rng);
        let whole = ends_of_records(&segment);
        for at in type_bytes(&segment) {
            for zeros in [0, 1, 5, 6, 7, 8, 40, PAGE, 2 * PAGE] {
                let mut cut = segment[..=at].to_vec();
                cut.resize(at + 1 + zeros, 0);
                assert_ne!(compare(&cut), CLEAN);
                let before = whole.iter().take_while(|&&after| after <= at + 1).count();
                assert_eq!(ends_of_records(&cut), whole[..before]);
            }
        }
    }
}

/// The places after the records that come out.
fn ends_of_records(segment: &[u8]) -> Vec<usize> {
    let mut buffer = vec![0; RECORD_MAX];
    let mut ends = vec![];
    let good = &mut Good::default();
    while let Ok(Reading::Record(record)) =
        segment::read(Version::One, segment, good.offset, &mut buffer, good)
    {
        ends.push(record.after);
    }
    ends
}

/// Where the fragments of written bytes begin.
fn type_bytes(segment: &[u8]) -> Vec<usize> {
    let mut places = vec![];
    let mut at = 0;
    while at < segment.len() {
        if left_in_page(at) < HEADER || segment[at] == EMPTY {
            at += left_in_page(at);
            continue;
        }
        places.push(at);
        at += HEADER + usize::from(u16::from_be_bytes([segment[at + 1], segment[at + 2]]));
    }
    places
}

#[test]
fn a_hollow_fragment_is_refused_where_it_stands() {
    let first = fragment(FIRST, &[1; FRAGMENT_MAX]);
    let hollow = fragment(LAST, &[]);
    let mut buffer = vec![UNTOUCHED; RECORD_MAX];
    let mut feed = Feed::start(Version::One);
    assert_eq!(feed.feed_page(&first), Ok(()));
    assert_eq!(feed.read(&first, &mut buffer), Read::More);
    assert_eq!(feed.feed_page(&hollow), Ok(()));
    assert_eq!(feed.read(&hollow, &mut buffer), refused(HOLLOW, PAGE));
    // It stands, and what was verified before it stays in the buffer.
    feed_refused(&mut feed, &[], HOLLOW, PAGE);
    read_refused(&mut feed, &hollow, refused(HOLLOW, PAGE));
    assert_eq!(buffer[FRAGMENT_MAX - 1..][..2], [1, UNTOUCHED]);
    assert_eq!(compare(&[first.clone(), hollow].concat()), HOLLOW);
    assert_eq!(compare(&fragment(FULL, &[])), HOLLOW);
    // Types 2 and 3 of length 0 are good.
    let last = fragment(LAST, &[7]);
    let good = [fragment(FIRST, &[]), fragment(MIDDLE, &[]), last].concat();
    assert_eq!(compare(&good), CLEAN);
}

/// What a technician may keep of the real segments: their records and the place after the last, as
/// Prometheus' decoder gave them, up to the empty record that we refuse.
#[test]
fn the_good_length_of_what_prometheus_wrote() {
    let folder = concat!(env!("CARGO_MANIFEST_DIR"), "/../tests/fixtures");
    for (name, records, offset, number) in [
        ("small_kill9", 294, 52_878, CLEAN),
        ("cut_enospc_kill9", 32, 96_861, TORN),
        ("real_encoder_extremes", 24, 22_162, HOLLOW),
        ("compressed_default", 0, 0, COMPRESSED),
    ] {
        let segment = std::fs::read(format!("{folder}/{name}_00000000")).expect("a fixture");
        assert_eq!(compare(&segment), number);
        let mut buffer = vec![0; RECORD_MAX];
        let good = &mut Good::default();
        while let Ok(Reading::Record(_)) =
            segment::read(Version::One, &segment, good.offset, &mut buffer, good)
        {}
        assert_eq!((good.records, good.offset), (records, offset), "{name}");
    }
}

// ---- Orders of calls ----

/// A whole page with one record of a byte, then zeros.
fn page_of_one() -> Vec<u8> {
    let mut page = fragment(FULL, &[7]);
    page.resize(PAGE, 0);
    page
}

const ONE: Read = Read::Record {
    start: 0,
    length: 1,
    next: 8,
};

/// A feed that gives this answer and leaves the state as it was.
fn feed_refused(feed: &mut Feed, page: &[u8], number: u32, place: usize) {
    let before = *feed;
    assert_eq!(feed.feed_page(page), refuse(number, place));
    assert_eq!(*feed, before);
}

/// A read that gives this answer and leaves the state and the buffer as they were.
fn read_refused(feed: &mut Feed, page: &[u8], answer: Read) {
    let before = *feed;
    let mut buffer = vec![UNTOUCHED; RECORD_MAX];
    assert_eq!(feed.read(page, &mut buffer), answer);
    assert_eq!(*feed, before);
    assert!(buffer.iter().all(|&byte| byte == UNTOUCHED));
}

#[test]
fn a_read_before_any_feed_asks() {
    let mut feed = Feed::start(Version::One);
    for page in [&[][..], &[9], &[0; PAGE + 1]] {
        read_refused(&mut feed, page, Read::More);
    }
    assert_eq!(feed.feed_page(&[]), Ok(()));
    read_refused(&mut feed, &[], Read::CleanEnd);
    feed_refused(&mut feed, &[], BAD_PLACE, 0);
    read_refused(&mut feed, &[], Read::CleanEnd);
}

#[test]
fn a_feed_that_no_read_asked_for() {
    let page = page_of_one();
    let mut buffer = vec![0; RECORD_MAX];
    let mut feed = Feed::start(Version::One);
    assert_eq!(feed.feed_page(&page), Ok(()));
    feed_refused(&mut feed, &page, BAD_PLACE, 0);
    feed_refused(&mut feed, &[0; PAGE + 1], BAD_BUFFER, 0);
    assert_eq!(feed.read(&page, &mut buffer), ONE);
    feed_refused(&mut feed, &page, BAD_PLACE, 0);
    assert_eq!(feed.read(&page, &mut buffer), Read::More);
    read_refused(&mut feed, &page, Read::More);
    read_refused(&mut feed, &[], Read::More);
    // A feed that is refused leaves what was asked for, and asking twice is asking once.
    feed_refused(&mut feed, &[0; PAGE + 1], BAD_BUFFER, 0);
    assert_eq!(feed.feed_page(&page[..8]), Ok(()));
    feed_refused(&mut feed, &page, BAD_PLACE, 0);
    let (start, length, next) = (PAGE, 1, PAGE + 8);
    let second = Read::Record {
        start,
        length,
        next,
    };
    assert_eq!(feed.read(&page[..8], &mut buffer), second);
    read_refused(&mut feed, &page[..8], Read::CleanEnd);
    feed_refused(&mut feed, &[], BAD_PLACE, 0);
    feed_refused(&mut feed, &[0; PAGE + 1], BAD_BUFFER, 0);
}

#[test]
fn a_record_that_ends_with_its_page_is_answered_at_once() {
    let page = fragment(FULL, &[7; FRAGMENT_MAX]);
    let mut buffer = vec![0; RECORD_MAX];
    let mut feed = Feed::start(Version::One);
    assert_eq!(feed.feed_page(&page), Ok(()));
    let record = Read::Record {
        start: 0,
        length: FRAGMENT_MAX,
        next: PAGE,
    };
    assert_eq!(feed.read(&page, &mut buffer), record);
    feed_refused(&mut feed, &[], BAD_PLACE, 0);
    assert_eq!(feed.read(&page, &mut buffer), Read::More);
    assert_eq!(feed.feed_page(&[]), Ok(()));
    assert_eq!(feed.read(&[], &mut buffer), Read::CleanEnd);
}

#[test]
fn a_short_buffer_does_not_ask() {
    let mut page = page_of_one();
    page[8] = 9;
    let mut short = vec![0; RECORD_MAX - 1];
    let mut feed = Feed::start(Version::One);
    assert_eq!(feed.read(&[], &mut short), refused(BAD_BUFFER, 0));
    assert_eq!(feed.feed_page(&page), Ok(()));
    let mut buffer = vec![0; RECORD_MAX + 1];
    assert_eq!(feed.read(&page, &mut short), refused(BAD_BUFFER, 0));
    assert_eq!(feed.read(&page, &mut buffer), ONE);
    assert_eq!(feed.read(&page, &mut short), refused(BAD_BUFFER, 0));
    feed_refused(&mut feed, &page, BAD_PLACE, 0);
    assert!(short.iter().all(|&byte| byte == 0));
    // Before a refusal that stands, too.
    assert_eq!(feed.read(&page, &mut buffer), refused(COMPRESSED, 8));
    assert_eq!(feed.read(&page, &mut short), refused(BAD_BUFFER, 0));
}

#[test]
fn a_page_of_another_length() {
    let mut page = page_of_one();
    page[8] = 5;
    let mut buffer = vec![0; RECORD_MAX];
    let mut feed = Feed::start(Version::One);
    assert_eq!(feed.feed_page(&page), Ok(()));
    read_refused(&mut feed, &page[1..], refused(BAD_BUFFER, 0));
    read_refused(&mut feed, &[], refused(BAD_BUFFER, 0));
    assert_eq!(feed.read(&page, &mut buffer), ONE);
    read_refused(&mut feed, &[0; PAGE + 1], refused(BAD_BUFFER, 0));
    assert_eq!(feed.read(&page, &mut buffer), refused(BAD_TYPE, 8));
    // Before the refusal that stands; it stands on.
    read_refused(&mut feed, &page[1..], refused(BAD_BUFFER, 0));
    read_refused(&mut feed, &page, refused(BAD_TYPE, 8));
}

#[test]
fn a_refusal_stands_before_all_others() {
    let mut buffer = vec![0; RECORD_MAX];
    for page in [vec![9], [&[9][..], &[0; PAGE - 1]].concat()] {
        let mut feed = Feed::start(Version::One);
        assert_eq!(feed.feed_page(&page), Ok(()));
        assert_eq!(feed.read(&page, &mut buffer), refused(COMPRESSED, 0));
        for later in [&[][..], &[0; PAGE], &[0; PAGE + 1]] {
            feed_refused(&mut feed, later, COMPRESSED, 0);
        }
        read_refused(&mut feed, &page, refused(COMPRESSED, 0));
    }
}

#[test]
fn torn_does_not_stand() {
    let page = fragment(FIRST, &[1]);
    let mut buffer = vec![UNTOUCHED; RECORD_MAX];
    let mut feed = Feed::start(Version::One);
    assert_eq!(feed.feed_page(&page), Ok(()));
    assert_eq!(feed.read(&page, &mut buffer), refused(TORN, 0));
    assert_eq!(buffer[..2], [1, UNTOUCHED]);
    read_refused(&mut feed, &page, refused(TORN, 0));
    feed_refused(&mut feed, &page, BAD_PLACE, 0);
    feed_refused(&mut feed, &[0; PAGE + 1], BAD_BUFFER, 0);
}

#[test]
fn fragments_are_stored_before_the_record_is_whole() {
    let first = fragment(FIRST, &[1; FRAGMENT_MAX]);
    let mut bad = fragment(LAST, &[2; 9]);
    bad[HEADER] = 3;
    let mut buffer = vec![UNTOUCHED; RECORD_MAX];
    let mut feed = Feed::start(Version::One);
    assert_eq!(feed.feed_page(&first), Ok(()));
    assert_eq!(feed.read(&first, &mut buffer), Read::More);
    assert_eq!(buffer[..FRAGMENT_MAX], [1; FRAGMENT_MAX]);
    assert_eq!(feed.feed_page(&bad), Ok(()));
    assert_eq!(feed.read(&bad, &mut buffer), refused(BAD_SUM, PAGE));
    assert_eq!(buffer[FRAGMENT_MAX - 1..][..2], [1, UNTOUCHED]);
}

// ---- The limit ----

/// 4,096 pages of zeros: as much as is taken, and more is asked for at the end too.
#[test]
fn limit() {
    let page = vec![0; PAGE];
    let mut feed = Feed::start(Version::One);
    let mut buffer = vec![0; RECORD_MAX];
    for _ in 0..SEGMENT_MAX / PAGE {
        assert_eq!(feed.feed_page(&page), Ok(()));
        assert_eq!(feed.read(&page, &mut buffer), Read::More);
    }
    feed_refused(&mut feed, &page, BAD_BUFFER, 0);
    feed_refused(&mut feed, &[0], BAD_BUFFER, 0);
    read_refused(&mut feed, &page, Read::More);
    assert_eq!(feed.feed_page(&[]), Ok(()));
    read_refused(&mut feed, &[], Read::CleanEnd);
    feed_refused(&mut feed, &[0], BAD_BUFFER, 0);
    feed_refused(&mut feed, &[], BAD_PLACE, 0);
}

/// The limit comes before what was not asked for.
#[test]
fn limit_without_asking() {
    let page = vec![0; PAGE];
    let mut feed = Feed::start(Version::One);
    let mut buffer = vec![0; RECORD_MAX];
    for _ in 1..SEGMENT_MAX / PAGE {
        assert_eq!(feed.feed_page(&page), Ok(()));
        assert_eq!(feed.read(&page, &mut buffer), Read::More);
    }
    feed_refused(&mut feed, &[0; PAGE + 1], BAD_BUFFER, 0);
    assert_eq!(feed.feed_page(&page), Ok(()));
    feed_refused(&mut feed, &[0], BAD_BUFFER, 0);
    feed_refused(&mut feed, &[], BAD_PLACE, 0);
}

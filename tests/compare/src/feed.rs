//! The page feed against the second program and against one slice: answer, `out` with the good
//! length, the state, every byte of the page and of the record buffer, after each call.

mod corpus;
mod limit;
mod orders;
mod states;

pub use corpus::compare_file;

use crate::ffi::feed::{self, State, MORE};
use crate::ffi::{self, Answer, Pair, END};
use crate::generate;
use crate::rng::Rng;
use crate::twin::Twin;
use crate::Group;
use reference::feed::{Feed, Read};
use reference::refusal::{Refusal, BAD_BUFFER};
use reference::segment::{Good, PAGE, RECORD_MAX, SEGMENT_MAX};
use reference::version::Version;

pub fn groups() -> Vec<Group> {
    vec![
        ("feed, written segments", corpus::compare_written),
        ("feed, cuts", corpus::compare_cuts),
        ("feed, damage", corpus::compare_damage),
        ("feed, tails of zeros", corpus::compare_tails),
        ("feed, zeros after a cut", corpus::compare_zeros),
        ("feed, foreign splittings", corpus::compare_foreign),
        ("feed, foreign long records", corpus::compare_foreign_long),
        ("feed, random bytes", corpus::compare_noise),
        ("feed, many pages", corpus::compare_many_pages),
        ("feed, calls in any order", orders::compare_orders),
        ("feed, arbitrary states", states::check_states),
        ("feed, at the limit", limit::compare_limit),
    ]
}

/// Bytes that a page may be too long by.
const EXCESS: usize = 64;

/// A reading by the archive and by the second program, side by side, with the bytes lent to both.
struct Feeds {
    /// The page that was taken last, with noise after it.
    page: Twin,
    /// Its length, and that of all pages taken.
    fed: usize,
    total: usize,
    /// What is offered to a feed. Once taken it is the page: what reads are lent is what was fed.
    offer: Twin,
    buffer: Twin,
    /// What one slice is read into.
    slice_buffer: Vec<u8>,
    /// What the pages are read as.
    version: Version,
    ours: State,
    theirs: Feed,
    /// A read gave no record and no page was taken since: a further read leaves the state.
    settled: bool,
    /// Decides between the versions.
    coin: Rng,
    cases: u64,
}

impl Feeds {
    fn new(rng: &mut Rng) -> Feeds {
        Feeds {
            page: Twin::new(rng, PAGE + EXCESS),
            fed: 0,
            total: 0,
            offer: Twin::new(rng, PAGE + EXCESS),
            buffer: Twin::new(rng, RECORD_MAX + 64),
            slice_buffer: vec![0; RECORD_MAX],
            version: Version::One,
            ours: [0; feed::STATE_LEN],
            theirs: Feed::start(Version::One),
            settled: false,
            coin: Rng::new(rng.number()),
            cases: 0,
        }
    }

    /// Moves what is lent to any alignment.
    fn shift(&mut self, rng: &mut Rng) {
        for twin in [&mut self.page, &mut self.offer, &mut self.buffer] {
            twin.shift(rng);
        }
        if rng.once_in(8) {
            self.buffer.refill(rng);
        }
    }

    /// A fresh state in both; before the first feed the page is an empty one.
    fn start(&mut self) -> Result<(), String> {
        self.cases += 1;
        let started = feed::start(self.version.number() as u32);
        if started.number != 0 || started.beside {
            return Err(format!("{:?}: started with {started:?}", self.version));
        }
        self.ours = started.out;
        self.theirs = Feed::start(self.version);
        self.fed = 0;
        self.total = 0;
        self.settled = false;
        Ok(())
    }

    /// Feeds the first `length` bytes of what is offered.
    fn feed(&mut self, length: usize) -> Result<Answer<3>, String> {
        self.cases += 1;
        let before = self.ours;
        let (ours, theirs) = self.offer.both(0..length);
        let got = feed::feed_page(&mut self.ours, ours);
        let wanted = page_answer(self.theirs.feed_page(theirs), self.theirs.good());
        let what = || format!("feed of {length} bytes after {}", self.total);
        compare(got, wanted, [&self.offer, &self.buffer])
            .and_then(|()| left(got.number != 0, &before, &self.ours))
            .map_err(|why| format!("{}, state {before:?}: {why}", what()))?;
        if got.number == 0 {
            std::mem::swap(&mut self.page, &mut self.offer);
            self.fed = length;
            self.total += length;
            self.settled = false;
        }
        Ok(got)
    }

    /// Offers and feeds the page of these bytes that comes next.
    fn feed_next(&mut self, bytes: &[u8]) -> Result<Answer<3>, String> {
        let rest = &bytes[self.total.min(bytes.len())..];
        let page = &rest[..rest.len().min(PAGE)];
        self.offer.put(page);
        self.feed(page.len())
    }

    fn read(&mut self) -> Result<Answer<5>, String> {
        self.read_into(self.fed, RECORD_MAX)
    }

    /// Reads with the first `lent` bytes of the page, into the first `room` bytes of the buffer.
    fn read_into(&mut self, lent: usize, room: usize) -> Result<Answer<5>, String> {
        self.cases += 1;
        let before = self.ours;
        let (ours, theirs) = self.page.both(0..lent);
        let (our_buffer, their_buffer) = self.buffer.both(0..room);
        let got = feed::read(&mut self.ours, ours, our_buffer);
        let wanted = self.theirs.read(theirs, their_buffer);
        let wanted = read_answer(wanted, self.theirs.good());
        let (fed, total) = (self.fed, self.total);
        let what = || format!("read with {lent} bytes of {fed} into {room}, {total} fed");
        compare(got, wanted, [&self.page, &self.buffer])
            .and_then(|()| {
                let again = self.settled || got.number == BAD_BUFFER;
                left(again, &before, &self.ours)
            })
            .map_err(|why| format!("{}, state {before:?}: {why}", what()))?;
        self.settled |= got.number != 0 && got.number != BAD_BUFFER;
        Ok(got)
    }

    /// Takes a segment of version 1 over into any version.
    fn take_version(&mut self, bytes: &mut [u8]) {
        self.version = generate::any_version(&mut self.coin);
        generate::resum(self.version, bytes);
    }

    /// Reads the bytes, in any version, from their start: a page is fed whenever one is asked for,
    /// and every other answer is the one of one slice.
    fn read_all(&mut self, bytes: &[u8]) -> Result<(), String> {
        let mut bytes = bytes.to_vec();
        self.take_version(&mut bytes);
        self.read_pages(&bytes)
    }

    fn read_pages(&mut self, bytes: &[u8]) -> Result<(), String> {
        self.start()?;
        let mut place = 0;
        let mut good = [0, 0];
        loop {
            let got = self.read()?;
            if got.number == MORE {
                self.feed_asked(bytes)?;
                continue;
            }
            self.compare_with_slice(bytes, place, good, got)?;
            if got.number != 0 {
                return self.stay_at_end(got);
            }
            place = got.out[2] as usize;
            good = [got.out[3], got.out[4]];
        }
    }

    /// Feeds a page that was asked for, which has to be taken.
    fn feed_asked(&mut self, bytes: &[u8]) -> Result<(), String> {
        let total = self.total;
        if total == SEGMENT_MAX {
            limit::offer_too_much(self)?;
        }
        match self.feed_next(bytes)?.number {
            0 => Ok(()),
            number => Err(format!("the page at {total} was refused with {number}")),
        }
    }

    /// The answer, the pair and the record's bytes are those of one slice.
    fn compare_with_slice(
        &mut self,
        bytes: &[u8],
        place: usize,
        good: Pair,
        got: Answer<5>,
    ) -> Result<(), String> {
        let version = self.version.number() as u32;
        let wanted = ffi::read(version, bytes, place, &mut self.slice_buffer, good);
        let length = bytes.len();
        if got != wanted {
            return Err(format!(
                "{length} bytes, after {place}: by the feed {got:?}, by one slice {wanted:?}"
            ));
        }
        let record = 0..got.out[1] as usize;
        if got.number == 0 && self.buffer.bytes(record.clone()) != &self.slice_buffer[record] {
            return Err(format!(
                "{length} bytes, after {place}: by the feed another record"
            ));
        }
        Ok(())
    }

    /// The answer is given again, and no page is taken any more.
    fn stay_at_end(&mut self, last: Answer<5>) -> Result<(), String> {
        let again = self.read()?;
        let fed = self.feed(0)?;
        if again != last || fed.number == 0 {
            return Err(format!("after {last:?}: read {again:?}, feed {fed:?}"));
        }
        Ok(())
    }
}

/// The answers, and then what was lent to both.
fn compare<const N: usize>(
    got: Answer<N>,
    wanted: Answer<N>,
    [page, buffer]: [&Twin; 2],
) -> Result<(), String> {
    if got != wanted {
        return Err(format!("got {got:?}, wanted {wanted:?}"));
    }
    for (name, twin) in [("page", page), ("buffer", buffer)] {
        if !twin.equal_to(usize::MAX) {
            let place = twin.first_difference();
            return Err(format!("{name} differs at {place:?}, answer {got:?}"));
        }
    }
    Ok(())
}

/// A call that has to leave the state has left it.
fn left(has_to: bool, before: &State, after: &State) -> Result<(), String> {
    if has_to && before != after {
        return Err(format!("the state became {after:?}"));
    }
    Ok(())
}

/// What `depot_wal_feed_page` has to answer.
fn page_answer(fed: Result<(), Refusal>, good: Good) -> Answer<3> {
    let (number, place) = match fed {
        Ok(()) => (0, 0),
        Err(refusal) => (refusal.number, refusal.place),
    };
    Answer::new(number, [place as u64, good.records, good.offset as u64])
}

/// What `depot_wal_feed_read` has to answer.
fn read_answer(read: Read, good: Good) -> Answer<5> {
    let (number, [first, length, next]) = match read {
        Read::Record {
            start,
            length,
            next,
        } => (0, [start, length, next]),
        Read::More => (MORE, [0; 3]),
        Read::CleanEnd => (END, [0; 3]),
        Read::Refused(refusal) => (refusal.number, [refusal.place, 0, 0]),
    };
    let pair = [good.records, good.offset as u64];
    let out = [first as u64, length as u64, next as u64, pair[0], pair[1]];
    Answer::new(number, out)
}

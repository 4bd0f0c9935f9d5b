//! Additions with many strings and with long ones: counts and lengths of one to three bytes, bodies
//! that end around 65,536, buffers that just hold the entry or just do not. What is built is read
//! back.

use super::{Bench, Facts, ROOM};
use crate::ffi::Answer;
use crate::rng::Rng;
use crate::Outcome;
use reference::body::{self, State, Strings, BODY_MAX};
use reference::refusal::{BAD_LIST, NO_ROOM, TOO_LONG};
use reference::varint;

/// Pairs of strings whose number takes one byte or two.
const PAIRS: [usize; 6] = [63, 64, 127, 128, 129, 1_000];

/// Where the entries of some lists end: on both sides of the limit.
const ENDS: [usize; 5] = [65_534, 65_535, 65_536, 65_537, 65_538];

/// The most string bytes of a list, and one more than its lengths say.
const TEXT: usize = 65_537 + 1;

/// The index in an entry's `out` of the place of its first string.
const STRINGS_AT: usize = 6;

const NO_STRINGS: Strings = Strings {
    text: &[],
    lengths: &[],
};

pub fn compare(rng: &mut Rng) -> Outcome {
    let mut bench = Bench::with_text(rng, TEXT);
    for kind in [body::SERIES, body::EXEMPLARS, body::METADATA] {
        let [started, longer] = old_bodies(rng, kind);
        compare_lists(rng, &mut bench, &started)?;
        compare_lists(rng, &mut bench, &longer)?;
    }
    Ok(bench.cases)
}

/// The bodies that are added to: one just started, one with an entry.
fn old_bodies(rng: &mut Rng, kind: u8) -> [Vec<u8>; 2] {
    let mut bytes = vec![0; 64];
    let started = body::start(&mut bytes, kind).expect("a body starts");
    let entry = Facts::any(rng, (7, 1_000)).entry(kind, NO_STRINGS);
    let longer = body::add(&mut bytes, started, &entry).expect("an entry fits");
    [started, longer].map(|state| bytes[..state.used].to_vec())
}

/// Every list, added to this body.
fn compare_lists(rng: &mut Rng, bench: &mut Bench, old: &[u8]) -> Result<(), String> {
    let facts = Facts::any(rng, (7, 1_000));
    let head = head_end(old, &facts);
    for lengths in lists(rng, head) {
        let end = head + list_size(&lengths);
        let text = lengths.iter().sum::<u64>() as usize;
        let facts = facts.with_strings(text, lengths);
        compare_good(rng, bench, old, &facts, end)?;
        compare_spoilt(rng, bench, old, &facts)?;
    }
    Ok(())
}

/// Where the number of pairs is in the entry added to this body: an entry without strings ends one
/// byte later.
fn head_end(old: &[u8], facts: &Facts) -> usize {
    let mut buffer = [old, &[0; 64]].concat();
    let (kind, used) = (old[0], old.len());
    let entry = facts.entry(kind, NO_STRINGS);
    let added = body::add(&mut buffer, State { kind, used }, &entry).expect("an entry fits");
    added.used - 1
}

/// Bytes of the number of pairs and of the strings with their lengths.
fn list_size(lengths: &[u64]) -> usize {
    let string = |&length: &u64| varint::uvarint_length(length) + length as usize;
    let pairs = lengths.len() as u64 / 2;
    varint::uvarint_length(pairs) + lengths.iter().map(string).sum::<usize>()
}

impl Facts {
    fn with_strings(&self, text: usize, lengths: Vec<u64>) -> Facts {
        Facts {
            text,
            lengths,
            ..*self
        }
    }
}

// ---- The lists ----

fn lists(rng: &mut Rng, head: usize) -> Vec<Vec<u64>> {
    let mut lists = Vec::new();
    for pairs in PAIRS {
        let (short, mixed) = (short(rng, 2 * pairs), mixed(rng, 2 * pairs));
        lists.extend([vec![0; 2 * pairs], short, mixed]);
    }
    lists.extend(many_empty(head));
    lists.extend(long_pairs());
    lists.extend(near_limit(rng, head));
    lists
}

/// Strings of less than 8 bytes, empty ones among them.
fn short(rng: &mut Rng, count: usize) -> Vec<u64> {
    (0..count).map(|_| rng.below(8) as u64).collect()
}

/// Short strings, every tenth about as long as a length of one byte can say.
fn mixed(rng: &mut Rng, count: usize) -> Vec<u64> {
    let mut lengths = short(rng, count);
    for length in lengths.iter_mut().skip(9).step_by(10) {
        *length = 126 + rng.below(4) as u64;
    }
    lengths
}

/// Empty strings: as many as fit, where their number of pairs takes three bytes, and a pair more;
/// as many as a body has bytes at most, and a pair more.
fn many_empty(head: usize) -> [Vec<u64>; 4] {
    let fitting = (BODY_MAX - head - 3) / 2 * 2;
    [fitting, fitting + 2, 65_536, 65_538].map(|count| vec![0; count])
}

/// One pair whose strings alone are as long as the longest body, or a byte longer.
fn long_pairs() -> [Vec<u64>; 6] {
    [
        vec![0, 65_536],
        vec![65_536, 0],
        vec![32_768, 32_768],
        vec![0, 65_537],
        vec![65_537, 0],
        vec![1, 65_536],
    ]
}

/// Lists whose entry ends at each of `ENDS`: some strings with a long one before or after them.
fn near_limit(rng: &mut Rng, head: usize) -> Vec<Vec<u64>> {
    let one = [0, 1, 127, 128, 16_383, 16_384, 32_752].map(|length| vec![length]);
    let many = [127, 255, 1_999].map(|count| short(rng, count));
    let mut lists = Vec::new();
    for others in [&one[..], &many].concat() {
        let long = ENDS.map(|end| long_length(head, &others, end));
        lists.extend(long.map(|long| [&[long], &others[..]].concat()));
        lists.extend(long.map(|long| [&others[..], &[long]].concat()));
    }
    lists
}

/// The length of a string with which the entry ends there. It takes three bytes, two more than that
/// of an empty string.
fn long_length(head: usize, others: &[u64], end: usize) -> u64 {
    let with_empty = [others, &[0]].concat();
    (end - head - list_size(&with_empty) - 2) as u64
}

// ---- The additions ----

/// The list in buffers with no room at all, a byte too short, just long enough, and longer; the
/// last holds it, unless it is too long for any body.
fn compare_good(
    rng: &mut Rng,
    bench: &mut Bench,
    old: &[u8],
    facts: &Facts,
    end: usize,
) -> Result<(), String> {
    let used = old.len();
    for length in [used, end - 1, end, BODY_MAX, ROOM] {
        let wanted = good_answer(used, end, length);
        add(rng, bench, old, facts, length, wanted)?;
    }
    if end > BODY_MAX {
        return Ok(());
    }
    read_back(rng, bench, used, end)
}

/// By FORMAT 10.5: TooLong before NoRoom, both at the bytes used.
fn good_answer(used: usize, end: usize, length: usize) -> Answer<2> {
    let used = used as u64;
    if end > BODY_MAX {
        Answer::new(TOO_LONG, [used, used])
    } else if end > length {
        Answer::new(NO_ROOM, [used, used])
    } else {
        Answer::new(0, [end as u64, 0])
    }
}

/// BadList before both, so with no room at all as well as with much.
fn compare_spoilt(
    rng: &mut Rng,
    bench: &mut Bench,
    old: &[u8],
    facts: &Facts,
) -> Result<(), String> {
    let wanted = Answer::new(BAD_LIST, [old.len() as u64, 0]);
    for spoilt in spoilt(rng, facts) {
        add(rng, bench, old, &spoilt, old.len(), wanted)?;
        add(rng, bench, old, &spoilt, ROOM, wanted)?;
    }
    Ok(())
}

/// The list with lengths that add up to one more than the string bytes, by the last of them and by
/// another, and to one less; with an empty string more; with the last two strings joined.
fn spoilt(rng: &mut Rng, facts: &Facts) -> [Facts; 5] {
    let Facts { text, lengths, .. } = facts;
    let last = lengths.len() - 1;
    let more = |index: usize| {
        let mut lengths = lengths.clone();
        lengths[index] += 1;
        facts.with_strings(*text, lengths)
    };
    let mut joined = lengths[..last].to_vec();
    joined[last - 1] += lengths[last];
    [
        more(rng.below(last)),
        more(last),
        facts.with_strings(text + 1, lengths.clone()),
        facts.with_strings(*text, [&lengths[..], &[0]].concat()),
        facts.with_strings(*text, joined),
    ]
}

/// One addition to the old body in a buffer of this length, with new noise after the body, so that
/// a byte that is not written shows. The answer of both has to be the one that is wanted here, so
/// that a list cannot be refused unnoticed.
fn add(
    rng: &mut Rng,
    bench: &mut Bench,
    old: &[u8],
    facts: &Facts,
    length: usize,
    wanted: Answer<2>,
) -> Result<(), String> {
    bench.body.refill(rng);
    bench.body.shift(rng);
    bench.body.put(old);
    let (kind, used) = (old[0], old.len());
    let got = bench.add(length, State { kind, used }, facts, kind)?;
    if got == wanted {
        return Ok(());
    }
    Err(format!(
        "add to {used} bytes of kind {kind} in {length}: both {got:?}, wanted {wanted:?}; {facts}"
    ))
}

/// Reads what was built, whole and cut inside the strings of the last entry, which is at `place`.
fn read_back(rng: &mut Rng, bench: &mut Bench, place: usize, end: usize) -> Result<(), String> {
    bench.read_through(end)?;
    let strings = bench.entry_at(end, place)?.out[STRINGS_AT] as usize;
    for cut in [end - 1, end - 2, strings + rng.below(end - strings)] {
        bench.check(cut)?;
        bench.entry_at(cut, place)?;
        bench.string_at(cut, strings)?;
    }
    Ok(())
}

//! Tables that are full, or nearly so: the record that brings a 257th series is not added, and ends
//! the report.

use super::readings::any_reading;
use super::Nights;
use crate::logs::{samples, Log, World};
use crate::rng::Rng;
use crate::Outcome;
use reference::refusal::{SHORT, TABLE_FULL};
use reference::replay::SERIES_MAX;

/// A row of the record that may bring one too many.
#[derive(Clone, Copy)]
enum Word {
    New,
    /// Met in a record before.
    Known,
    /// As the row before it.
    Again,
}

const WORDS: [Word; 3] = [Word::New, Word::Known, Word::Again];

/// The longest record of words.
const LONGEST: u32 = 5;

/// So many series and then every record of up to five words; whole, and with its last byte missing,
/// for which the body's number comes before 28 and the report goes on.
pub fn compare_words(rng: &mut Rng) -> Outcome {
    let mut nights = Nights::new(rng);
    for known in [1, 2, 252, 253, 254, 255, 256] {
        let ids = World::new(rng, known + LONGEST as usize).ids;
        for length in 1..=LONGEST {
            for number in 0..3usize.pow(length) {
                let word = |place| WORDS[number / 3usize.pow(place) % 3];
                let record: Vec<Word> = (0..length).map(word).collect();
                compare_record(rng, &mut nights, known, &ids, &record)?;
            }
        }
    }
    Ok(nights.cases)
}

fn compare_record(
    rng: &mut Rng,
    nights: &mut Nights,
    known: usize,
    ids: &[u64],
    words: &[Word],
) -> Result<(), String> {
    let record = rows_of(rng, known, ids, words);
    let mut short = record.clone();
    short.pop();
    let later = samples(&[(ids[0], 3, any_reading(rng))]);
    let new = words.iter().filter(|word| matches!(word, Word::New));
    let full = known + new.count() > SERIES_MAX;

    nights.start(rng);
    let met: Vec<_> = ids[..known]
        .iter()
        .map(|&id| (id, 0, any_reading(rng)))
        .collect();
    let most = rng.pick(&[1, 7, 100, SERIES_MAX]);
    let mut bodies: Vec<Vec<u8>> = met.chunks(most).map(samples).collect();
    if rng.once_in(2) {
        nights.add_log(rng, &Log::of(&bodies).bytes)?;
        bodies.clear();
    }
    let refused = [&bodies[..], &[short, later.clone()]].concat();
    let got = nights.add_log(rng, &Log::of(&refused).bytes)?;
    expect(got.number, SHORT)?;
    let whole = [later.clone(), record, later.clone()];
    let got = nights.add_log(rng, &Log::of(&whole).bytes)?;
    expect(got.number, if full { TABLE_FULL } else { 0 })?;
    let after = nights.add_log(rng, &Log::of(&[later]).bytes)?;
    match after == got {
        true => Ok(()),
        false => Err(format!("after {got:?}: {after:?}")),
    }
}

/// The rows that the words mean. The new ids are those after the known.
fn rows_of(rng: &mut Rng, known: usize, ids: &[u64], words: &[Word]) -> Vec<u8> {
    let mut new = known;
    let mut last = ids[0];
    let mut rows = Vec::new();
    for word in words {
        match word {
            Word::New => {
                last = ids[new];
                new += 1;
            }
            Word::Known => last = ids[rng.below(known)],
            Word::Again => {}
        }
        rows.push((last, rng.number() as i64, any_reading(rng)));
    }
    samples(&rows)
}

fn expect(got: u32, wanted: u32) -> Result<(), String> {
    match got == wanted {
        true => Ok(()),
        false => Err(format!("a full table: {got}, and not {wanted}")),
    }
}

// ---- One long record ----

/// Rows of the longest record.
const MOST: usize = 2_400;

/// Numbers of different ids in one record.
const DIFFERENT: [usize; 8] = [1, 2, 255, 256, 257, 258, 300, MOST];

/// All ids in one record: each once; again and again in any order; the first one again and again
/// before the others.
pub fn compare_at_once(rng: &mut Rng) -> Outcome {
    let mut nights = Nights::new(rng);
    for _ in 0..12 {
        for different in DIFFERENT {
            let ids = World::new(rng, different).ids;
            let mixed: Vec<u64> = (0..MOST).map(|_| rng.pick(&ids)).collect();
            let late: Vec<u64> = (0..MOST)
                .map(|place| ids[(different + place).saturating_sub(MOST)])
                .collect();
            for ids in [&ids, &mixed, &late] {
                nights.start(rng);
                let row = |&id: &u64| (id, rng.number() as i64 >> 20, any_reading(rng));
                let rows: Vec<_> = ids.iter().map(row).collect();
                for _ in 0..2 {
                    nights.add_log(rng, &Log::of(&[samples(&rows)]).bytes)?;
                }
            }
        }
    }
    Ok(nights.cases)
}

//! Tables that are full, or nearly so: the record that brings a 257th id is refused whole.

use super::Replays;
use crate::logs::{samples, series, Log, World};
use crate::rng::Rng;
use crate::Outcome;
use reference::refusal::{SHORT, TABLE_FULL};
use reference::replay::SERIES_MAX;

/// An entry of the record that may be one too many.
#[derive(Clone, Copy)]
enum Word {
    New,
    /// Entered by a record before.
    Known,
    /// The entry just before it in the same record.
    Again,
}

const WORDS: [Word; 3] = [Word::New, Word::Known, Word::Again];

/// The longest record of words.
const LONGEST: u32 = 6;

/// So many series and then every record of up to six words; whole, and with its last byte missing,
/// for which the body's number comes before 28.
pub fn compare_words(rng: &mut Rng) -> Outcome {
    let mut replays = Replays::new(rng);
    for known in [1, 2, 252, 253, 254, 255, 256] {
        let world = World::new(rng, known + LONGEST as usize);
        let known = known_log(rng, &world.ids[..known]);
        for record in all_records() {
            compare_record(rng, &mut replays, &known, &world.ids, &record)?;
        }
    }
    Ok(replays.cases)
}

/// A log's series, and how many they are.
struct Known {
    log: Vec<Vec<u8>>,
    count: usize,
}

/// The ids entered by one record or by several, then two rows for each: so a replay that goes on
/// after a refusal, or goes back too far, is seen.
fn known_log(rng: &mut Rng, ids: &[u64]) -> Known {
    let most = rng.pick(&[1, 7, 100, SERIES_MAX]);
    let mut log: Vec<Vec<u8>> = ids.chunks(most).map(series).collect();
    let row = |&id: &u64| [(id, -5, rng.number()), (id, -4, rng.number())];
    let rows: Vec<_> = ids.iter().flat_map(row).collect();
    log.push(samples(&rows));
    let count = ids.len();
    Known { log, count }
}

fn all_records() -> Vec<Vec<Word>> {
    let mut records = Vec::new();
    for length in 1..=LONGEST {
        for number in 0..3usize.pow(length) {
            let word = |place| WORDS[number / 3usize.pow(place) % 3];
            records.push((0..length).map(word).collect());
        }
    }
    records
}

fn compare_record(
    rng: &mut Rng,
    replays: &mut Replays,
    known: &Known,
    all: &[u64],
    record: &[Word],
) -> Result<(), String> {
    let ids = ids_of(rng, record, known.count, all);
    let new = record.iter().filter(|word| matches!(word, Word::New));
    let full = known.count + new.count() > SERIES_MAX;
    let mut bodies = known.log.clone();
    let later: Vec<_> = all.iter().map(|&id| (id, 3, 1)).collect();
    bodies.extend([series(&ids), samples(&later)]);
    let got = replays.replay_log(rng, &Log::of(&bodies).bytes)?;
    expect(got.number, if full { TABLE_FULL } else { 0 })?;
    bodies[known.log.len()].pop();
    let got = replays.replay_log(rng, &Log::of(&bodies).bytes)?;
    expect(got.number, SHORT)
}

/// The ids that the words mean. The new ones are those after the known.
fn ids_of(rng: &mut Rng, record: &[Word], known: usize, all: &[u64]) -> Vec<u64> {
    let mut new = known;
    let mut last = all[0];
    let mut id = |word: &Word| {
        match word {
            Word::New => {
                last = all[new];
                new += 1;
            }
            Word::Known => last = all[rng.below(known)],
            Word::Again => {}
        }
        last
    };
    record.iter().map(&mut id).collect()
}

fn expect(got: u32, wanted: u32) -> Result<(), String> {
    match got == wanted {
        true => Ok(()),
        false => Err(format!("a full table: {got}, and not {wanted}")),
    }
}

// ---- One long record ----

/// Entries of the longest record.
const MOST: usize = 7_000;

/// Numbers of different ids in one record.
const DIFFERENT: [usize; 9] = [1, 2, 200, 255, 256, 257, 258, 300, MOST];

/// All ids in one record: each once; again and again in any order; the first one again and again
/// before the others. Then rows for all of them, or as many as fit.
pub fn compare_at_once(rng: &mut Rng) -> Outcome {
    let mut replays = Replays::new(rng);
    for _ in 0..12 {
        for different in DIFFERENT {
            let ids = World::new(rng, different).ids;
            let mixed: Vec<u64> = (0..MOST).map(|_| rng.pick(&ids)).collect();
            let late: Vec<u64> = (0..MOST)
                .map(|place| ids[(different + place).saturating_sub(MOST)])
                .collect();
            let rows = ids.iter().take(2_000);
            let rows: Vec<_> = rows.map(|&id| (id, 3, rng.number())).collect();
            for entries in [&ids, &mixed, &late] {
                let log = Log::of(&[series(entries), samples(&rows)]);
                replays.replay_log(rng, &log.bytes)?;
            }
        }
    }
    Ok(replays.cases)
}

//! What rows and a tombstone do to one series, in every order of their times.

use super::Replays;
use crate::logs::{samples, series, tombstones, Log};
use crate::rng::Rng;
use crate::Outcome;
use reference::replay::SERIES_MAX;

/// Times, in order: any two are equal, next to each other or far apart.
const TIMES: [i64; 9] = [
    i64::MIN,
    i64::MIN + 1,
    -2,
    -1,
    0,
    1,
    2,
    i64::MAX - 1,
    i64::MAX,
];

/// A series' rows before its tombstone, which has a min and a max, and its row after it; `None` is
/// no row.
#[derive(Clone, Copy)]
struct Life {
    before: [Option<i64>; 2],
    range: (i64, i64),
    after: Option<i64>,
}

/// All lives, 256 to a log; each is a case.
pub fn compare_times(rng: &mut Rng) -> Outcome {
    let mut replays = Replays::new(rng);
    let lives = all_lives();
    for lives in lives.chunks(SERIES_MAX) {
        let log = log_of(rng, lives);
        replays.replay_log(rng, &log.bytes)?;
    }
    Ok(lives.len() as u64)
}

fn all_lives() -> Vec<Life> {
    let rows = || TIMES.into_iter().map(Some).chain([None]);
    let mut lives = Vec::new();
    for first in rows() {
        for second in rows() {
            for after in rows() {
                let before = [first, second];
                lives.extend(all_ranges().map(|range| Life {
                    before,
                    range,
                    after,
                }));
            }
        }
    }
    lives
}

fn all_ranges() -> impl Iterator<Item = (i64, i64)> {
    TIMES
        .into_iter()
        .flat_map(|min| TIMES.into_iter().map(move |max| (min, max)))
}

/// The lives side by side: each step of all of them is a record.
fn log_of(rng: &mut Rng, lives: &[Life]) -> Log {
    let first = rng.number();
    let id = |index: usize| first.wrapping_add(index as u64);
    let mut step = |time: fn(&Life) -> Option<i64>| {
        let times = lives.iter().enumerate();
        let rows = times.filter_map(|(index, life)| Some((id(index), time(life)?, rng.number())));
        samples(&rows.collect::<Vec<_>>())
    };
    let ids: Vec<u64> = (0..lives.len()).map(id).collect();
    let ranges = lives.iter().enumerate();
    let ranges = ranges.map(|(index, life)| (id(index), life.range.0, life.range.1));
    Log::of(&[
        series(&ids),
        step(|life| life.before[0]),
        step(|life| life.before[1]),
        tombstones(&ranges.collect::<Vec<_>>()),
        step(|life| life.after),
    ])
}

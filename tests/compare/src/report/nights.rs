//! Nights of several segments, good and bad ones in every position, and as many as a report takes.

use super::readings::{any_reading, night_log};
use super::Nights;
use crate::ffi::Answer;
use crate::logs::{samples, Log, World};
use crate::rng::Rng;
use crate::twin::Twin;
use crate::Outcome;
use reference::refusal::{BAD_BUFFER, BAD_NAME, BAD_SUM, NOT_ZERO, SHORT, TABLE_FULL, TORN};
use reference::segment::RECORD_MAX;

/// Few ids, which every segment meets again; some segments are cut anywhere.
pub fn compare_few(rng: &mut Rng) -> Outcome {
    let mut nights = Nights::new(rng);
    for _ in 0..4_000 {
        let count = 1 + rng.below(6);
        compare_night(rng, &mut nights, count, 8, 6)?;
    }
    Ok(nights.cases)
}

/// Up to 340 ids, met by and by: many nights bring a 257th, in a record with known ones.
pub fn compare_many(rng: &mut Rng) -> Outcome {
    let mut nights = Nights::new(rng);
    for _ in 0..150 {
        let count = rng.pick(&[20, 240, 280]) + rng.below(60);
        compare_night(rng, &mut nights, count, 40, 40)?;
    }
    Ok(nights.cases)
}

fn compare_night(
    rng: &mut Rng,
    nights: &mut Nights,
    ids: usize,
    records: usize,
    most: usize,
) -> Result<(), String> {
    nights.start(rng);
    let ids = World::new(rng, ids).ids;
    for _ in 0..1 + rng.below(6) {
        let records = rng.below(records + 1);
        let log = night_log(rng, &ids, records, most);
        let version = nights.put(rng, &log.bytes);
        let length = match rng.below(3) {
            0 => rng.below(log.bytes.len() + 1),
            _ => log.bytes.len(),
        };
        nights.add(version, length)?;
    }
    Ok(())
}

// ---- Every order of good and bad ones ----

/// What becomes of a segment.
#[derive(Clone, Copy, Debug)]
enum Fate {
    Good,
    Empty,
    Torn,
    /// A body in its middle is short.
    BadBody,
    /// A byte that has to be zero is not.
    BadByte,
    OtherVersion,
    NoVersion,
    ShortBuffer,
    /// It brings the 257th series.
    Full,
}

const FATES: [Fate; 9] = [
    Fate::Good,
    Fate::Empty,
    Fate::Torn,
    Fate::BadBody,
    Fate::BadByte,
    Fate::OtherVersion,
    Fate::NoVersion,
    Fate::ShortBuffer,
    Fate::Full,
];

/// Segments of a night.
const POSITIONS: u32 = 4;

/// Nights of four segments of every fate each.
pub fn compare_orders(rng: &mut Rng) -> Outcome {
    let mut nights = Nights::new(rng);
    for night in 0..FATES.len().pow(POSITIONS) {
        nights.start(rng);
        let mut ended = None;
        for position in 0..POSITIONS {
            let fate = FATES[night / FATES.len().pow(position) % FATES.len()];
            let (got, number) = add_fate(rng, &mut nights, fate)?;
            let wanted = ended.unwrap_or(number);
            if got.number != wanted {
                return Err(format!("{fate:?} at {position}: {got:?}, and not {wanted}"));
            }
            if matches!(fate, Fate::Full) {
                ended = Some(TABLE_FULL);
            }
        }
    }
    Ok(nights.cases)
}

/// Adds a segment, and says what number it is to be answered with.
fn add_fate(rng: &mut Rng, nights: &mut Nights, fate: Fate) -> Result<(Answer<1>, u32), String> {
    let mut row = |id: u64| (id, rng.number() as i64, any_reading(rng));
    let first = samples(&[row(7), row(8)]);
    let last = samples(&[row(9), row(7)]);
    let short = vec![2; 16];
    let many: Vec<_> = (7..264).map(&mut row).collect();
    let mut bytes = match fate {
        Fate::BadBody => Log::of(&[first, short, last]).bytes,
        Fate::Full => Log::of(&[first, last.clone(), samples(&many), last]).bytes,
        Fate::Empty => Vec::new(),
        _ => Log::of(&[first, last]).bytes,
    };
    if matches!(fate, Fate::BadByte) {
        bytes.extend([0, 0, 1]);
    }
    let version = nights.put(rng, &bytes);
    let length = bytes.len();
    let (version, length, room, number) = match fate {
        Fate::Good | Fate::Empty => (version, length, RECORD_MAX, 0),
        Fate::Torn => (version, length - 1 - rng.below(40), RECORD_MAX, TORN),
        Fate::BadBody => (version, length, RECORD_MAX, SHORT),
        Fate::BadByte => (version, length, RECORD_MAX, NOT_ZERO),
        Fate::OtherVersion => (3 - version, length, RECORD_MAX, BAD_SUM),
        Fate::NoVersion => {
            let none = rng.pick(&[0, 3, 256 + version, u32::MAX]);
            (none, length, RECORD_MAX, BAD_NAME)
        }
        Fate::ShortBuffer => (version, length, rng.below(RECORD_MAX), BAD_BUFFER),
        Fate::Full => (version, length, RECORD_MAX, TABLE_FULL),
    };
    Ok((nights.add_by(version, length, room)?, number))
}

// ---- As many as there may be ----

/// 1,024 segments, of which some are refused and count; all after them are answered alike.
pub fn compare_counts(rng: &mut Rng) -> Outcome {
    let mut nights = Nights::new(rng);
    for _ in 0..3 {
        nights.start(rng);
        for position in 0..1_030 {
            let fate = match position {
                ..1_024 => rng.pick(&FATES[..8]),
                _ => rng.pick(&FATES),
            };
            let (got, number) = add_fate(rng, &mut nights, fate)?;
            let wanted = if position < 1_024 { number } else { BAD_BUFFER };
            if got.number != wanted {
                return Err(format!("segment {position}: {got:?}, and not {wanted}"));
            }
        }
    }
    Ok(nights.cases)
}

/// A real segment, whole and cut anywhere, night after night.
pub fn compare_file(rng: &mut Rng, bytes: &[u8]) -> Outcome {
    let segment = Twin::new(rng, bytes.len());
    let mut nights = Nights::with_segment(rng, segment);
    for _ in 0..10 {
        nights.start(rng);
        for _ in 0..4 {
            let version = nights.put(rng, bytes);
            nights.add(version, bytes.len())?;
            nights.add(version, rng.below(bytes.len() + 1))?;
        }
    }
    Ok(nights.cases)
}

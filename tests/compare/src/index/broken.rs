//! Indexes that no call built.

use super::Indexes;
use crate::generate;
use crate::rng::Rng;
use crate::Outcome;
use reference::index::{HEAD, ROW};
use reference::refusal::BAD_INDEX;
use reference::segment::{PAGE, SEGMENT_MAX};

/// A segment of a few records, and where it was shorter.
fn short_segment(rng: &mut Rng, indexes: &mut Indexes) -> (usize, usize) {
    let pages = 1 + rng.below(2);
    let writes = rng.below(7);
    let mut bytes = generate::written_by(rng, pages, writes).bytes;
    let zeros = rng.pick(&[0, 0, 1, 9]);
    bytes.resize(bytes.len() + zeros, 0);
    indexes.put(rng, &bytes);
    let old = bytes.len() - rng.below(bytes.len() + 1).min(rng.below(60));
    (old, bytes.len())
}

/// Every bit of every byte changed, every byte set to some others, and the index cut at every
/// length.
pub fn compare_bytes(rng: &mut Rng) -> Outcome {
    let mut indexes = Indexes::new(rng);
    for _ in 0..80 {
        let (old, new) = short_segment(rng, &mut indexes);
        let used = indexes.build_whole(old, new)?;
        let index = indexes.index.bytes(0..used).to_vec();
        for place in 0..used {
            let bits = (0..8).map(|bit| index[place] ^ 1 << bit);
            for byte in bits.chain([0, 0xFF, rng.byte()]) {
                indexes.index.put_at(place, &[byte]);
                try_all(rng, &mut indexes, (old, new), used)?;
                indexes.index.put(&index);
            }
        }
        for length in 0..used + 2 * ROW {
            try_all(rng, &mut indexes, (old, new), length)?;
            indexes.index.put(&index);
        }
    }
    Ok(indexes.cases)
}

/// Every call on what the first `used` bytes hold.
fn try_all(
    rng: &mut Rng,
    indexes: &mut Indexes,
    (old, new): (usize, usize),
    used: usize,
) -> Result<(), String> {
    indexes.check(old, used)?;
    indexes.check(new, used)?;
    indexes.at(used, rng.below(8) as u64)?;
    let room = used + rng.below(HEAD + ROW);
    indexes.extend(new, room, used).map(drop)
}

/// Numbers at the limits of what an index can say, and some of no meaning.
fn any_number(rng: &mut Rng, near: usize) -> u32 {
    match rng.below(12) {
        0 => rng.number() as u32,
        1 => rng.pick(&[0, 1, 11, 12, 13, 1 << 29, (1 << 29) + 1, 1 << 31, u32::MAX]),
        2 => rng.pick(&[PAGE, SEGMENT_MAX, SEGMENT_MAX + 1]) as u32,
        3 => (near as u32).wrapping_add(1),
        4 => (near as u32).wrapping_sub(1),
        _ => near as u32,
    }
}

/// The three numbers, or a row, set to others.
pub fn compare_numbers(rng: &mut Rng) -> Outcome {
    let mut indexes = Indexes::new(rng);
    for _ in 0..400 {
        let (old, new) = short_segment(rng, &mut indexes);
        let used = indexes.build_whole(old, new)?;
        let index = indexes.index.bytes(0..used).to_vec();
        for _ in 0..40 {
            let place = 4 * rng.below(used / 4);
            let bytes = [
                index[place],
                index[place + 1],
                index[place + 2],
                index[place + 3],
            ];
            let near = u32::from_be_bytes(bytes) as usize;
            let number = any_number(rng, near);
            indexes.index.put_at(place, &number.to_be_bytes());
            let used = match rng.below(4) {
                // As long as the first number says, modulo 2^32.
                0 => (HEAD + ROW * number as usize) as u32 as usize,
                _ => used,
            };
            try_all(rng, &mut indexes, (old, new), used.min(new))?;
            indexes.index.put(&index);
        }
    }
    Ok(indexes.cases)
}

/// `used` of every kind, also far beyond the buffer.
pub fn compare_used(rng: &mut Rng) -> Outcome {
    let mut indexes = Indexes::new(rng);
    for _ in 0..1_500 {
        let (old, new) = short_segment(rng, &mut indexes);
        let built = indexes.build(old, HEAD + old)?.out[0] as usize;
        let room = built + rng.below(30);
        for used in [
            built,
            rng.below(room + 1),
            room,
            room + 1,
            room + 2 * ROW,
            usize::MAX,
            usize::MAX - rng.below(20),
            built | 1 << 32,
            built | 1 << 63,
        ] {
            let number = indexes.extend(new, room, used)?.number;
            if used > room && number != BAD_INDEX {
                return Err(format!("{used} bytes of {room}: {number}"));
            }
            // An extension may have changed it.
            indexes.build(old, HEAD + old)?;
        }
    }
    Ok(indexes.cases)
}

/// Records of every number, in indexes of every form.
pub fn compare_look_ups(rng: &mut Rng) -> Outcome {
    let mut indexes = Indexes::new(rng);
    let mut found = 0;
    for _ in 0..60_000 {
        let count = rng.below(6);
        let rows = (0..2 * count)
            .map(|_| rng.number() as u32)
            .collect::<Vec<_>>();
        let numbers = [
            any_number(rng, count),
            any_number(rng, HEAD),
            rng.number() as u32,
        ];
        let numbers = numbers.into_iter().chain(rows);
        let bytes: Vec<u8> = numbers.flat_map(u32::to_be_bytes).collect();
        indexes.index.put(&bytes);
        let room = match rng.below(4) {
            0 => rng.below(bytes.len() + 9),
            _ => bytes.len(),
        };
        let record = match rng.below(4) {
            0 => rng.number(),
            1 => rng.pick(&[u64::MAX, 1 << 32, 1 << 61, 1 << 63]) | rng.below(3) as u64,
            _ => rng.below(7) as u64,
        };
        found += u64::from(indexes.at(room, record)?.number == 0);
    }
    match found {
        0 => Err("no record was found".to_string()),
        _ => Ok(indexes.cases),
    }
}

//! Sources that are refused: nothing is written then.

use super::corpus::pick_kept;
use super::{Checkpoints, PAGES};
use crate::bodies;
use crate::generate::{self, some_fragments, Fragment, Splitting};
use crate::logs::{any_log, broken_bodies, Log, World};
use crate::rng::Rng;
use crate::Outcome;
use reference::segment::HEADER;

/// Keeps all of the world's ids but one, from any time on.
fn pick(rng: &mut Rng, checkpoints: &mut Checkpoints, ids: &[u64]) {
    checkpoints.ids = ids[1..].to_vec();
    checkpoints.time = rng.pick(&[i64::MIN, -1, 0, 1_000]);
}

/// Short logs in which each record in turn has a body that is cut, changed or of another type; and
/// bodies that no builder makes.
pub fn compare_bodies(rng: &mut Rng) -> Outcome {
    let mut checkpoints = Checkpoints::new(rng);
    for _ in 0..12 {
        let mut world = World::new(rng, 5);
        let list: Vec<Vec<u8>> = (0..1 + rng.below(5)).map(|_| world.body(rng, 3)).collect();
        for place in 0..list.len() {
            for body in broken_bodies(rng, &list[place]) {
                let mut list = list.clone();
                list[place] = body;
                pick(rng, &mut checkpoints, &world.ids);
                checkpoints.keep_log(rng, &Log::of(&list).bytes, 1)?;
            }
        }
    }
    for _ in 0..6_000 {
        let mut world = World::new(rng, 4);
        let middle = match rng.below(3) {
            0 => bodies::noise(rng),
            _ => bodies::hand_made(rng),
        };
        let list = [world.body(rng, 4), middle, world.body(rng, 4)];
        let log = Log::of(&list);
        pick_kept(rng, &mut checkpoints, &log.bytes);
        if rng.once_in(2) {
            checkpoints.time = i64::MIN;
        }
        checkpoints.keep_log(rng, &log.bytes, 1)?;
    }
    Ok(checkpoints.cases)
}

/// Short logs cut at every byte.
pub fn compare_cuts(rng: &mut Rng) -> Outcome {
    let mut checkpoints = Checkpoints::new(rng);
    for _ in 0..24 {
        let records = 3 + rng.below(8);
        let log = any_log(rng, 4, records, 4);
        checkpoints.put(rng, &log.bytes);
        pick_kept(rng, &mut checkpoints, &log.bytes);
        for cut in 0..=log.bytes.len() {
            checkpoints.keep(cut, 1)?;
        }
    }
    Ok(checkpoints.cases)
}

/// One byte changed, and a byte of the data with its sum.
pub fn compare_damage(rng: &mut Rng) -> Outcome {
    let mut checkpoints = Checkpoints::new(rng);
    for _ in 0..60 {
        let records = 1 + rng.below(10);
        let log = any_log(rng, 4, records, 5);
        let sample = log.sample();
        checkpoints.put(rng, &sample.bytes);
        pick_kept(rng, &mut checkpoints, &sample.bytes);
        let length = sample.bytes.len();
        for fragment in some_fragments(rng, &sample) {
            for (place, byte) in generate::damages(rng, &sample, fragment) {
                let old = checkpoints.source.bytes(place..place + 1)[0];
                checkpoints.source.put_at(place, &[byte]);
                checkpoints.keep(length, 1)?;
                checkpoints.source.put_at(place, &[old]);
            }
            spoil_data(rng, &mut checkpoints, length, fragment)?;
        }
        checkpoints.version = 3 - checkpoints.version;
        checkpoints.keep(length, 1)?;
    }
    Ok(checkpoints.cases)
}

fn spoil_data(
    rng: &mut Rng,
    checkpoints: &mut Checkpoints,
    length: usize,
    Fragment { start, end, .. }: Fragment,
) -> Result<(), String> {
    let old = checkpoints.source.bytes(start..end).to_vec();
    let version = reference::version::Version::of(checkpoints.version.into());
    let version = version.map_err(|why| format!("{why:?}"))?;
    for _ in 0..4.min(old.len() - HEADER) {
        let mut spoilt = old.clone();
        let place = HEADER + rng.below(old.len() - HEADER);
        spoilt[place] ^= 1 << rng.below(8);
        generate::make_fragment(version, &mut spoilt, old[0]);
        checkpoints.source.put_at(start, &spoilt);
        checkpoints.keep(length, 1)?;
    }
    checkpoints.source.put_at(start, &old);
    Ok(())
}

/// Segments of bytes that are no bodies, and random bytes.
pub fn compare_foreign(rng: &mut Rng) -> Outcome {
    let mut checkpoints = Checkpoints::new(rng);
    let mut noise = Vec::new();
    checkpoints.ids = (0..12).collect();
    checkpoints.time = i64::MIN;
    for _ in 0..3_000 {
        let mut bytes = match rng.below(3) {
            0 => any_log(rng, 3, 3, 3).bytes,
            _ => Vec::new(),
        };
        generate::noise(rng, &mut noise);
        bytes.extend(&noise);
        checkpoints.keep_log(rng, &bytes, 1)?;
    }
    for _ in 0..400 {
        let splitting = rng.pick(&[Splitting::Short, Splitting::Long]);
        let sample = generate::foreign_from_0(rng, splitting);
        checkpoints.keep_log(rng, &sample.bytes, PAGES)?;
    }
    Ok(checkpoints.cases)
}

//! Logs with records that are refused, and logs that are cut, damaged or none at all.

use super::Replays;
use crate::bodies;
use crate::generate::{self, any_buffer, some_fragments, Fragment, Splitting};
use crate::logs::{any_log, broken_bodies, series, Log, World};
use crate::rng::Rng;
use crate::Outcome;
use reference::segment::{HEADER, PAGE};

// ---- Bodies ----

/// Short logs in which each record in turn has a body that is cut, changed or of another type, or
/// is empty, and so hollow.
pub fn compare_bodies(rng: &mut Rng) -> Outcome {
    let mut replays = Replays::new(rng);
    for _ in 0..40 {
        let bodies = short_log(rng);
        for place in 0..bodies.len() {
            for body in broken_bodies(rng, &bodies[place]) {
                let mut bodies = bodies.clone();
                bodies[place] = body;
                replays.replay_log(rng, &Log::of(&bodies).bytes)?;
            }
        }
    }
    Ok(replays.cases)
}

/// The bodies of a log: three ids entered, then up to six records.
fn short_log(rng: &mut Rng) -> Vec<Vec<u8>> {
    let mut world = World::new(rng, 5);
    let mut bodies = vec![series(&world.ids[..3])];
    for _ in 0..rng.below(7) {
        bodies.push(world.body(rng, 3));
    }
    bodies
}

/// Bodies of random bytes between good records.
pub fn compare_noise(rng: &mut Rng) -> Outcome {
    let mut replays = Replays::new(rng);
    for _ in 0..40_000 {
        let mut bodies = short_log(rng);
        let place = rng.below(bodies.len() + 1);
        let body = match rng.below(3) {
            0 => bodies::hand_made(rng),
            _ => bodies::noise(rng),
        };
        bodies.insert(place, body);
        replays.replay_log(rng, &Log::of(&bodies).bytes)?;
    }
    Ok(replays.cases)
}

// ---- Segments ----

/// Short logs cut at every byte; logs of several pages cut near the edges of fragments.
pub fn compare_cuts(rng: &mut Rng) -> Outcome {
    let mut replays = Replays::new(rng);
    for _ in 0..120 {
        let records = 4 + rng.below(12);
        let log = any_log(rng, 4, records, 5);
        replays.put(rng, &log.bytes);
        for cut in 0..=log.bytes.len() {
            replays.replay(cut)?;
        }
    }
    for _ in 0..12 {
        let sample = long_log(rng).sample();
        replays.put(rng, &sample.bytes);
        for fragment in some_fragments(rng, &sample) {
            for cut in generate::cuts_near(fragment, sample.bytes.len()) {
                replays.replay(cut)?;
            }
        }
    }
    Ok(replays.cases)
}

/// Short logs cut at every byte, then zeros: nothing comes out but what is whole before the cut.
pub fn compare_zeros(rng: &mut Rng) -> Outcome {
    let mut replays = Replays::new(rng);
    for _ in 0..16 {
        let records = 1 + rng.below(6);
        let Log { bytes, .. } = any_log(rng, 4, records, 4);
        for cut in 0..bytes.len() {
            for zeros in generate::ZEROS {
                let mut cut_off = bytes[..cut].to_vec();
                cut_off.resize(cut + zeros, 0);
                replays.replay_log(rng, &cut_off)?;
            }
        }
    }
    Ok(replays.cases)
}

/// A log of at least three pages, with records that go from one page to the next.
fn long_log(rng: &mut Rng) -> Log {
    let mut world = World::new(rng, 100);
    let mut log = Log::of(&[series(&world.ids)]);
    while log.bytes.len() < 3 * PAGE {
        let most = rng.pick(&[10, 300, 1_500]);
        let body = world.body(rng, most);
        log.add(&body);
    }
    log
}

/// One byte of a header, of the data or of the filler changed, and put back.
pub fn compare_damage(rng: &mut Rng) -> Outcome {
    let mut replays = Replays::new(rng);
    for case in 0..200 {
        let log = match case % 40 {
            0 => long_log(rng),
            _ => {
                let records = 1 + rng.below(10);
                any_log(rng, 4, records, 5)
            }
        };
        let sample = log.sample();
        replays.put(rng, &sample.bytes);
        for fragment in some_fragments(rng, &sample) {
            for (place, byte) in generate::damages(rng, &sample, fragment) {
                let old = replays.segment.bytes(place..place + 1)[0];
                replays.segment.put_at(place, &[byte]);
                replays.replay(sample.bytes.len())?;
                replays.segment.put_at(place, &[old]);
            }
            spoil_data(rng, &mut replays, sample.bytes.len(), fragment)?;
        }
    }
    Ok(replays.cases)
}

/// A byte of the data changed, and the sum with it: the fragment is good, the body another one.
fn spoil_data(
    rng: &mut Rng,
    replays: &mut Replays,
    length: usize,
    fragment: Fragment,
) -> Result<(), String> {
    let Fragment { start, end, .. } = fragment;
    let old = replays.segment.bytes(start..end).to_vec();
    for _ in 0..4.min(old.len() - HEADER) {
        let mut spoilt = old.clone();
        let data = &mut spoilt[HEADER..];
        let place = rng.below(data.len());
        data[place] ^= 1 << rng.below(8);
        generate::make_fragment(replays.version, &mut spoilt, old[0]);
        replays.segment.put_at(start, &spoilt);
        replays.replay(length)?;
    }
    replays.segment.put_at(start, &old);
    Ok(())
}

/// Random bytes after a good log or after nothing, and foreign segments.
pub fn compare_bytes(rng: &mut Rng) -> Outcome {
    let mut replays = Replays::new(rng);
    let mut noise = Vec::new();
    for case in 0..60_000 {
        let mut bytes = match case % 3 {
            0 => any_log(rng, 3, 3, 3).bytes,
            _ => Vec::new(),
        };
        generate::noise(rng, &mut noise);
        bytes.extend(&noise);
        replays.replay_log(rng, &bytes)?;
    }
    for _ in 0..1_000 {
        let splitting = rng.pick(&[Splitting::Short, Splitting::Long]);
        let sample = generate::foreign_from_0(rng, splitting);
        replays.replay_log(rng, &sample.bytes)?;
    }
    Ok(replays.cases)
}

/// Record buffers too short or longer than needed, and no segment at all.
pub fn compare_lengths(rng: &mut Rng) -> Outcome {
    let mut replays = Replays::new(rng);
    for _ in 0..2_000 {
        let log = any_log(rng, 4, 6, 4);
        replays.put(rng, &log.bytes);
        for _ in 0..10 {
            let length = rng.pick(&[0, log.bytes.len()]);
            replays.replay_into(length, any_buffer(rng))?;
        }
    }
    Ok(replays.cases)
}

//! Segments with a body that is refused, and segments that are cut, damaged or none at all.

use super::readings::night_log;
use super::Nights;
use crate::bodies;
use crate::generate::{self, any_buffer, some_fragments, Splitting};
use crate::logs::{broken_bodies, samples, Log, World};
use crate::rng::Rng;
use crate::Outcome;
use reference::segment::PAGE;

/// Short segments in which a record in turn has a body that is cut, changed or of another type; the
/// report goes on with a good one.
pub fn compare_bodies(rng: &mut Rng) -> Outcome {
    let mut nights = Nights::new(rng);
    for _ in 0..20 {
        let mut world = World::new(rng, 5);
        let list: Vec<Vec<u8>> = (0..1 + rng.below(5)).map(|_| world.body(rng, 3)).collect();
        for place in 0..list.len() {
            for body in broken_bodies(rng, &list[place]) {
                let mut list = list.clone();
                list[place] = body;
                nights.start(rng);
                nights.add_log(rng, &Log::of(&list).bytes)?;
                let later = samples(&[(world.ids[0], 1, 1), (world.ids[4], 1, 1)]);
                nights.add_log(rng, &Log::of(&[later]).bytes)?;
            }
        }
    }
    for _ in 0..4_000 {
        let mut world = World::new(rng, 4);
        nights.start(rng);
        let middle = match rng.below(2) {
            0 => bodies::hand_made(rng),
            _ => bodies::noise(rng),
        };
        let list = [world.body(rng, 4), middle, world.body(rng, 4)];
        nights.add_log(rng, &Log::of(&list).bytes)?;
        nights.add_log(rng, &Log::of(&list).bytes)?;
    }
    Ok(nights.cases)
}

/// Short segments cut at every byte; segments of several pages cut near the edges of fragments.
pub fn compare_cuts(rng: &mut Rng) -> Outcome {
    let mut nights = Nights::new(rng);
    for _ in 0..60 {
        let ids = World::new(rng, 4).ids;
        let records = 4 + rng.below(10);
        let log = night_log(rng, &ids, records, 5);
        let version = nights.put(rng, &log.bytes);
        for cut in 0..=log.bytes.len() {
            if rng.once_in(6) {
                nights.start(rng);
            }
            nights.add(version, cut)?;
        }
    }
    for _ in 0..6 {
        let sample = long_log(rng).sample();
        let version = nights.put(rng, &sample.bytes);
        for fragment in some_fragments(rng, &sample) {
            for cut in generate::cuts_near(fragment, sample.bytes.len()) {
                nights.start(rng);
                nights.add(version, cut)?;
            }
        }
    }
    Ok(nights.cases)
}

/// A segment of at least three pages, with records that go from one page to the next.
fn long_log(rng: &mut Rng) -> Log {
    let ids = World::new(rng, 100).ids;
    let mut log = Log::default();
    while log.bytes.len() < 3 * PAGE {
        let count = rng.pick(&[10, 300, 1_500]);
        let row = |_| (rng.pick(&ids), rng.number() as i64, super::any_reading(rng));
        log.add(&samples(&(0..count).map(row).collect::<Vec<_>>()));
    }
    log
}

/// One byte of a header, of the data or of the filler changed, and put back.
pub fn compare_damage(rng: &mut Rng) -> Outcome {
    let mut nights = Nights::new(rng);
    for case in 0..80 {
        let log = match case % 40 {
            0 => long_log(rng),
            _ => {
                let ids = World::new(rng, 4).ids;
                let records = 1 + rng.below(10);
                night_log(rng, &ids, records, 5)
            }
        };
        let sample = log.sample();
        let version = nights.put(rng, &sample.bytes);
        for fragment in some_fragments(rng, &sample) {
            for (place, byte) in generate::damages(rng, &sample, fragment) {
                let old = nights.segment.bytes(place..place + 1)[0];
                nights.segment.put_at(place, &[byte]);
                nights.start(rng);
                nights.add(version, sample.bytes.len())?;
                nights.segment.put_at(place, &[old]);
            }
        }
    }
    Ok(nights.cases)
}

/// Random bytes after a good segment or after nothing, and foreign segments.
pub fn compare_bytes(rng: &mut Rng) -> Outcome {
    let mut nights = Nights::new(rng);
    let mut noise = Vec::new();
    let ids = World::new(rng, 3).ids;
    for case in 0..12_000 {
        let mut bytes = match case % 3 {
            0 => night_log(rng, &ids, 3, 3).bytes,
            _ => Vec::new(),
        };
        generate::noise(rng, &mut noise);
        bytes.extend(&noise);
        if rng.once_in(8) {
            nights.start(rng);
        }
        nights.add_log(rng, &bytes)?;
    }
    for _ in 0..400 {
        let splitting = rng.pick(&[Splitting::Short, Splitting::Long]);
        let sample = generate::foreign_from_0(rng, splitting);
        nights.start(rng);
        nights.add_log(rng, &sample.bytes)?;
    }
    Ok(nights.cases)
}

/// Record buffers too short or longer than needed, and no segment at all.
pub fn compare_lengths(rng: &mut Rng) -> Outcome {
    let mut nights = Nights::new(rng);
    let ids = World::new(rng, 4).ids;
    for _ in 0..1_000 {
        let log = night_log(rng, &ids, 6, 4);
        let version = nights.put(rng, &log.bytes);
        nights.start(rng);
        for _ in 0..6 {
            let length = rng.pick(&[0, log.bytes.len()]);
            nights.add_by(version, length, any_buffer(rng))?;
        }
    }
    Ok(nights.cases)
}

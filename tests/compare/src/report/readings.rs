//! Readings, and what they do to one series in every order.

use super::Nights;
use crate::logs::{any_log, samples, Log, World};
use crate::rng::Rng;
use crate::Outcome;
use reference::replay::SERIES_MAX;

/// NaNs quiet and signalling, of both signs, with the least and the most that they carry; both
/// zeros; both infinities; the numbers next to these; and others.
const READINGS: [u64; 18] = [
    0x7FF8_0000_0000_0000,
    0x7FF0_0000_0000_0001,
    0x7FFF_FFFF_FFFF_FFFF,
    0xFFF8_0000_0000_0000,
    0xFFF0_0000_0000_0001,
    u64::MAX,
    0,
    1 << 63,
    0x7FF0_0000_0000_0000,
    0xFFF0_0000_0000_0000,
    0x7FEF_FFFF_FFFF_FFFF,
    0xFFEF_FFFF_FFFF_FFFF,
    1,
    (1 << 63) + 1,
    0x3FF0_0000_0000_0000,
    0xBFF0_0000_0000_0000,
    0x4029_0000_0000_0000,
    0x4028_FFFF_FFFF_FFFF,
];

pub fn any_reading(rng: &mut Rng) -> u64 {
    match rng.below(8) {
        0 => rng.number(),
        1 => rng.pick(&[0, 1 << 63]),
        // Voltages of a battery: most are near each other.
        2 | 3 => f64::to_bits(12.0 + rng.below(16) as f64 / 8.0),
        _ => rng.pick(&READINGS),
    }
}

/// Readings in a row, by their places in the list; one place more is no row.
const LONGEST: u32 = 4;
const CHOICES: usize = READINGS.len() + 1;

/// Every list of up to four readings, each of them a series of its own, 256 to a night. A night has
/// a reading of each series in a record, or in a segment.
pub fn compare_orders(rng: &mut Rng) -> Outcome {
    let mut nights = Nights::new(rng);
    let all: Vec<usize> = (0..CHOICES.pow(LONGEST)).collect();
    for lists in all.chunks(SERIES_MAX) {
        nights.start(rng);
        let bodies: Vec<Vec<u8>> = (0..LONGEST).map(|step| step_of(rng, lists, step)).collect();
        let most = 1 + rng.below(bodies.len());
        for bodies in bodies.chunks(most) {
            let added = nights.add_log(rng, &Log::of(bodies).bytes)?;
            if added.number != 0 {
                return Err(format!("a good night: {added:?}"));
            }
        }
    }
    Ok(all.len() as u64)
}

/// A reading of each list.
fn step_of(rng: &mut Rng, lists: &[usize], step: u32) -> Vec<u8> {
    let rows = lists.iter().filter_map(|&list| {
        let reading = READINGS.get(list / CHOICES.pow(step) % CHOICES)?;
        Some((list as u64, rng.number() as i64, *reading))
    });
    samples(&rows.collect::<Vec<_>>())
}

/// A log of so many records about the ids of this night; most are samples, the others of any type.
pub fn night_log(rng: &mut Rng, ids: &[u64], records: usize, most: usize) -> Log {
    if rng.once_in(6) {
        return any_log(rng, ids.len(), records, most);
    }
    let mut world = World::new(rng, ids.len());
    world.ids = ids.to_vec();
    let mut log = Log::default();
    for _ in 0..records {
        let body = match rng.below(12) {
            0 => world.body(rng, most),
            _ => {
                let count = rng.below(most + 1);
                let row = |_| (rng.pick(ids), rng.number() as i64, any_reading(rng));
                samples(&(0..count).map(row).collect::<Vec<_>>())
            }
        };
        match rng.below(6) {
            0 => log.add_split(rng, &body),
            _ => log.add(&body),
        }
    }
    log
}

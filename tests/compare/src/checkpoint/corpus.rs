//! Logs with records of every type, and real ones; and what a replay makes of what is kept.

use super::{entries, Checkpoints, PAGES};
use crate::bodies::any_number;
use crate::ffi::replay::{replay, REPLAY_LEN, ROW_LEN};
use crate::logs::{any_log, samples, series, tombstones, Log, World};
use crate::rng::Rng;
use crate::twin::Twin;
use crate::Outcome;
use reference::segment::RECORD_MAX;
use reference::version::Version;

/// Few ids, which every record meets again.
pub fn compare_few(rng: &mut Rng) -> Outcome {
    let mut checkpoints = Checkpoints::new(rng);
    for _ in 0..10_000 {
        let count = 1 + rng.below(6);
        let records = rng.below(24);
        let log = any_log(rng, count, records, 6);
        compare_log(rng, &mut checkpoints, &log.bytes)?;
    }
    Ok(checkpoints.cases)
}

/// Many ids and long records, of which several go from one page to the next.
pub fn compare_many(rng: &mut Rng) -> Outcome {
    let mut checkpoints = Checkpoints::new(rng);
    for _ in 0..150 {
        let count = 20 + rng.below(400);
        let records = rng.below(60);
        let most = rng.pick(&[10, 100, 1_000]);
        let log = any_log(rng, count, records.min(4_000 / most), most);
        compare_log(rng, &mut checkpoints, &log.bytes)?;
    }
    Ok(checkpoints.cases)
}

/// Keeps some of a log, with lists of ids and times that are in it; and again of what was kept.
fn compare_log(rng: &mut Rng, checkpoints: &mut Checkpoints, bytes: &[u8]) -> Result<(), String> {
    checkpoints.put(rng, bytes);
    let pages = match rng.below(3) {
        0 => 1 + rng.below(PAGES),
        _ => PAGES,
    };
    pick_kept(rng, checkpoints, bytes);
    let got = checkpoints.keep(bytes.len(), pages)?;
    if got.number == 0 {
        checkpoints.keep_again(got.out[0] as usize, pages)?;
    }
    Ok(())
}

/// Some ids of the log and some that are not in it, each now and then twice; a time near those of
/// its entries, or far from them.
pub fn pick_kept(rng: &mut Rng, checkpoints: &mut Checkpoints, bytes: &[u8]) {
    let records = entries(Version::One, bytes, bytes.len()).unwrap_or_default();
    let all: Vec<_> = records.iter().flatten().map(|facts| facts.entry).collect();
    let share = 1 + rng.below(4);
    let mut ids: Vec<u64> = Vec::new();
    for entry in &all {
        if !ids.contains(&entry.id.0) && rng.below(4) < share {
            ids.push(entry.id.0);
        }
    }
    // One id as likely as not has all its rows dropped.
    if rng.once_in(2) && !ids.is_empty() {
        ids.swap_remove(rng.below(ids.len()));
    }
    for _ in 0..rng.below(4) {
        let id = match (rng.below(2), ids.len()) {
            (0, count) if count > 0 => ids[rng.below(count)],
            _ => any_number(rng, 7),
        };
        let place = rng.below(ids.len() + 1);
        ids.insert(place, id);
    }
    if rng.once_in(40) {
        let more = rng.below(3_000);
        ids.extend((0..more).map(|_| rng.number()));
    }
    checkpoints.ids = ids;
    checkpoints.time = match (rng.below(6), all.len()) {
        (0, _) => rng.pick(&[i64::MIN, i64::MAX, 0, -1]),
        (1, _) | (_, 0) => any_number(rng, 1_000) as i64,
        (_, count) => {
            let entry = &all[rng.below(count)];
            let time = rng.pick(&[entry.time.0, entry.max.0]);
            time.wrapping_add(rng.pick(&[-1, 0, 0, 1]))
        }
    };
}

/// A real segment.
pub fn compare_file(rng: &mut Rng, bytes: &[u8]) -> Outcome {
    let source = Twin::new(rng, bytes.len());
    let mut checkpoints = Checkpoints::with_source(rng, source);
    for _ in 0..12 {
        compare_log(rng, &mut checkpoints, bytes)?;
        // The source may be the one of the checkpoint of the checkpoint.
        checkpoints.put(rng, bytes);
        checkpoints.keep(rng.below(bytes.len() + 1), PAGES)?;
    }
    Ok(checkpoints.cases)
}

// ---- Replay ----

/// Logs whose rows are all at or after the time: what a replay by the archive says of the ids that
/// are kept is the same for the log and for its checkpoint.
pub fn compare_replayed(rng: &mut Rng) -> Outcome {
    let mut checkpoints = Checkpoints::new(rng);
    for _ in 0..3_000 {
        let time = any_number(rng, 1_000) as i64;
        let ids = World::new(rng, 6).ids;
        let log = late_log(rng, &ids, time);
        checkpoints.time = time;
        checkpoints.ids = ids.iter().copied().filter(|_| rng.once_in(2)).collect();
        let got = checkpoints.keep_log(rng, &log.bytes, PAGES)?;
        let place = got.out[0] as usize;
        let version = checkpoints.version;
        let (source, _) = checkpoints.source.both(0..log.bytes.len());
        let mut before = latest(version, source)?;
        before.retain(|row| checkpoints.ids.contains(&row[0]));
        let (target, _) = checkpoints.target.both(0..place);
        let after = latest(version, target)?;
        if before != after {
            return Err(format!(
                "{before:?} becomes {after:?} in {:02X?}",
                log.bytes
            ));
        }
    }
    Ok(checkpoints.cases)
}

/// Series, rows from the time on, and tombstones of any time.
fn late_log(rng: &mut Rng, ids: &[u64], time: i64) -> Log {
    let room = i64::MAX.abs_diff(time).min(12);
    let mut bodies = vec![series(&ids[..rng.below(6)])];
    for _ in 0..rng.below(20) {
        let mut late = || time + (rng.number() % (room + 1)) as i64;
        let times = [late(), late(), late()];
        let some = [rng.pick(ids), rng.pick(ids), rng.pick(ids)];
        let rows = [0, 1, 2].map(|row| (some[row], times[row], rng.number()));
        bodies.push(match rng.below(6) {
            0 => series(&some),
            1 => tombstones(&[(some[0], times[0], times[1]), (some[1], times[1], times[2])]),
            2 => tombstones(&[(some[0], rng.number() as i64, rng.number() as i64)]),
            _ => samples(&rows[..1 + rng.below(3)]),
        });
    }
    Log::of(&bodies)
}

/// The series of a log, as the archive replays it.
fn latest(version: u32, segment: &[u8]) -> Result<Vec<[u64; ROW_LEN]>, String> {
    let mut table = Box::new([0; REPLAY_LEN]);
    let replayed = replay(version, segment, &mut vec![0; RECORD_MAX], &mut table);
    if replayed.number != 0 {
        return Err(format!("a replay of {} bytes: {replayed:?}", segment.len()));
    }
    let rows = table.chunks_exact(ROW_LEN).take(replayed.out[1] as usize);
    Ok(rows
        .map(|row| row.try_into().expect("five numbers"))
        .collect())
}

//! The log on a file.

mod common;

use common::{Folder, Rng};
use depot_wal::log::{Log, LogError, Options};
use depot_wal::segment::{Writer, PAGE, RECORD_MAX, SEGMENT_MAX};
use depot_wal::{Good, Refusal, Version};
use std::fs;

fn all(log: &Log) -> Vec<Vec<u8>> {
    log.records().map(|record| record.unwrap()).collect()
}

#[test]
fn the_name_says_the_version() {
    let folder = Folder::on_disk("names");
    assert_eq!(
        Log::open(folder.file("000001")).unwrap().version(),
        Version::V1
    );
    assert_eq!(
        Log::open(folder.file("000002-v2")).unwrap().version(),
        Version::V2
    );
    for path in [folder.file("my.log"), folder.file(".."), "/".into()] {
        let Err(LogError::Name(error)) = Log::open(&path) else {
            panic!()
        };
        assert_eq!(error.number(), 30);
        assert!(!folder.file("my.log").exists());
    }
    let mine = folder.file("my.log");
    let mut log = Options::new().version(Version::V2).open(&mine).unwrap();
    log.append(b"one").unwrap();
    drop(log);
    // Read as the other version it is refused, and nothing changes.
    let bytes = fs::read(&mine).unwrap();
    let other = Options::new().version(Version::V1).open(&mine);
    let Err(LogError::Bytes(refused)) = other else {
        panic!()
    };
    assert_eq!(
        (refused.error.refusal, refused.good),
        (Refusal::BadSum, Good::default())
    );
    assert_eq!(fs::read(&mine).unwrap(), bytes);
    let io = Log::open(folder.file("none").join("000001"));
    assert!(matches!(io, Err(LogError::Io(_))));
}

#[test]
fn one_has_the_log_open() {
    let folder = Folder::on_disk("lock");
    let path = folder.file("000001");
    let log = Log::open(&path).unwrap();
    assert!(matches!(Log::open(&path), Err(LogError::InUse)));
    assert!(matches!(Log::open_truncating(&path), Err(LogError::InUse)));
    drop(log);
    assert!(Log::open(&path).is_ok());
}

#[test]
fn a_refused_record_changes_nothing() {
    let folder = Folder::on_disk("refused");
    let path = folder.file("000001");
    let mut log = Log::open(&path).unwrap();
    assert_eq!(log.append(b"one").unwrap(), 0);
    for (record, refusal) in [(0, Refusal::Hollow), (RECORD_MAX + 1, Refusal::TooLong)] {
        let Err(LogError::Record(error)) = log.append(&vec![1; record]) else {
            panic!()
        };
        assert_eq!((error.refusal, error.place), (refusal, 10));
    }
    assert_eq!((log.len(), log.count()), (10, 1));
    assert_eq!(log.append(b"two").unwrap(), 10);
    assert_eq!(all(&log), [b"one", b"two"]);
    assert_eq!(fs::metadata(&path).unwrap().len(), 20);
}

/// The file has the bytes that one whole segment has in memory.
fn compare_with_segment(version: Version, name: &str, mut length: impl FnMut() -> usize) {
    let folder = Folder::on_disk(name);
    let path = folder.file("log");
    let options = Options::new().version(version);
    let mut log = options.open(&path).unwrap();
    let mut segment = vec![0; SEGMENT_MAX];
    let mut writer = Writer::new(version, &mut segment);
    let mut record = vec![7; RECORD_MAX];
    loop {
        let length = length();
        if length == 0 {
            break;
        }
        record[..8].copy_from_slice(&log.count().to_be_bytes());
        let record = &record[..length.min(RECORD_MAX)];
        match writer.write(record) {
            Ok(place) => assert_eq!(log.append_unsynced(record).unwrap(), place as u64),
            Err(error) => {
                let Err(LogError::Record(ours)) = log.append_unsynced(record) else {
                    panic!()
                };
                assert_eq!(ours, error);
            }
        }
        assert_eq!(log.len(), writer.place() as u64);
    }
    log.sync().unwrap();
    assert!(fs::read(&path).unwrap() == writer.written());
    let count = log.count();
    drop(log);
    let log = options.open(&path).unwrap();
    assert_eq!((log.len(), log.count()), (writer.place() as u64, count));
    assert_eq!(log.records().filter(Result::is_ok).count() as u64, count);
}

#[test]
fn any_records_are_those_of_a_segment() {
    for version in [Version::V1, Version::V2] {
        let (mut rng, mut left) = (Rng(10), 3_000);
        compare_with_segment(version, "any", || {
            left -= 1;
            match rng.below(10) {
                _ if left == 0 => 0,
                0 => rng.between(1, RECORD_MAX),
                1 => rng.between(PAGE - 60, PAGE + 60),
                _ => rng.between(1, 600),
            }
        });
    }
}

#[test]
fn a_full_log_is_that_of_a_segment() {
    // The longest records until none fits, then shorter ones until none fits.
    let mut lengths = [RECORD_MAX, 9_000, 100, 1].into_iter().flat_map(|length| {
        let often = if length == RECORD_MAX {
            SEGMENT_MAX / RECORD_MAX
        } else {
            30
        };
        std::iter::repeat(length).take(often)
    });
    compare_with_segment(Version::V1, "full", || lengths.next().unwrap_or(0));
    // Records that fill their pages, to the last byte of the segment.
    let mut pages = std::iter::repeat(PAGE - 7).take(SEGMENT_MAX / PAGE + 2);
    compare_with_segment(Version::V2, "pages", || pages.next().unwrap_or(0));
}

#[test]
fn a_file_that_is_too_long_stays() {
    let folder = Folder::on_disk("long");
    let path = folder.file("000001");
    let mut log = Log::open(&path).unwrap();
    log.append(b"one").unwrap();
    drop(log);
    let file = fs::OpenOptions::new().write(true).open(&path).unwrap();
    file.set_len(SEGMENT_MAX as u64 + 1).unwrap();
    for opened in [Log::open(&path), Log::open_truncating(&path)] {
        let Err(LogError::Bytes(refused)) = opened else {
            panic!()
        };
        assert_eq!(refused.error.refusal, Refusal::BadBuffer);
        assert_eq!(file.metadata().unwrap().len(), SEGMENT_MAX as u64 + 1);
    }
    // At the limit it is the record and zeros.
    file.set_len(SEGMENT_MAX as u64).unwrap();
    let log = Log::open(&path).unwrap();
    assert_eq!((log.len(), log.count()), (10, 1));
}

#[test]
fn truncating_keeps_what_is_whole() {
    let folder = Folder::on_disk("truncating");
    let path = folder.file("000001");
    let mut log = Log::open_truncating(&path).unwrap();
    for record in [&b"one"[..], b"two", b"three"] {
        log.append(record).unwrap();
    }
    drop(log);
    let mut bytes = fs::read(&path).unwrap();
    bytes[13] ^= 1; // in the checksum of the second
    fs::write(&path, &bytes).unwrap();
    let Err(LogError::Bytes(refused)) = Log::open(&path) else {
        panic!()
    };
    assert_eq!(
        refused.good,
        Good {
            records: 1,
            offset: 10
        }
    );
    let log = Log::open_truncating(&path).unwrap();
    assert_eq!((all(&log), log.len()), (vec![b"one".to_vec()], 10));
    drop(log);
    assert_eq!(all(&Log::open(&path).unwrap()), [b"one"]);
}

#[test]
fn records_are_read_while_the_log_is_open() {
    let folder = Folder::on_disk("reading");
    let mut log = Log::open(folder.file("000001")).unwrap();
    assert_eq!((log.records().count(), log.is_empty()), (0, true));
    for number in 0..100_u32 {
        log.append_unsynced(&number.to_be_bytes()).unwrap();
        assert_eq!(log.records().count() as u32, number + 1);
    }
    log.sync().unwrap();
    // What others put behind the log is not of it.
    let path = folder.file("000001");
    let longer = [fs::read(&path).unwrap(), vec![9]].concat();
    fs::write(&path, longer).unwrap();
    assert_eq!((all(&log).len(), log.is_empty()), (100, false));
}

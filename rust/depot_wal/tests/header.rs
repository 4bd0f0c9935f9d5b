//! The crate beside the C header: the same calls, numbers, texts and sizes.

use depot_wal::body::Kind;
use depot_wal::report::Report;
use depot_wal::{index, names, segment, sys, Refusal, Version};
use std::collections::BTreeSet;

const HEADER: &str = include_str!("../../../include/depot_wal.h");
const SYS: &str = include_str!("../src/sys.rs");

/// The words that begin so and are called in a text outside of comments.
fn calls(text: &str, is_comment: fn(&str) -> bool) -> BTreeSet<&str> {
    let lines = text.lines().filter(|line| !is_comment(line.trim_start()));
    let words = lines.flat_map(|line| line.split_inclusive(['(', ' ', '*', ',']));
    let called = words.filter_map(|word| word.strip_suffix('('));
    called
        .filter(|word| word.starts_with("depot_wal_"))
        .collect()
}

#[test]
fn every_call_is_declared() {
    let in_c = calls(HEADER, |line| {
        line.starts_with('*') || line.starts_with("/*")
    });
    let in_rust = calls(SYS, |line| line.starts_with("//"));
    let mut inline = in_c.clone();
    assert!(
        inline.remove("depot_wal_status_text"),
        "the header's own function"
    );
    assert!(in_c.len() > 30);
    let missing: Vec<_> = inline.difference(&in_rust).collect();
    assert!(missing.is_empty(), "not in sys.rs: {missing:?}");
    let extra: Vec<_> = in_rust.difference(&inline).collect();
    assert!(extra.is_empty(), "not in the header: {extra:?}");
}

/// The value of a name of the header, by `#define` or in an enum.
fn value(name: &str) -> Option<u64> {
    let lines = HEADER.lines().map(str::trim_start);
    let mut found = lines.filter_map(|line| {
        let line = line.strip_prefix("#define ").unwrap_or(line);
        let rest = line.strip_prefix("DEPOT_WAL_")?.strip_prefix(name)?;
        let rest = rest.trim_start_matches([' ', '=']);
        let digits = rest
            .find(|c: char| !c.is_ascii_digit())
            .unwrap_or(rest.len());
        rest[..digits].parse().ok()
    });
    found.next_back()
}

#[test]
fn numbers_and_texts_are_the_headers() {
    let names: BTreeSet<&str> = HEADER
        .lines()
        .filter_map(|line| {
            line.trim_start()
                .strip_prefix("case DEPOT_WAL_")?
                .split_once(':')
        })
        .map(|(name, _)| name)
        .filter(|name| !["DONE", "END", "MORE"].contains(name))
        .collect();
    assert_eq!(names.len(), Refusal::ALL.len());
    for refusal in Refusal::ALL {
        assert_eq!(Refusal::from_number(refusal.number()), Some(refusal));
        // BadBuffer is BAD_BUFFER.
        let mut name = String::new();
        for letter in format!("{refusal:?}").chars() {
            if letter.is_uppercase() && !name.is_empty() {
                name.push('_');
            }
            name.extend(letter.to_uppercase());
        }
        assert_eq!(value(&name), Some(refusal.number().into()), "{name}");
        let case = format!("case DEPOT_WAL_{name}: return \"{}\";", refusal.text());
        assert!(HEADER.contains(&case), "{case}");
    }
    assert_eq!(Refusal::from_number(0), None);
}

#[test]
fn sizes_are_the_headers() {
    for (name, size) in [
        ("PAGE", segment::PAGE),
        ("HEADER", segment::HEADER),
        ("FRAGMENT_MAX", segment::FRAGMENT_MAX),
        ("RECORD_MAX", segment::RECORD_MAX),
        ("SEGMENT_MAX", segment::SEGMENT_MAX),
        ("INDEX_HEAD", index::HEAD),
        ("INDEX_ROW", index::ROW),
        ("NAME_MAX", names::NAME_MAX),
        ("SEQUENCE_MAX", names::SEQUENCE_MAX as usize),
        ("TABLE_LEN", sys::TABLE_LEN),
        ("FEED_LEN", sys::FEED_LEN),
        ("SERIES_MAX", sys::SERIES_MAX),
        ("REPLAY_LEN", sys::REPLAY_LEN),
        ("REPORT_LEN", sys::REPORT_LEN),
        ("NIGHT_MAX", Report::SEGMENTS_MAX),
        ("DONE", sys::DONE as usize),
        ("END", sys::END as usize),
        ("MORE", sys::MORE as usize),
        ("V1", Version::V1.number() as usize),
        ("V2", Version::V2.number() as usize),
        ("SERIES", Kind::Series as usize),
        ("SAMPLES", Kind::Samples as usize),
        ("TOMBSTONES", Kind::Tombstones as usize),
        ("EXEMPLARS", Kind::Exemplars as usize),
        ("METADATA", Kind::Metadata as usize),
        ("HISTOGRAMS", Kind::Histograms as usize),
        ("FLOAT_HISTOGRAMS", Kind::FloatHistograms as usize),
    ] {
        assert_eq!(value(name), Some(size as u64), "{name}");
    }
    for number in 0..=u8::MAX {
        let kind = Kind::from_number(number).map(|kind| kind as u8);
        assert!(kind.unwrap_or(number) == number, "{number}");
    }
}

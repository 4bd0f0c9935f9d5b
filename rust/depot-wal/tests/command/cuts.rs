//! The power cut at every byte, and every byte flipped: nothing traps, what was whole is told, and no
//! cut makes two profiles of one.

use crate::common::json::Json;
use crate::common::log::depot;
use crate::common::Folder;

/// Where the records of `depot` end.
const ENDS: [usize; 4] = [124, 168, 212, 256];

/// Runs a command over all files, and hands back its lines of one kind for each.
fn lines(folder: &Folder, words: &[&str], names: &[String], key: &str) -> Vec<Json> {
    let names: Vec<&str> = names.iter().map(String::as_str).collect();
    let run = folder.run(&[words, &["--json"], &names].concat());
    assert!(run.status < 2, "{words:?}: {}", run.err);
    assert!(!run.err.contains("panicked"), "{}", run.err);
    let lines = run.json().into_iter();
    lines.filter(|line| line.has(key)).collect()
}

#[test]
fn cut_at_every_byte() {
    let (folder, bytes) = (Folder::new(), depot(1).bytes);
    let names: Vec<String> = (0..=bytes.len()).map(|cut| format!("{cut:06}")).collect();
    for (cut, name) in names.iter().enumerate() {
        folder.put(name, &bytes[..cut]);
    }
    for words in [
        &["list"][..],
        &["dump"],
        &["verify"],
        &["replay"],
        &["index"],
    ] {
        let ends = lines(&folder, words, &names, "end");
        assert_eq!(ends.len(), names.len());
        for (cut, end) in ends.iter().enumerate() {
            let whole = ENDS.iter().filter(|end| **end <= cut).count();
            assert_eq!(end.text("records"), whole.to_string(), "{words:?} {cut}");
            let is_end = cut == 0 || ENDS.contains(&cut);
            assert_eq!(end.text("end"), if is_end { "clean" } else { "torn" });
        }
    }
    // From the record on that says which profile is on at first, each scooter has exactly one.
    let groups = lines(
        &folder,
        &["replay", "--by", "scooter"],
        &names[168..],
        "group",
    );
    assert_eq!(groups.len(), 2 * (256 - 168 + 1));
    let alarm = |group: &Json| group.get("alarm") == &Json::Bool(true);
    assert!(!groups.iter().any(alarm));
    // Resumed, each is the log of its whole records.
    let actions = lines(&folder, &["resume"], &names, "action");
    assert_eq!(actions.len(), names.len());
    for (cut, name) in names.iter().enumerate() {
        let good = ENDS.iter().rfind(|end| **end <= cut).map_or(0, |end| *end);
        assert_eq!(folder.get(name), bytes[..good], "{name}");
    }
}

#[test]
fn flipped_at_every_byte() {
    let (folder, bytes) = (Folder::new(), depot(2).bytes);
    let names: Vec<String> = (0..bytes.len()).map(|at| format!("{at:06}-v2")).collect();
    for (at, name) in names.iter().enumerate() {
        let mut bytes = bytes.clone();
        bytes[at] ^= 1 << (at % 8);
        folder.put(name, &bytes);
    }
    for words in [
        &["list"][..],
        &["dump"],
        &["verify"],
        &["replay"],
        &["replay", "--by", "scooter"],
        &["index"],
    ] {
        let ends = lines(&folder, words, &names, "end");
        for (at, end) in ends.iter().enumerate() {
            // A flipped byte is never passed over in version 2, which sums all but the checksum.
            let whole = ENDS.iter().filter(|end| **end <= at).count();
            assert_eq!(end.text("records"), whole.to_string(), "{words:?} {at}");
        }
    }
    lines(&folder, &["resume", "--dry-run"], &names, "action");
    lines(&folder, &["report"], &names, "segment");
}

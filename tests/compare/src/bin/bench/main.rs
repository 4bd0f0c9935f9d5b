//! `bench [LIST [REPORT [SECOND]]]`: in one run on one machine, the archive's calls beside the second
//! program with its software checksum, and beside the SSE4.2 instruction; the listing program LIST
//! (by default target/bin/list) beside `SECOND list` (by default `bench list`), and the report
//! program REPORT (by default target/bin/report) beside `SECOND report`.
//! `bench log`: the Rust crate's log alone.
//! `bench list`: the second program's listing of standard input. `bench report NAME..`: its report.

mod bodies;
mod checkpoint;
mod checksum;
mod feed;
mod hardware;
mod index;
mod list;
mod log;
mod records;
mod replay;
mod report;
mod timing;

use reference::segment::SEGMENT_MAX;
use std::ffi::OsString;
use std::fs;
use std::path::PathBuf;

const METHOD: &str = "\
Neither program is built for a special processor; ours is called through the archive. The
contenders take turns in every round. A time is the median of the rounds. A ratio of two times is
the median of the rounds' ratios; where it is another's time / ours, ours is faster above 1.";

fn main() {
    let words: Vec<OsString> = std::env::args_os().skip(1).collect();
    match words.split_first() {
        Some((first, [])) if first == "list" => return list::list_as_second(),
        Some((first, [])) if first == "log" => return println!("{}", log::bench()),
        Some((first, names)) if first == "report" => return report::report_as_second(names),
        _ => {}
    }
    println!("machine: {}, caches {}", processor(), caches());
    println!("built for {}\n{METHOD}", build());
    if !hardware::present() {
        println!("No SSE4.2 here: where it is named, the second program's own checksum stands in.");
    }
    let mut segment = vec![0; SEGMENT_MAX];
    let parts = [
        checksum::bench(),
        records::bench(&mut segment),
        feed::bench(&mut segment),
        index::bench(&mut segment),
        list::bench(&listings(&words), &segment),
        bodies::bench(),
        replay::bench(),
        report::bench(&reports(&words)),
        checkpoint::bench(),
        log::bench(),
    ];
    println!(
        "bench: time of the second program / ours plain, / ours with table, and of sse4.2 / ours \
         with table: {}",
        parts.join(", ")
    );
}

/// The programs that list.
fn listings(words: &[OsString]) -> list::Programs {
    list::Programs {
        ours: named(words, 0).unwrap_or("target/bin/list".into()),
        second: second(words),
    }
}

/// The programs that report.
fn reports(words: &[OsString]) -> report::Programs {
    report::Programs {
        ours: named(words, 1).unwrap_or("target/bin/report".into()),
        second: second(words),
    }
}

/// The second program: this one has it in it.
fn second(words: &[OsString]) -> PathBuf {
    let itself = || std::env::current_exe().expect("a program knows its file");
    named(words, 2).unwrap_or_else(itself)
}

fn named(words: &[OsString], index: usize) -> Option<PathBuf> {
    words.get(index).map(PathBuf::from)
}

fn build() -> &'static str {
    if cfg!(debug_assertions) {
        "debugging"
    } else {
        "release"
    }
}

/// The processor's name, as Linux reports it.
fn processor() -> String {
    let info = fs::read_to_string("/proc/cpuinfo").unwrap_or_default();
    let name = info
        .lines()
        .find_map(|line| line.strip_prefix("model name"))
        .unwrap_or("unknown");
    name.trim_start_matches(['\t', ':', ' ']).to_string()
}

/// The sizes of its data caches, the nearest first.
fn caches() -> String {
    let size = |index| {
        let file = format!("/sys/devices/system/cpu/cpu0/cache/{index}/size");
        let size = fs::read_to_string(file).unwrap_or("?".to_string());
        size.trim().to_string()
    };
    ["index0", "index2", "index3"].map(size).join(" ")
}

//! `reference selftest`: published numbers against this program; nonzero on any difference.
//! `reference vectors`: the lines that the product's program `test_vectors` has to print.
//! `reference reader`: the lines that the product's program `test_cursor` has to print.
//! `reference samples`: the lines that the product's program `test_samples` has to print.
//! `reference list`: the listing of a segment on standard input, page by page (FORMAT 15 and
//! document 02 [2]).
//! `reference damage FILE`: the cases of a table of named damage, with this program's answers.
//! `reference rows FILE`: every record and every entry of a segment.
//! `reference report NAME..`: the voltage report over these segments (document 02 [12]).

#![forbid(unsafe_code)]

use reference::{damage, listing, reporting, rows, selftest, tour, tour_samples, vectors};
use std::ffi::OsString;
use std::io::{self, BufWriter, Write};
use std::process::ExitCode;

const USAGE: &str = "usage: reference selftest | vectors | reader | samples | list | damage FILE \
                     | rows FILE | report NAME..";

fn main() -> ExitCode {
    let words: Vec<OsString> = std::env::args_os().skip(1).collect();
    let done = match words.split_first() {
        Some((first, names)) if first == "report" => print(&reporting::text(names)),
        _ => run(&words),
    };
    match done {
        Ok(()) => ExitCode::SUCCESS,
        Err(message) => {
            eprintln!("reference: {message}");
            ExitCode::FAILURE
        }
    }
}

/// The commands but `report`, whose names need not be text.
fn run(words: &[OsString]) -> Result<(), String> {
    let words: Option<Vec<&str>> = words.iter().map(|word| word.to_str()).collect();
    match words.unwrap_or_default()[..] {
        ["selftest"] => selftest::run().and_then(|()| print("selftest: all equal\n")),
        ["vectors"] => print(&vectors::text()),
        ["reader"] => print(&tour::text()),
        ["samples"] => print(&tour_samples::text()),
        ["list"] => list(),
        ["damage", file] => file_text(file).and_then(|table| print(&damage::text(&table)?)),
        ["rows", file] => file_bytes(file).and_then(|segment| print(&rows::text(&segment)?)),
        _ => Err(USAGE.to_string()),
    }
}

/// Prints each line as soon as it is known, a buffer at a time.
fn list() -> Result<(), String> {
    let mut output = BufWriter::new(io::stdout().lock());
    let listed = listing::list(io::stdin().lock(), &mut output);
    written(listed.and_then(|()| output.flush()))
}

fn file_text(file: &str) -> Result<String, String> {
    std::fs::read_to_string(file).map_err(|error| format!("{file}: {error}"))
}

fn file_bytes(file: &str) -> Result<Vec<u8>, String> {
    std::fs::read(file).map_err(|error| format!("{file}: {error}"))
}

fn print(text: &str) -> Result<(), String> {
    written(io::stdout().write_all(text.as_bytes()))
}

fn written(done: io::Result<()>) -> Result<(), String> {
    done.map_err(|error| format!("standard output: {error}"))
}

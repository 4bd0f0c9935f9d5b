//! `depot-wal`: the logs of the depot read, checked and repaired at a terminal.
//!
//! | file | what it does |
//! |---|---|
//! | `command` | the subcommands, and what each takes |
//! | `args`, `help` | the command line; the pages of help |
//! | `open` | files and standard input to segments in memory, and their versions |
//! | `out` | standard output, complaints, progress |
//! | `end` | how a reading ended, and what to do then |
//! | `words`, `time`, `json`, `hex` | what is printed: for people, for machines |
//! | `labels`, `entries`, `histograms` | the labels of a log's series; the entries of a record |
//! | `save` | a new file: written, synced, read back, renamed |
//! | `list`, `dump`, `replay`, .. | one file for each subcommand (`groups` is `replay --by`) |
//!
//! What a log means is decided by the library; nothing here reads a record by itself, except that
//! `labels` hops over records that the library has already found whole.

mod args;
mod checkpoint;
mod command;
mod dump;
mod end;
mod entries;
mod groups;
mod help;
mod hex;
mod histograms;
mod index;
mod json;
mod labels;
mod list;
mod open;
mod out;
mod replay;
mod report;
mod resume;
mod save;
mod time;
mod verify;
mod words;

use args::Failure;
use out::Out;
use std::ffi::OsString;
use std::io::ErrorKind;
use std::process::ExitCode;

/// Done, and nothing refused.
const FINE: u8 = 0;
/// Refused or torn: what was found was printed.
const REFUSED: u8 = 1;
/// The command line was not understood.
const USAGE: u8 = 2;

fn main() -> ExitCode {
    let words: Vec<OsString> = std::env::args_os().skip(1).collect();
    ExitCode::from(match run(&words) {
        Ok(true) => FINE,
        Ok(false) => REFUSED,
        Err(Failure::Usage(sentence)) => {
            out::complain(&sentence);
            USAGE
        }
        Err(Failure::Output(error)) => {
            // A reader that left, as `head` does, wants to hear no more.
            if error.kind() != ErrorKind::BrokenPipe {
                out::complain(&format!(
                    "standard output cannot be written ({error}); make room there, or send it elsewhere"
                ));
            }
            REFUSED
        }
    })
}

/// Runs a command line, and brings out all that was printed.
fn run(words: &[OsString]) -> Result<bool, Failure> {
    let mut out = Out::new()?;
    let fine = command::run(words, &mut out)?;
    out.finish()?;
    Ok(fine)
}

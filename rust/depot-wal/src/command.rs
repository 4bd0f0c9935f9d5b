//! The subcommands: their names, options and pages of help.

use crate::args::{flag, valued, Args, Failure, Opt};
use crate::out::Out;
use crate::{checkpoint, dump, help, index, list, replay, report, resume, verify};
use std::ffi::OsString;
use std::io::Write;

/// Does its work and says whether nothing was refused.
type Run = fn(&Args, &mut Out) -> Result<bool, Failure>;

/// A subcommand.
pub struct Command {
    pub name: &'static str,
    options: &'static [Opt],
    page: &'static str,
    run: Run,
}

/// All of them, in the order of the help.
pub const COMMANDS: [Command; 8] = [
    Command {
        name: "list",
        options: &[],
        page: help::LIST,
        run: list::run,
    },
    Command {
        name: "dump",
        options: &[],
        page: help::DUMP,
        run: dump::run,
    },
    Command {
        name: "replay",
        options: &[flag("--strict"), valued("--by")],
        page: help::REPLAY,
        run: replay::run,
    },
    Command {
        name: "verify",
        options: &[],
        page: help::VERIFY,
        run: verify::run,
    },
    Command {
        name: "resume",
        options: &[flag("--dry-run"), flag("--force")],
        page: help::RESUME,
        run: resume::run,
    },
    Command {
        name: "index",
        options: &[flag("--check"), flag("--rebuild")],
        page: help::INDEX,
        run: index::run,
    },
    Command {
        name: "report",
        options: &[],
        page: help::REPORT,
        run: report::run,
    },
    Command {
        name: "checkpoint",
        options: &[
            valued("--id"),
            valued("--label"),
            flag("--all"),
            valued("--from"),
        ],
        page: help::CHECKPOINT,
        run: checkpoint::run,
    },
];

/// Runs a command line. True if nothing was refused.
pub fn run(words: &[OsString], out: &mut Out) -> Result<bool, Failure> {
    let Some((first, rest)) = words.split_first() else {
        let why =
            "say what to do: one of list, dump, replay, verify, resume, index, report, checkpoint";
        return Err(Failure::Usage(format!("{why}; see: depot-wal help")));
    };
    match first.to_string_lossy().as_ref() {
        "help" | "--help" | "-h" => show_help(rest, out),
        "--version" => {
            writeln!(out, "depot-wal {}", env!("CARGO_PKG_VERSION"))?;
            Ok(true)
        }
        name => {
            let command = find(name)?;
            let args = Args::parse(command.name, command.options, rest)?;
            if args.wants_help() {
                return show_page(command, out);
            }
            out.json = args.has("--json");
            (command.run)(&args, out)
        }
    }
}

fn find(name: &str) -> Result<&'static Command, Failure> {
    let found = COMMANDS.iter().find(|command| command.name == name);
    found.ok_or_else(|| Failure::Usage(format!("there is no command {name}; see: depot-wal help")))
}

/// The page of a command, or the overview.
fn show_help(words: &[OsString], out: &mut Out) -> Result<bool, Failure> {
    match words.first() {
        Some(word) => show_page(find(&word.to_string_lossy())?, out),
        None => {
            write!(out, "{}", help::OVERVIEW)?;
            Ok(true)
        }
    }
}

fn show_page(command: &Command, out: &mut Out) -> Result<bool, Failure> {
    write!(out, "{}{}", command.page, help::COMMON)?;
    Ok(true)
}

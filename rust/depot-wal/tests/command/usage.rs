//! The command line: help, options, exit statuses.

use crate::common::log::depot;
use crate::common::Folder;

const COMMANDS: [&str; 8] = [
    "list",
    "dump",
    "replay",
    "verify",
    "resume",
    "index",
    "report",
    "checkpoint",
];

#[test]
fn every_command_has_its_page() {
    let folder = Folder::new();
    let overview = folder.run(&["help"]);
    assert_eq!((overview.status, overview.err.as_str()), (0, ""));
    for command in COMMANDS {
        assert!(
            overview.out.contains(&format!("\n    {command} ")),
            "{command}"
        );
        let page = folder.run(&["help", command]);
        assert!(
            page.out.starts_with(&format!("depot-wal {command} ")),
            "{}",
            page.out
        );
        assert!(page.out.contains("for - and every other name it is 1"));
        for words in [[command, "--help"], [command, "-h"]] {
            folder.run(&words).fine(&page.out);
        }
    }
    folder.run(&["--help"]).fine(&overview.out);
    folder.run(&["--version"]).fine("depot-wal 0.1.0\n");
    // Pages fit a terminal and the documents.
    let too_wide = |line: &str| line.chars().count() > 100;
    let pages = COMMANDS.map(|command| folder.run(&["help", command]).out);
    assert!(!pages.iter().any(|page| page.lines().any(too_wide)));
}

/// The man page has every command and every option of the pages of help.
#[test]
fn the_man_page_says_all() {
    let folder = Folder::new();
    let page = concat!(env!("CARGO_MANIFEST_DIR"), "/depot-wal.1");
    let page = std::fs::read_to_string(page).unwrap().replace("\\-", "-");
    for command in COMMANDS {
        assert!(page.contains(&format!(".SS {command}\n")), "{command}");
        let help = folder.run(&["help", command]).out;
        let options = help
            .split_whitespace()
            .filter(|word| word.starts_with("--"));
        for option in options {
            let option = option.split_once('=').map_or(option, |(name, _)| name);
            let option = option.trim_end_matches([',', '.', ';', ']', ')']);
            assert!(page.contains(option), "{command} {option}");
        }
    }
}

#[test]
fn what_is_not_understood_is_told() {
    let folder = Folder::with("000001", &depot(1).bytes);
    for (words, told) in [
        (&[][..], "say what to do: one of list, dump"),
        (&["lst"], "there is no command lst; see: depot-wal help"),
        (&["help", "lst"], "there is no command lst"),
        (
            &["list"],
            "name a file, or - for standard input; see: depot-wal help list",
        ),
        (
            &["list", "--jsn", "000001"],
            "there is no option --jsn; see: depot-wal help list",
        ),
        (&["list", "-x"], "there is no option -x"),
        (
            &["list", "--strict", "000001"],
            "there is no option --strict; see: depot-wal help list",
        ),
        (&["list", "--json=yes", "000001"], "--json takes no value"),
        (
            &["list", "--version", "3", "000001"],
            "--version is 1 or 2, and not 3",
        ),
        (
            &["list", "000001", "--version"],
            "--version needs a value behind it",
        ),
        (&["list", "-", "-"], "standard input, -, can be read once"),
        (
            &["replay", "--by"],
            "--by needs a value behind it; see: depot-wal help replay",
        ),
        (&["resume", "-"], "standard input cannot be changed"),
        (&["index", "-"], "an index stands beside a file"),
        (
            &["index", "--check", "--rebuild", "000001"],
            "say --check or --rebuild, and not both",
        ),
        (&["checkpoint", "--all", "000001"], "name two files"),
        (
            &["checkpoint", "--all", "000001", "-"],
            "the new segment is a file",
        ),
        (
            &["checkpoint", "000001", "000002"],
            "say which series are kept: --id, --label or --all",
        ),
        (
            &["checkpoint", "--id", "x", "000001", "000002"],
            "--id x is no number",
        ),
        (
            &["checkpoint", "--label", "x", "000001", "000002"],
            "--label x is not NAME=VALUE",
        ),
        (
            &["checkpoint", "--all", "--from", "now", "a", "b"],
            "--from now is neither",
        ),
    ] {
        let run = folder.run(words);
        assert_eq!(run.out, "", "{words:?}");
        run.told(2, &[told]);
        assert_eq!(run.err.lines().count(), 1);
    }
    assert_eq!(folder.names(), ["000001"]);
}

#[test]
fn a_file_that_looks_like_an_option() {
    let folder = Folder::with("--json", &depot(1).bytes);
    let run = folder.run(&["list", "--", "--json"]);
    assert!(run.out.starts_with("--json: version 1, 256 bytes\n"));
    assert_eq!(run.status, 0);
}

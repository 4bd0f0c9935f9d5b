//! The command line: options that a subcommand takes, and files.

use depot_wal::Version;
use std::ffi::{OsStr, OsString};
use std::io;

/// Why a subcommand did not get to its end.
#[derive(Debug)]
pub enum Failure {
    /// The command line was not understood; a sentence that says what to do.
    Usage(String),
    /// Standard output cannot be written.
    Output(io::Error),
}

impl From<io::Error> for Failure {
    fn from(error: io::Error) -> Failure {
        Failure::Output(error)
    }
}

/// An option of a subcommand.
#[derive(Clone, Copy)]
pub struct Opt {
    pub name: &'static str,
    /// It takes a value.
    pub value: bool,
}

/// An option without a value.
pub const fn flag(name: &'static str) -> Opt {
    Opt { name, value: false }
}

/// An option with a value.
pub const fn valued(name: &'static str) -> Opt {
    Opt { name, value: true }
}

/// What every subcommand takes.
const COMMON: [Opt; 4] = [
    flag("--json"),
    valued("--version"),
    flag("--help"),
    flag("-h"),
];

/// A command line that was understood.
#[derive(Debug, Default)]
pub struct Args {
    /// The words that are no options, in order.
    pub files: Vec<OsString>,
    given: Vec<(&'static str, String)>,
}

impl Args {
    /// Reads the words after the name of a subcommand. After `--` every word is a file.
    pub fn parse(command: &str, options: &[Opt], words: &[OsString]) -> Result<Args, Failure> {
        let mut args = Args::default();
        let mut words = words.iter();
        while let Some(word) = words.next() {
            if word == "--" {
                args.files.extend(words.by_ref().cloned());
            } else if word == "-" || !starts_with_dash(word) {
                args.files.push(word.clone());
            } else {
                let taken = args.take(options, &word.to_string_lossy(), words.as_slice());
                if taken.map_err(|why| usage(command, &why))? {
                    words.next();
                }
            }
        }
        args.version()
            .map(|_| ())
            .map_err(|why| usage(command, &why))?;
        Ok(args)
    }

    /// Takes an option, `--name`, `--name=value` or `--name` and a value in the next word. True if
    /// it took that word.
    fn take(&mut self, options: &[Opt], word: &str, rest: &[OsString]) -> Result<bool, String> {
        let (name, inside) = match word.split_once('=') {
            Some((name, value)) => (name, Some(value.to_string())),
            None => (word, None),
        };
        let option = COMMON.iter().chain(options).find(|o| o.name == name);
        let option = option.ok_or_else(|| format!("there is no option {name}"))?;
        let next = rest.first().map(|word| word.to_string_lossy().into_owned());
        let (value, used) = match (option.value, inside) {
            (true, Some(value)) => (value, false),
            (true, None) => {
                let value = next.ok_or_else(|| format!("{name} needs a value behind it"))?;
                (value, true)
            }
            (false, None) => (String::new(), false),
            (false, Some(_)) => return Err(format!("{name} takes no value")),
        };
        self.given.push((option.name, value));
        Ok(used)
    }

    /// True if the option was given.
    pub fn has(&self, name: &str) -> bool {
        self.given.iter().any(|(given, _)| *given == name)
    }

    /// The values of an option, in order.
    pub fn values<'a>(&'a self, name: &'a str) -> impl Iterator<Item = &'a str> {
        let given = self.given.iter().filter(move |(given, _)| *given == name);
        given.map(|(_, value)| value.as_str())
    }

    /// The value of an option; the last one counts.
    pub fn value<'a>(&'a self, name: &'a str) -> Option<&'a str> {
        self.values(name).last()
    }

    /// True if help is asked for.
    pub fn wants_help(&self) -> bool {
        self.has("--help") || self.has("-h")
    }

    /// The version that was given, which goes before that of a file's name.
    pub fn version(&self) -> Result<Option<Version>, String> {
        match self.value("--version") {
            None => Ok(None),
            Some("1") => Ok(Some(Version::V1)),
            Some("2") => Ok(Some(Version::V2)),
            Some(other) => Err(format!("--version is 1 or 2, and not {other}")),
        }
    }
}

/// A sentence about a command line, with the way to the help.
pub fn usage(command: &str, why: &str) -> Failure {
    Failure::Usage(format!("{why}; see: depot-wal help {command}"))
}

fn starts_with_dash(word: &OsStr) -> bool {
    word.as_encoded_bytes().first() == Some(&b'-')
}

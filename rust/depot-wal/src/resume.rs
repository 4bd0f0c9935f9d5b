//! `depot-wal resume`: a segment made ready for the next record after a power failure.

use crate::args::{usage, Args, Failure};
use crate::end::{too_long_error, whole_behind, End};
use crate::json::Object;
use crate::open::{self, Segment, Source, Trouble};
use crate::out::Out;
use crate::words;
use depot_wal::log::{LogError, Options};
use depot_wal::resume::{resume, Refused, Resumed};
use depot_wal::segment::PAGE;
use depot_wal::Good;
use std::cmp::Ordering;
use std::fmt;
use std::io::{self, Write};

/// What is to be done with a file: its length is to become another.
struct Plan {
    from: usize,
    to: usize,
    /// Behind the new end there are only zeros.
    zeros: bool,
    /// Records that could be read behind it: these bytes are damaged, and not cut off.
    lost: u64,
    records: u64,
}

/// How a length becomes another.
#[derive(Clone, Copy)]
enum Action {
    Truncate,
    Fill,
    Nothing,
}

pub fn run(args: &Args, out: &mut Out) -> Result<bool, Failure> {
    let (dry, force) = (args.has("--dry-run"), args.has("--force"));
    if !dry && args.files.iter().any(|word| word == "-") {
        let why = "standard input cannot be changed, name a file or say --dry-run";
        return Err(usage("resume", why));
    }
    open::each("resume", args, out, |source, segment, out| {
        match plan(source, segment) {
            Ok(plan) => work(source, &plan, dry, force, out),
            Err(refused) => {
                let end = End::new(Err(refused.error), refused.good);
                end.tell(source, segment, out)?;
                say(source, "nothing was changed", out)?;
                Ok(false)
            }
        }
    })
}

/// Where the library goes on in these bytes.
fn plan(source: &Source, segment: &Segment) -> Result<Plan, Refused> {
    if segment.too_long {
        let (error, good) = (too_long_error(), Good::default());
        return Err(Refused { error, good });
    }
    let from = segment.bytes.len();
    let mut pages = segment.bytes.clone();
    pages.resize(from.div_ceil(PAGE).max(1) * PAGE, 0);
    let Resumed { next: to, good } = resume(source.version, &mut pages, from)?;
    let zeros = segment.bytes.iter().skip(to).all(|byte| *byte == 0);
    let lost = match zeros {
        true => 0,
        false => whole_behind(source, &segment.bytes, to),
    };
    Ok(Plan {
        from,
        to,
        zeros,
        lost,
        records: good.records,
    })
}

/// Says what is to be done, and if that could be said does it.
fn work(
    source: &Source,
    plan: &Plan,
    dry: bool,
    force: bool,
    out: &mut Out,
) -> Result<bool, Failure> {
    plan.tell(source, dry, out)?;
    let refused = plan.lost > 0 && !force;
    if dry || refused {
        let why = if dry { "dry run: " } else { "" };
        say(source, &format!("{why}nothing was changed"), out)?;
    }
    if refused {
        let records = words::records(plan.lost);
        out.complain(&format!(
            "{}: {records} behind {} can be read, so the file is damaged and not cut off; keep a \
             copy of it, then `depot-wal resume --force` gives them up",
            source.name, plan.to
        ))?;
    }
    match plan.action() {
        _ if refused => Ok(false),
        _ if dry => Ok(true),
        Action::Nothing => Ok(true),
        _ => carry_out(source, plan, out),
    }
}

/// Opens the log, which makes it ready, and closes it.
fn carry_out(source: &Source, plan: &Plan, out: &mut Out) -> Result<bool, Failure> {
    let path = source.file("resume")?;
    match Options::new().version(source.version).open(path) {
        Ok(log) if log.len() == plan.to as u64 => {
            say(
                source,
                &format!("done; the next record goes to {}", plan.to),
                out,
            )?;
            Ok(true)
        }
        Ok(_) => {
            let why = "the file changed meanwhile; look at it with `depot-wal verify`";
            Ok(open::tell(source, &why, out)?)
        }
        Err(error) => Ok(open::tell(source, &trouble(error), out)?),
    }
}

/// A line for people; machines have had theirs.
fn say(source: &Source, line: &str, out: &mut Out) -> io::Result<()> {
    match out.json {
        true => writeln!(out, "{}", Object::of(&source.name).text("note", line)),
        false => writeln!(out, "{line}"),
    }
}

fn trouble(error: LogError) -> String {
    match error {
        LogError::InUse => "another program has the log open; stop that one first".to_string(),
        LogError::Io(error) => Trouble::from(error).to_string(),
        error => format!("{error}; look at it with `depot-wal verify`"),
    }
}

impl Plan {
    /// Prints it, and brings that out before anything is done.
    fn tell(&self, source: &Source, dry: bool, out: &mut Out) -> io::Result<()> {
        if out.json {
            let line = Object::of(&source.name)
                .text("action", self.action().word())
                .count("from", self.from)
                .count("to", self.to)
                .number("records", self.records)
                .number("lost", self.lost)
                .flag("dry_run", dry);
            writeln!(out, "{line}")?;
        } else {
            writeln!(out, "{} whole; {self}", words::records(self.records))?;
        }
        out.finish()
    }

    fn action(&self) -> Action {
        match self.to.cmp(&self.from) {
            Ordering::Less => Action::Truncate,
            Ordering::Greater => Action::Fill,
            Ordering::Equal => Action::Nothing,
        }
    }
}

impl Action {
    fn word(self) -> &'static str {
        match self {
            Action::Truncate => "truncate",
            Action::Fill => "fill",
            Action::Nothing => "none",
        }
    }
}

impl fmt::Display for Plan {
    fn fmt(&self, f: &mut fmt::Formatter<'_>) -> fmt::Result {
        let Plan { from, to, .. } = *self;
        let cut = from.saturating_sub(to);
        match self.action() {
            Action::Truncate => write!(f, "truncate from {from} to {to} bytes: ")?,
            Action::Fill => {
                let zeros = words::count((to - from) as u64, "zero", "zeros");
                return write!(
                    f,
                    "add {zeros}, from {from} to {to} bytes: the rest of its page, where no record \
                     fits"
                );
            }
            Action::Nothing => return write!(f, "nothing to do, the next record goes to {to}"),
        }
        match self.lost {
            _ if self.zeros => write!(f, "{cut} zeros behind them"),
            0 => write!(f, "the {cut} bytes of a record that was cut off"),
            lost => write!(
                f,
                "{cut} bytes, with {} that can be read",
                words::records(lost)
            ),
        }
    }
}

//! `depot-wal index`: the file beside a segment that tells where each record is.

use crate::args::{usage, Args, Failure};
use crate::end::{too_long, End};
use crate::json::Object;
use crate::open::{self, Segment, Source, Trouble};
use crate::out::Out;
use crate::save::save;
use crate::words;
use depot_wal::index::{Index, HEAD, ROW};
use depot_wal::segment::{Records, RECORD_MAX};
use std::fs;
use std::io::{self, ErrorKind, Write};
use std::path::{Path, PathBuf};

/// What was found in place of an index, or done about it.
enum State {
    Built(u64),
    Extended(u64),
    Good(u64),
    /// Accepted, and the segment has grown since.
    Behind(u64),
    Missing,
    Refused,
}

pub fn run(args: &Args, out: &mut Out) -> Result<bool, Failure> {
    let (check, rebuild) = (args.has("--check"), args.has("--rebuild"));
    if check && rebuild {
        return Err(usage("index", "say --check or --rebuild, and not both"));
    }
    if args.files.iter().any(|word| word == "-") {
        return Err(usage(
            "index",
            "an index stands beside a file, standard input has none",
        ));
    }
    open::each("index", args, out, |source, segment, out| {
        if segment.too_long {
            return Ok(too_long().tell(source, segment, out)?);
        }
        let path = path_of(source.file("index")?);
        let fine = match work(source, segment, &path, check, rebuild) {
            Ok(state) => tell(source, &state, &path, out)?,
            Err(sentence) => open::tell(source, &sentence, out)?,
        };
        Ok(tell_end(source, segment, out)? && fine)
    })
}

/// The file of the index.
fn path_of(segment: &Path) -> PathBuf {
    let mut name = segment.as_os_str().to_owned();
    name.push(".index");
    PathBuf::from(name)
}

/// Checks the index that is there, extends it or builds one.
fn work(
    source: &Source,
    segment: &Segment,
    path: &Path,
    check: bool,
    rebuild: bool,
) -> Result<State, String> {
    let old = match fs::read(path) {
        Ok(bytes) => Some(bytes),
        Err(error) if error.kind() == ErrorKind::NotFound => None,
        Err(error) => return Err(format!("{}: {}", path.display(), Trouble::from(error))),
    };
    match old {
        Some(old) if !rebuild => bring_up(source, segment, path, check, &old),
        None if check => Ok(State::Missing),
        _ => {
            let mut room = room_for(segment);
            let built = Index::build(source.version, &segment.bytes, &mut room);
            let built = built.expect("the segment is short enough, and there is room");
            save(path, built.bytes())?;
            Ok(State::Built(built.len()))
        }
    }
}

/// Checks an index; where the segment has grown it is extended, unless nothing is to be written.
fn bring_up(
    source: &Source,
    segment: &Segment,
    path: &Path,
    check: bool,
    old: &[u8],
) -> Result<State, String> {
    let (version, bytes) = (source.version, &segment.bytes);
    let Ok(index) = Index::check(version, bytes, old) else {
        return Ok(State::Refused);
    };
    if covered(old) == bytes.len() {
        return Ok(State::Good(index.len()));
    }
    if check {
        return Ok(State::Behind(index.len()));
    }
    let mut room = room_for(segment);
    room[..old.len()].copy_from_slice(old);
    let grown = Index::extend(version, bytes, &mut room, old.len());
    let grown = grown.expect("it was accepted, and there is room");
    save(path, grown.bytes())?;
    Ok(State::Extended(grown.len()))
}

/// Room for any index of a segment: a record takes eight bytes of it or more, and eight of an index.
fn room_for(segment: &Segment) -> Vec<u8> {
    vec![0; HEAD + ROW + segment.bytes.len()]
}

/// The bytes that an index covers, which was accepted (FORMAT 19.1).
fn covered(index: &[u8]) -> usize {
    match index[8..12].try_into() {
        Ok(bytes) => u32::from_be_bytes(bytes) as usize,
        Err(_) => 0,
    }
}

/// True if there is an index now that is right.
fn tell(source: &Source, state: &State, path: &Path, out: &mut Out) -> io::Result<bool> {
    let (word, records) = match *state {
        State::Built(records) => ("built", records),
        State::Extended(records) => ("extended", records),
        State::Good(records) => ("good", records),
        State::Behind(records) => ("good, the segment has grown since", records),
        State::Missing => ("missing", 0),
        State::Refused => ("refused", 0),
    };
    let name = words::text(path.as_os_str().as_encoded_bytes());
    match out.json {
        true => {
            let line = Object::of(&source.name).text("index", &name);
            writeln!(
                out,
                "{}",
                line.text("state", word).number("listed", records)
            )?;
        }
        false => writeln!(out, "{name}: {word}, {} listed", words::records(records))?,
    }
    let sentence = match state {
        State::Missing => "there is none; without --check it is built",
        State::Refused => "it is not the index of this segment; build it anew with --rebuild",
        _ => return Ok(true),
    };
    out.complain(&format!("{name}: {sentence}"))?;
    Ok(false)
}

/// How the segment ends, since an index does not tell.
fn tell_end(source: &Source, segment: &Segment, out: &mut Out) -> io::Result<bool> {
    let mut buffer = Box::new([0; RECORD_MAX]);
    let mut records = Records::new(source.version, &segment.bytes, &mut buffer);
    let mut result = Ok(());
    while let Some(read) = records.next() {
        result = read.map(|_| ());
    }
    End::new(result, records.good()).tell(source, segment, out)
}

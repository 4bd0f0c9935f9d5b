//! Files and standard input to segments in memory, and their versions.

use crate::args::{usage, Args, Failure};
use crate::json::Object;
use crate::out::Out;
use crate::words;
use depot_wal::names::Name;
use depot_wal::segment::SEGMENT_MAX;
use depot_wal::Version;
use std::ffi::{OsStr, OsString};
use std::fmt;
use std::fs::File;
use std::io::{self, ErrorKind, Read, Write};
use std::os::fd::AsFd;
use std::path::{Path, PathBuf};

/// Where a segment comes from.
pub struct Source {
    /// `None` is standard input.
    pub path: Option<PathBuf>,
    /// For people.
    pub name: String,
    pub version: Version,
}

/// The bytes of a segment, at most as many as one may have.
pub struct Segment {
    pub bytes: Vec<u8>,
    /// There are more.
    pub too_long: bool,
}

/// Why a file could not be had.
#[derive(Debug)]
pub enum Trouble {
    Directory,
    Io(io::Error),
}

impl From<io::Error> for Trouble {
    fn from(error: io::Error) -> Trouble {
        Trouble::Io(error)
    }
}

impl fmt::Display for Trouble {
    fn fmt(&self, f: &mut fmt::Formatter<'_>) -> fmt::Result {
        match self {
            Trouble::Directory => {
                f.write_str("it is a directory; name the segments in it, as DIRECTORY/000001")
            }
            Trouble::Io(error) if error.kind() == ErrorKind::NotFound => {
                f.write_str("there is no such file; check the path, or list its directory with ls")
            }
            Trouble::Io(error) if error.kind() == ErrorKind::PermissionDenied => {
                f.write_str("no permission; run it as the user that may, or take a copy")
            }
            Trouble::Io(error) => {
                write!(f, "{error}; check the medium, and try a copy of the file")
            }
        }
    }
}

impl Source {
    /// Of a word of the command line; the version given goes before that of the name, and where
    /// neither is there it is 1.
    pub fn new(word: &OsStr, given: Option<Version>) -> Source {
        if word == "-" {
            let (name, version) = ("-".to_string(), given.unwrap_or(Version::V1));
            let path = None;
            return Source {
                path,
                name,
                version,
            };
        }
        let path = PathBuf::from(word);
        let version = given.or(named_version(&path)).unwrap_or(Version::V1);
        let name = words::text(word.as_encoded_bytes());
        let path = Some(path);
        Source {
            path,
            name,
            version,
        }
    }

    /// Reads it into memory.
    pub fn read(&self) -> Result<Segment, Trouble> {
        self.read_watched(|_| ())
    }

    /// The same; whoever watches is shown what is there after each piece, and all in the end.
    pub fn read_watched(&self, watch: impl FnMut(&[u8])) -> Result<Segment, Trouble> {
        let Some(path) = &self.path else {
            // Not `io::stdin()`, for which standard input that cannot be read is an empty one.
            return read_on(File::from(io::stdin().as_fd().try_clone_to_owned()?), watch);
        };
        let file = File::open(path)?;
        let about = file.metadata()?;
        if about.is_dir() {
            return Err(Trouble::Directory);
        }
        match about.len() {
            len if about.is_file() && len > 0 => read_file(file, len, watch),
            _ => read_on(file, watch),
        }
    }

    /// The path; standard input has none, and cannot be what this command works on.
    pub fn file(&self, command: &str) -> Result<&Path, Failure> {
        let path = self.path.as_deref();
        path.ok_or_else(|| usage(command, "standard input will not do here, name a file"))
    }
}

/// The version that the name of a segment's file says.
pub fn named_version(path: &Path) -> Option<Version> {
    let name = path.file_name()?;
    Some(Name::parse(name.as_encoded_bytes()).ok()?.version)
}

/// Bytes that are read at once.
const PIECE: usize = 1 << 18;

/// Reads a file of a known length, which may shrink meanwhile.
fn read_file(mut file: File, len: u64, mut watch: impl FnMut(&[u8])) -> Result<Segment, Trouble> {
    let too_long = len > SEGMENT_MAX as u64;
    let mut bytes = vec![0; len.min(SEGMENT_MAX as u64) as usize];
    let mut filled = 0;
    while filled < bytes.len() {
        let end = bytes.len().min(filled + PIECE);
        match file.read(&mut bytes[filled..end]) {
            Ok(0) => break,
            Ok(more) => filled += more,
            Err(error) if error.kind() == ErrorKind::Interrupted => {}
            Err(error) => return Err(error.into()),
        }
        watch(&bytes[..filled]);
    }
    bytes.truncate(filled);
    Ok(Segment { bytes, too_long })
}

/// Reads to the end, or one byte more than a segment may have.
fn read_on(source: impl Read, mut watch: impl FnMut(&[u8])) -> Result<Segment, Trouble> {
    let mut bytes = Vec::new();
    let mut source = source.take(SEGMENT_MAX as u64 + 1);
    source.read_to_end(&mut bytes)?;
    let too_long = bytes.len() > SEGMENT_MAX;
    bytes.truncate(SEGMENT_MAX);
    watch(&bytes);
    Ok(Segment { bytes, too_long })
}

/// The sources of a command line, at least one.
pub fn sources(command: &str, args: &Args, files: &[OsString]) -> Result<Vec<Source>, Failure> {
    if files.is_empty() {
        return Err(usage(command, "name a file, or - for standard input"));
    }
    if files.iter().filter(|word| *word == "-").count() > 1 {
        return Err(usage(command, "standard input, -, can be read once"));
    }
    let given = args.version().map_err(|why| usage(command, &why))?;
    let sources = files.iter().map(|word| Source::new(word, given));
    Ok(sources.collect())
}

/// Does a piece of work with each segment of a command line, and goes on after one that cannot be
/// had. True if none was, and all the work says so too.
pub fn each(
    command: &str,
    args: &Args,
    out: &mut Out,
    work: impl Fn(&Source, &Segment, &mut Out) -> Result<bool, Failure>,
) -> Result<bool, Failure> {
    let mut fine = true;
    for source in sources(command, args, &args.files)? {
        fine &= with(&source, source.read(), out, &work)?;
    }
    Ok(fine)
}

/// The work with one segment, or with why it could not be had.
pub fn with(
    source: &Source,
    segment: Result<Segment, Trouble>,
    out: &mut Out,
    work: impl Fn(&Source, &Segment, &mut Out) -> Result<bool, Failure>,
) -> Result<bool, Failure> {
    let fine = match segment {
        Ok(segment) => {
            head(source, &segment, out)?;
            work(source, &segment, out)?
        }
        Err(trouble) => tell(source, &trouble, out)?,
    };
    out.finish()?;
    Ok(fine)
}

/// The line that a segment begins with.
fn head(source: &Source, segment: &Segment, out: &mut Out) -> io::Result<()> {
    if out.json {
        return Ok(());
    }
    let (name, version) = (&source.name, source.version.number());
    let more = if segment.too_long { "more than " } else { "" };
    writeln!(
        out,
        "{name}: version {version}, {more}{} bytes",
        segment.bytes.len()
    )
}

/// Says that a file could not be had, and is false.
pub fn tell(source: &Source, trouble: &impl fmt::Display, out: &mut Out) -> io::Result<bool> {
    if out.json {
        let line = Object::of(&source.name).text("error", &trouble.to_string());
        writeln!(out, "{line}")?;
    }
    out.complain(&format!("{}: {trouble}", source.name))?;
    Ok(false)
}

//! A log on a file.
//!
//! The file is one segment: the bytes of its records and nothing behind them, at most
//! [`SEGMENT_MAX`]. It grows with each record, and is never longer than what was written, so that
//! after a power failure its length says what survived. Its name has its version
//! ([`names`](crate::names)); for another name say it, by [`Options`].
//!
//! **Nothing is lost**: every record whose [`append`](Log::append) returned comes out of
//! [`records`](Log::records) after the next [`open`](Log::open), or after
//! [`open_truncating`](Log::open_truncating) where `open` refused. This takes for granted that the
//! medium keeps what was synced, and that a power failure leaves of what was not any part, with
//! zeros for the rest. Other damage may take more with it: where a length is damaged so that a
//! record seems to go beyond the file, that record reads as cut off, and `open` cuts there.
//!
//! - `open` reads the file once, whole, and goes on behind its last record, or over what is left of
//!   one that was cut off. What it cuts off is a record whose append had not returned. When it
//!   returns, the file as it is then is on the medium.
//! - Where the bytes are refused, `open` fails with number, place and good length
//!   ([`LogError::Bytes`]), and changes nothing. After a power failure a tail of zeros may be
//!   refused: the file was made longer, but its last bytes were not stored. Anything else is
//!   damage, or a file of another program or version: keep a copy for whoever looks into it.
//! - `open_truncating` then truncates the file to the good length, and opens it.
//! - The file is locked (`flock`) while the log is open: a second one is [`LogError::InUse`].
//! - After an error of the file the log takes no more records ([`LogError::Failed`]): open it
//!   again.
//!
//! ```
//! use depot_wal::log::{Log, LogError, Options};
//! use depot_wal::{Refusal, Version};
//! # let folder = std::env::temp_dir().join(format!("depot_wal-log-{}", std::process::id()));
//! # std::fs::create_dir_all(&folder)?;
//! # let path = folder.join("000007-v2");
//! # let _ = std::fs::remove_file(&path);
//!
//! // `path` ends in 000007-v2: a segment of version 2.
//! let mut log = Log::open(&path)?;
//! assert_eq!(log.version(), Version::V2);
//! log.append(b"one")?;
//! log.append(b"two")?;
//! drop(log);
//!
//! // The power fails in the middle of the second record.
//! std::fs::OpenOptions::new().write(true).open(&path)?.set_len(15)?;
//! let mut log = Log::open(&path)?;
//! assert_eq!((log.count(), log.len()), (1, 10));
//! log.append(b"two")?;
//! let records: Result<Vec<_>, _> = log.records().collect();
//! assert_eq!(records?, [b"one", b"two"]);
//! drop(log);
//!
//! // It fails again, and the bytes of the second are zeros behind its head.
//! let mut bytes = std::fs::read(&path)?;
//! bytes[17..].fill(0);
//! std::fs::write(&path, &bytes)?;
//! let Err(LogError::Bytes(refused)) = Log::open(&path) else { panic!() };
//! assert_eq!(refused.error.refusal, Refusal::BadSum);
//! assert_eq!((refused.good.records, refused.good.offset), (1, 10));
//! assert_eq!(std::fs::read(&path)?, bytes);
//! let log = Log::open_truncating(&path)?;
//! assert_eq!(log.count(), 1);
//! # drop(log);
//! # std::fs::remove_dir_all(&folder)?;
//! # Ok::<(), Box<dyn std::error::Error>>(())
//! ```

use crate::checksum::Table;
use crate::feed;
use crate::names::Name;
use crate::resume::{resume, Refused, Resumed};
use crate::segment::{write, PAGE, SEGMENT_MAX};
use crate::{Error, Good, Refusal, Version};
use std::boxed::Box;
use std::fs::{File, OpenOptions};
use std::io::{self, Read};
use std::os::fd::AsRawFd;
use std::os::unix::ffi::OsStrExt;
use std::os::unix::fs::FileExt;
use std::path::Path;
use std::{error, fmt, vec};

/// Bytes that one record takes at most: it begins in a page and goes on in three.
const RECORD_PAGES: usize = 4 * PAGE;

/// How a log is opened.
#[derive(Clone, Copy, Debug, Default)]
pub struct Options {
    version: Option<Version>,
}

impl Options {
    /// The version is that of the file's name.
    pub fn new() -> Options {
        Options::default()
    }

    /// The file is of this version, whatever its name.
    pub fn version(self, version: Version) -> Options {
        let version = Some(version);
        Options { version }
    }

    /// As [`Log::open`].
    pub fn open(&self, path: impl AsRef<Path>) -> Result<Log, LogError> {
        self.open_by(path.as_ref(), survivors)
    }

    /// As [`Log::open_truncating`].
    pub fn open_truncating(&self, path: impl AsRef<Path>) -> Result<Log, LogError> {
        self.open_by(path.as_ref(), survivors_truncated)
    }

    fn open_by(
        &self,
        path: &Path,
        survivors: fn(&File, Version) -> Result<Resumed, LogError>,
    ) -> Result<Log, LogError> {
        let version = self.version_of(path)?;
        let file = OpenOptions::new()
            .read(true)
            .write(true)
            .create(true)
            .truncate(false)
            .open(path)?;
        lock(&file)?;
        let is_new = file.metadata()?.len() == 0;
        let Resumed { next, good } = survivors(&file, version)?;
        // Shorter by what is left of a record, or longer by the padding that did not survive. It
        // must be on the medium before anything is written behind it.
        if file.metadata()?.len() != next as u64 {
            file.set_len(next as u64)?;
        }
        file.sync_all()?;
        if is_new {
            sync_folder(path)?;
        }
        Ok(Log {
            file,
            version,
            end: next,
            count: good.records,
            pages: vec![0; RECORD_PAGES].into_boxed_slice(),
            failed: false,
        })
    }

    fn version_of(&self, path: &Path) -> Result<Version, LogError> {
        let name = path.file_name().unwrap_or_default();
        match self.version {
            Some(version) => Ok(version),
            None => Ok(Name::parse(name.as_bytes())
                .map_err(LogError::Name)?
                .version),
        }
    }
}

/// Where to go on in a file, and what came out of it; the file does not change.
fn survivors(file: &File, version: Version) -> Result<Resumed, LogError> {
    let survived = file.metadata()?.len();
    if survived > SEGMENT_MAX as u64 {
        let (error, good) = (Error::new(Refusal::BadBuffer, 0), Good::default());
        return Err(LogError::Bytes(Refused { error, good }));
    }
    let survived = survived as usize;
    let pages = survived.div_ceil(PAGE).max(1);
    let mut segment = vec![0; pages * PAGE];
    file.read_exact_at(&mut segment[..survived], 0)?;
    resume(version, &mut segment, survived).map_err(LogError::Bytes)
}

/// The same; a file that is refused is truncated to its good length, if it was read at all.
fn survivors_truncated(file: &File, version: Version) -> Result<Resumed, LogError> {
    match survivors(file, version) {
        Err(LogError::Bytes(refused)) if refused.error.refusal != Refusal::BadBuffer => {
            file.set_len(refused.good.offset as u64)?;
            survivors(file, version)
        }
        read => read,
    }
}

/// A log on a file, open for appending.
#[derive(Debug)]
pub struct Log {
    file: File,
    version: Version,
    /// The place of the next record, which is the file's length.
    end: usize,
    count: u64,
    /// Where a record gets its bytes.
    pages: Box<[u8]>,
    failed: bool,
}

impl Log {
    /// Opens the log at a path, or makes an empty one. What a power failure left of a record is cut
    /// off. Bytes that are refused are an error with number, place and good length, and nothing
    /// changes.
    pub fn open(path: impl AsRef<Path>) -> Result<Log, LogError> {
        Options::new().open(path)
    }

    /// Opens the log at a path, or makes an empty one. Where [`open`](Log::open) refuses the bytes,
    /// this **truncates** the file to its good length: what is whole before the refused place
    /// stays, everything behind it is gone. A file above [`SEGMENT_MAX`] is refused all the same.
    /// Call it where `open` refused, and the good length is what is to be expected.
    pub fn open_truncating(path: impl AsRef<Path>) -> Result<Log, LogError> {
        Options::new().open_truncating(path)
    }

    /// Appends a record and hands back its place in the file. When this returns, it is on the
    /// medium. A record that is empty, above 65,536 bytes, or does not fit any more
    /// ([`Refusal::Hollow`], [`TooLong`](Refusal::TooLong), [`NoRoom`](Refusal::NoRoom)) is
    /// [`LogError::Record`], and nothing changes.
    pub fn append(&mut self, record: &[u8]) -> Result<u64, LogError> {
        let start = self.append_unsynced(record)?;
        self.sync()?;
        Ok(start)
    }

    /// The same, but the record is on the medium only after the next [`sync`](Log::sync): for many
    /// records at once. Where the power fails before, any of them may be missing, also one before
    /// others that come out.
    #[inline]
    pub fn append_unsynced(&mut self, record: &[u8]) -> Result<u64, LogError> {
        if self.failed {
            return Err(LogError::Failed);
        }
        // What a write does depends on the place in its page, and on the pages that are left.
        let start = self.end;
        let first_page = (start / PAGE).min(SEGMENT_MAX / PAGE - 1) * PAGE;
        let pages = &mut self.pages[..RECORD_PAGES.min(SEGMENT_MAX - first_page)];
        let place = start - first_page;
        let next = write(self.version, pages, place, record, Some(Table::shared()))
            .map_err(|error| LogError::Record(Error::new(error.refusal, start)))?;
        let written = self.file.write_all_at(&pages[place..next], start as u64);
        self.keep(written)?;
        self.end = first_page + next;
        self.count += 1;
        Ok(start as u64)
    }

    /// Brings every record that was appended to the medium.
    pub fn sync(&mut self) -> Result<(), LogError> {
        if self.failed {
            return Err(LogError::Failed);
        }
        let synced = self.file.sync_data();
        self.keep(synced)
    }

    /// Remembers an error of the file: what it holds then is not known.
    fn keep(&mut self, result: io::Result<()>) -> Result<(), LogError> {
        self.failed = result.is_err();
        result.map_err(LogError::Io)
    }

    /// The records from the first on, read from the file a page at a time.
    pub fn records(&self) -> Records<'_> {
        let Log {
            file, version, end, ..
        } = self;
        let section = Section {
            file,
            place: 0,
            end: *end as u64,
        };
        feed::Records::new(*version, section)
    }

    /// How many records it has.
    pub fn count(&self) -> u64 {
        self.count
    }

    /// The length of the file, which is the place of the next record.
    pub fn len(&self) -> u64 {
        self.end as u64
    }

    /// True if it has no record.
    pub fn is_empty(&self) -> bool {
        self.count == 0
    }

    /// The version of the file.
    pub fn version(&self) -> Version {
        self.version
    }
}

/// The records of a log.
pub type Records<'a> = feed::Records<Section<'a>>;

/// The bytes of a log, from its start to its last record.
#[derive(Debug)]
pub struct Section<'a> {
    file: &'a File,
    place: u64,
    end: u64,
}

impl Read for Section<'_> {
    fn read(&mut self, buffer: &mut [u8]) -> io::Result<usize> {
        let left = usize::try_from(self.end - self.place).unwrap_or(usize::MAX);
        let wanted = buffer.len().min(left);
        let read = self.file.read_at(&mut buffer[..wanted], self.place)?;
        self.place += read as u64;
        Ok(read)
    }
}

/// Makes the name of a new file last.
fn sync_folder(path: &Path) -> io::Result<()> {
    let folder = match path.parent() {
        Some(folder) if folder != Path::new("") => folder,
        _ => Path::new("."),
    };
    File::open(folder)?.sync_all()
}

/// Locks the file until it is closed, which the end of the process does too.
fn lock(file: &File) -> Result<(), LogError> {
    const EXCLUSIVE_AT_ONCE: i32 = 2 | 4;
    extern "C" {
        fn flock(file: i32, operation: i32) -> i32;
    }
    // SAFETY: the descriptor is open, and the call touches no memory of ours.
    if unsafe { flock(file.as_raw_fd(), EXCLUSIVE_AT_ONCE) } == 0 {
        return Ok(());
    }
    match io::Error::last_os_error() {
        error if error.kind() == io::ErrorKind::WouldBlock => Err(LogError::InUse),
        error => Err(LogError::Io(error)),
    }
}

/// Why a log could not be opened, or a record not appended.
#[derive(Debug)]
#[non_exhaustive]
pub enum LogError {
    /// The file's name is not that of a segment, and no version was given.
    Name(Error),
    /// The bytes of the file are refused; nothing has changed.
    Bytes(Refused),
    /// The record is refused; nothing has changed.
    Record(Error),
    /// Another one has the log open.
    InUse,
    /// The file could not be read, written or synced.
    Io(io::Error),
    /// An earlier append or sync failed: the log is to be opened again.
    Failed,
}

impl From<io::Error> for LogError {
    fn from(error: io::Error) -> LogError {
        LogError::Io(error)
    }
}

impl fmt::Display for LogError {
    fn fmt(&self, f: &mut fmt::Formatter<'_>) -> fmt::Result {
        match self {
            LogError::Name(error) | LogError::Record(error) => error.fmt(f),
            LogError::Bytes(refused) => refused.fmt(f),
            LogError::InUse => f.write_str("another one has the log open"),
            LogError::Io(error) => error.fmt(f),
            LogError::Failed => f.write_str("an earlier append or sync failed: open the log again"),
        }
    }
}

impl error::Error for LogError {
    fn source(&self) -> Option<&(dyn error::Error + 'static)> {
        match self {
            LogError::Name(error) | LogError::Record(error) => Some(error),
            LogError::Bytes(refused) => Some(refused),
            LogError::Io(error) => Some(error),
            LogError::InUse | LogError::Failed => None,
        }
    }
}

#[cfg(test)]
mod tests {
    use super::*;

    #[test]
    fn a_failed_log_takes_no_more() {
        let path = std::env::temp_dir().join(std::format!("depot_wal-{}", std::process::id()));
        let options = Options::new().version(Version::V1);
        let mut log = options.open(&path).unwrap();
        log.append(b"one").unwrap();
        // A file that cannot be written.
        log.file = File::open(&path).unwrap();
        assert!(matches!(log.append(b"two"), Err(LogError::Io(_))));
        assert!(matches!(log.append(b"two"), Err(LogError::Failed)));
        assert!(matches!(log.sync(), Err(LogError::Failed)));
        assert_eq!((log.count(), log.len()), (1, 10));
        assert_eq!(log.records().count(), 1);
        drop(log);
        options.open(&path).unwrap().append(b"two").unwrap();
        std::fs::remove_file(&path).unwrap();
    }
}

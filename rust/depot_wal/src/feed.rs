//! The page feed: a segment read page by page, for those who do not hold it whole.
//!
//! A [`Feed`] has the page at hand and the buffer in which a record grows over pages. A read gives
//! a record, the end, or an [`Ask`] for the next page. Only an `Ask` gives access to the page, so
//! the page is the same at every read until more is asked for. The feed knows no table.
//!
//! ```
//! use depot_wal::feed::{Feed, Step};
//! use depot_wal::segment::{Writer, PAGE, RECORD_MAX};
//! use depot_wal::Version;
//!
//! let mut segment = [0; 2 * PAGE];
//! let mut writer = Writer::new(Version::V1, &mut segment);
//! writer.write(&[7; 40_000])?;
//! let mut pages = writer.written().chunks(PAGE);
//!
//! let (mut page, mut buffer) = ([0; PAGE], [0; RECORD_MAX]);
//! let mut feed = Feed::new(Version::V1, &mut page, &mut buffer);
//! let mut lengths = Vec::new();
//! loop {
//!     match feed.read()? {
//!         Step::Record(record) => lengths.push(record.bytes.len()),
//!         Step::Ask(ask) => ask.feed(pages.next().unwrap_or(&[]))?,
//!         Step::End => break,
//!     }
//! }
//! assert_eq!(lengths, [40_000]);
//! # Ok::<(), depot_wal::Error>(())
//! ```
//!
//! With `std`, [`Records`] does this over anything that is [`std::io::Read`]:
//!
//! ```
//! # #[cfg(feature = "std")] {
//! use depot_wal::{feed, Version};
//!
//! // Type byte, length, checksum, data.
//! let file: &[u8] = &[1, 0, 1, 0xC1, 0xD0, 0x43, 0x30, b'a'];
//! let mut records = feed::Records::new(Version::V1, file);
//! assert_eq!(records.next().unwrap().unwrap(), b"a");
//! assert!(records.next().is_none());
//! # }
//! ```

use crate::error::{done, done_or_end};
use crate::segment::{Buffer, Record, PAGE};
use crate::{sys, Error, Good, Refusal, Version};

/// A segment that is read page by page.
#[derive(Debug)]
pub struct Feed<'a> {
    state: State,
    page: &'a mut [u8; PAGE],
    buffer: &'a mut Buffer,
}

/// What a read gives.
#[derive(Debug)]
pub enum Step<'f> {
    /// A record, which is in the buffer until the next call.
    Record(Record<'f>),
    /// The next page is asked for.
    Ask(Ask<'f>),
    /// A clean end.
    End,
}

/// Takes the next page. Dropped without one, it is asked for again.
#[derive(Debug)]
pub struct Ask<'f> {
    state: &'f mut State,
    page: &'f mut [u8; PAGE],
}

/// What the library keeps between calls, and the length of the page at hand.
#[derive(Debug)]
struct State {
    numbers: [u64; sys::FEED_LEN],
    page_len: usize,
    good: Good,
}

/// What a read of the state found: start, length and the place after of a record, or no record.
enum Found {
    Record([usize; 3]),
    Ask,
    End,
}

impl<'a> Feed<'a> {
    /// Starts a feed. The page and the buffer are the feed's until it is dropped.
    pub fn new(version: Version, page: &'a mut [u8; PAGE], buffer: &'a mut Buffer) -> Feed<'a> {
        let state = State::new(version);
        Feed {
            state,
            page,
            buffer,
        }
    }

    /// Reads on. A refusal is given again at every later read.
    pub fn read(&mut self) -> Result<Step<'_>, Error> {
        Ok(match self.state.read(self.page, self.buffer)? {
            Found::Record([start, length, next]) => {
                let bytes = &self.buffer[..length];
                Step::Record(Record { start, next, bytes })
            }
            Found::Ask => Step::Ask(Ask {
                state: &mut self.state,
                page: self.page,
            }),
            Found::End => Step::End,
        })
    }

    /// What was whole so far.
    pub fn good(&self) -> Good {
        self.state.good
    }
}

impl Ask<'_> {
    /// Takes a page. One of fewer than [`PAGE`] bytes, or none, is the last. A longer one, and one
    /// that makes the segment longer than it may be, is
    /// [`BadBuffer`](crate::Refusal::BadBuffer), and the page is still asked for.
    pub fn feed(self, bytes: &[u8]) -> Result<(), Error> {
        match self.page.get_mut(..bytes.len()) {
            Some(page) => page.copy_from_slice(bytes),
            None => return Err(Error::new(Refusal::BadBuffer, 0)),
        }
        self.state.take(self.page, bytes.len())
    }

    /// Takes a page that is read in place: `fill` hands back how many bytes it read, fewer than
    /// [`PAGE`] only at the segment's end.
    pub fn fill<E: From<Error>>(
        self,
        fill: impl FnOnce(&mut [u8; PAGE]) -> Result<usize, E>,
    ) -> Result<(), E> {
        let len = fill(self.page)?;
        Ok(self.state.take(self.page, len)?)
    }
}

impl State {
    fn new(version: Version) -> State {
        let mut numbers = [0; sys::FEED_LEN];
        // SAFETY: the array has the length of a state. Both versions are known, so it is started.
        unsafe { sys::depot_wal_feed_start(&mut numbers, version.number()) };
        State {
            numbers,
            page_len: 0,
            good: Good::default(),
        }
    }

    /// Feeds the first `len` bytes of the page.
    fn take(&mut self, page: &[u8; PAGE], len: usize) -> Result<(), Error> {
        let page = page.get(..len).ok_or(Error::new(Refusal::BadBuffer, 0))?;
        let mut out = [0; 3];
        // SAFETY: the page is valid for its length, and the state is this one's alone.
        let number = unsafe {
            sys::depot_wal_feed_page(&mut self.numbers, page.as_ptr(), page.len(), &mut out)
        };
        done(number, out[0])?;
        self.page_len = len;
        Ok(())
    }

    fn read(&mut self, page: &[u8; PAGE], buffer: &mut Buffer) -> Result<Found, Error> {
        let page = &page[..self.page_len];
        let (room, room_len) = (buffer.as_mut_ptr(), buffer.len());
        let mut out = [0; 5];
        // SAFETY: page and buffer are valid for their lengths, the buffer is borrowed for this call
        // alone, and so is the state.
        let number = unsafe {
            sys::depot_wal_feed_read(
                &mut self.numbers,
                page.as_ptr(),
                page.len(),
                room,
                room_len,
                &mut out,
            )
        };
        let [start, length, next, records, offset] = out;
        self.good = Good::of([records, offset]);
        if number == sys::MORE {
            return Ok(Found::Ask);
        }
        Ok(match done_or_end(number, start)? {
            true => Found::Record([start, length, next].map(|number| number as usize)),
            false => Found::End,
        })
    }
}

#[cfg(feature = "std")]
pub use reader::{ReadError, Records};

#[cfg(feature = "std")]
mod reader {
    use super::{Found, State};
    use crate::segment::{Buffer, PAGE, RECORD_MAX};
    use crate::{Error, Good, Version};
    use std::boxed::Box;
    use std::io::{self, Read};
    use std::vec::Vec;
    use std::{error, fmt};

    /// Why a segment that comes from a [`Read`] could not be read on.
    #[derive(Debug)]
    pub enum ReadError {
        /// The bytes are refused, or end inside a record.
        Refused(Error),
        /// They could not be had.
        Io(io::Error),
    }

    impl From<Error> for ReadError {
        fn from(error: Error) -> ReadError {
            ReadError::Refused(error)
        }
    }

    impl From<io::Error> for ReadError {
        fn from(error: io::Error) -> ReadError {
            ReadError::Io(error)
        }
    }

    impl fmt::Display for ReadError {
        fn fmt(&self, f: &mut fmt::Formatter<'_>) -> fmt::Result {
            match self {
                ReadError::Refused(error) => error.fmt(f),
                ReadError::Io(error) => error.fmt(f),
            }
        }
    }

    impl error::Error for ReadError {
        fn source(&self) -> Option<&(dyn error::Error + 'static)> {
            match self {
                ReadError::Refused(error) => Some(error),
                ReadError::Io(error) => Some(error),
            }
        }
    }

    /// The records of a segment that comes from a [`Read`], a page at a time. After a refusal, or
    /// where the bytes cannot be had, it ends.
    #[derive(Debug)]
    pub struct Records<R> {
        source: R,
        state: State,
        page: Box<[u8; PAGE]>,
        buffer: Box<Buffer>,
        ended: bool,
    }

    impl<R: Read> Records<R> {
        /// Reads from the start.
        pub fn new(version: Version, source: R) -> Records<R> {
            Records {
                source,
                state: State::new(version),
                page: Box::new([0; PAGE]),
                buffer: Box::new([0; RECORD_MAX]),
                ended: false,
            }
        }

        /// What was whole so far.
        pub fn good(&self) -> Good {
            self.state.good
        }

        /// The length of the next record, which is in the buffer then.
        fn read(&mut self) -> Result<Option<usize>, ReadError> {
            loop {
                match self.state.read(&self.page, &mut self.buffer)? {
                    Found::Record([_, length, _]) => return Ok(Some(length)),
                    Found::End => return Ok(None),
                    Found::Ask => {
                        let len = fill(&mut self.source, &mut self.page[..])?;
                        self.state.take(&self.page, len)?;
                    }
                }
            }
        }
    }

    impl<R: Read> Iterator for Records<R> {
        type Item = Result<Vec<u8>, ReadError>;

        fn next(&mut self) -> Option<Self::Item> {
            if self.ended {
                return None;
            }
            let read = self.read();
            self.ended = !matches!(read, Ok(Some(_)));
            read.map(|length| Some(self.buffer[..length?].to_vec()))
                .transpose()
        }
    }

    /// Reads until the page is full or the source ends.
    fn fill(source: &mut impl Read, page: &mut [u8]) -> io::Result<usize> {
        let mut len = 0;
        while len < page.len() {
            match source.read(&mut page[len..]) {
                Ok(0) => break,
                Ok(more) => len += more,
                Err(error) if error.kind() == io::ErrorKind::Interrupted => {}
                Err(error) => return Err(error),
            }
        }
        Ok(len)
    }
}

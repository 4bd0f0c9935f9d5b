//! The listing (FORMAT 15 and document 02 [2]). It reads segments of version 1 ([11]).

use crate::feed::{Feed, Read};
use crate::refusal::{Refusal, TORN};
use crate::segment::{self, Good, Reading, PAGE, RECORD_MAX, SEGMENT_MAX};
use crate::version::Version;
use std::io::{self, ErrorKind};

/// The most bytes that are listed.
pub const INPUT_MAX: usize = SEGMENT_MAX;

/// Lists an input of any length, page by page: the memory does not grow with it. `too long` stands
/// in place of the last line if the input passes the limit and nothing was refused before.
pub fn list(mut input: impl io::Read, mut output: impl io::Write) -> io::Result<()> {
    let mut page = vec![0; PAGE];
    let mut buffer = vec![0; RECORD_MAX];
    let mut feed = Feed::start(Version::One);
    let mut fed = 0;
    loop {
        let read = feed.read(&page[..fed], &mut buffer);
        let listed = feed.good().records;
        match read {
            Read::Record { start, length, .. } => {
                write_record(&mut output, start, &buffer[..length])?;
            }
            Read::More => {
                fed = fill(&mut page, &mut input);
                // A page of a good length, asked for: only the limit is left to refuse it for.
                if feed.feed_page(&page[..fed]).is_err() {
                    return output.write_all(b"too long\n");
                }
            }
            Read::CleanEnd => return writeln!(output, "clean {listed}"),
            Read::Refused(refusal) => return write_refusal(&mut output, refusal, listed),
        }
    }
}

/// What the program prints of an input.
pub fn text(input: &[u8]) -> String {
    text_by(|lines| list(input, lines))
}

/// The listing of a segment, read as one slice.
pub fn list_segment(segment: &[u8]) -> String {
    text_by(|lines| list_slice(segment, lines))
}

fn list_slice(segment: &[u8], mut output: impl io::Write) -> io::Result<()> {
    let mut buffer = vec![0; RECORD_MAX];
    let mut good = Good::default();
    loop {
        match segment::read(Version::One, segment, good.offset, &mut buffer, &mut good) {
            Ok(Reading::Record(record)) => {
                write_record(&mut output, record.start, &buffer[..record.length])?;
            }
            Ok(Reading::End) => return writeln!(output, "clean {}", good.records),
            Err(refusal) => return write_refusal(&mut output, refusal, good.records),
        }
    }
}

fn text_by(list: impl FnOnce(&mut Vec<u8>) -> io::Result<()>) -> String {
    let mut lines = Vec::new();
    list(&mut lines).expect("memory takes every line");
    String::from_utf8(lines).expect("lines of ASCII")
}

/// Fills the page from the input and answers how much there was: less than a page only at the
/// input's end. After a read error, what was read is the input.
fn fill(page: &mut [u8], input: &mut impl io::Read) -> usize {
    let mut filled = 0;
    while filled < page.len() {
        match input.read(&mut page[filled..]) {
            Ok(0) => break,
            Ok(more) => filled += more,
            Err(error) if error.kind() == ErrorKind::Interrupted => {}
            Err(_) => break,
        }
    }
    filled
}

/// `record`, start, length, first byte in decimal. No record that comes out is empty (document 02
/// [5]).
fn write_record(output: &mut impl io::Write, start: usize, record: &[u8]) -> io::Result<()> {
    writeln!(output, "record {start} {} {}", record.len(), record[0])
}

fn write_refusal(output: &mut impl io::Write, refusal: Refusal, listed: u64) -> io::Result<()> {
    let Refusal { number, place } = refusal;
    if number == TORN {
        writeln!(output, "torn {place} {listed}")
    } else {
        writeln!(output, "refused {number} {place} {listed}")
    }
}

#[cfg(test)]
mod tests {
    use super::*;
    use io::Read as _;

    #[test]
    fn switch_segment() {
        let mut page = vec![0; PAGE];
        let record = [&[2], &[0; 36][..]].concat();
        segment::write(Version::One, &mut page, 0, &record).expect("it fits");
        for list in [text, list_segment] {
            assert_eq!(list(&page[..44]), "record 0 37 2\nclean 1\n");
            assert_eq!(list(&page[..43]), "torn 0 0\n");
            assert_eq!(list(&page[..0]), "clean 0\n");
        }
    }

    /// A record of one byte, 7.
    fn seven() -> Vec<u8> {
        let mut page = vec![0; PAGE];
        let next = segment::write(Version::One, &mut page, 0, &[7]).expect("it fits");
        page.truncate(next);
        page
    }

    #[test]
    fn a_record_and_a_refusal() {
        let compressed = [seven(), vec![9]].concat();
        let hollow = [seven(), vec![1, 0, 0, 0, 0, 0, 0, 9]].concat();
        for list in [text, list_segment] {
            assert_eq!(list(&compressed), "record 0 1 7\nrefused 4 8 1\n");
            assert_eq!(list(&hollow), "record 0 1 7\nrefused 13 8 1\n");
        }
    }

    /// The listing of so many bytes: `first`, then zeros, then `last`.
    fn zeros_between(first: &[u8], length: usize, last: &[u8]) -> String {
        let zeros = (length - first.len() - last.len()) as u64;
        let input = first.chain(io::repeat(0).take(zeros)).chain(last);
        text_by(|lines| list(input, lines))
    }

    #[test]
    fn limit() {
        let listed = zeros_between(&seven(), INPUT_MAX, &[]);
        assert_eq!(listed, "record 0 1 7\nclean 1\n");
        // One byte more: the records stay, and the byte is not looked at.
        let listed = zeros_between(&seven(), INPUT_MAX + 1, &[9]);
        assert_eq!(listed, "record 0 1 7\ntoo long\n");
    }

    #[test]
    fn a_refusal_comes_before_the_limit() {
        let listed = zeros_between(&[], INPUT_MAX + 1, &[9, 0]);
        assert_eq!(listed, format!("refused 6 {} 0\n", INPUT_MAX - 1));
    }

    #[test]
    fn a_record_open_at_the_limit() {
        let record = [5; segment::FRAGMENT_MAX + 1];
        let mut pages = vec![0; 2 * PAGE];
        segment::write(Version::One, &mut pages, 0, &record).expect("it fits");
        let first = INPUT_MAX - PAGE;
        let listed = zeros_between(&[], INPUT_MAX, &pages[..PAGE]);
        assert_eq!(listed, format!("torn {first} 0\n"));
        let listed = zeros_between(&[], INPUT_MAX + 8, &pages[..PAGE + 8]);
        assert_eq!(listed, "too long\n");
    }

    #[test]
    fn an_input_that_comes_in_pieces() {
        /// Gives a byte at a time, is interrupted before each, and fails in the end.
        struct Slow<'a>(&'a [u8], bool);
        impl io::Read for Slow<'_> {
            fn read(&mut self, room: &mut [u8]) -> io::Result<usize> {
                self.1 = !self.1;
                match self.0.split_first() {
                    _ if self.1 => Err(ErrorKind::Interrupted.into()),
                    None => Err(ErrorKind::Other.into()),
                    Some((&byte, rest)) => {
                        self.0 = rest;
                        room[0] = byte;
                        Ok(1)
                    }
                }
            }
        }
        let mut pages = vec![0; 2 * PAGE];
        let next = segment::write(Version::One, &mut pages, 0, &[8; 40_000]).expect("it fits");
        let listed = text_by(|lines| list(Slow(&pages[..next], false), lines));
        assert_eq!(listed, "record 0 40000 8\nclean 1\n");
    }
}

//! How a reading ended, and what to do then.

use crate::json::Object;
use crate::open::{Segment, Source};
use crate::out::Out;
use crate::words;
use depot_wal::segment::{Records, PAGE, RECORD_MAX, SEGMENT_MAX};
use depot_wal::{Error, Good, Refusal, Version};
use std::io::{self, Write};

/// How the reading of a segment ended.
pub struct End {
    /// `None` is a clean end.
    pub error: Option<Error>,
    /// What was whole.
    pub good: Good,
}

/// The kinds of ends.
enum Kind {
    Clean,
    Torn(Error),
    Refused(Error),
    /// There are more bytes than a segment may have, and nothing else was refused.
    TooLong,
}

impl Kind {
    fn word(&self) -> &'static str {
        match self {
            Kind::Clean => "clean",
            Kind::Torn(_) => "torn",
            Kind::Refused(_) => "refused",
            Kind::TooLong => "too long",
        }
    }

    fn error(&self) -> Option<Error> {
        match self {
            Kind::Clean => None,
            Kind::Torn(error) | Kind::Refused(error) => Some(*error),
            Kind::TooLong => Some(too_long_error()),
        }
    }
}

impl End {
    pub fn new(result: Result<(), Error>, good: Good) -> End {
        let error = result.err();
        End { error, good }
    }

    fn kind(&self, segment: &Segment) -> Kind {
        match self.error {
            Some(error) if error.refusal == Refusal::BadBuffer => Kind::TooLong,
            Some(error) if error.refusal != Refusal::Torn => Kind::Refused(error),
            _ if segment.too_long => Kind::TooLong,
            Some(error) => Kind::Torn(error),
            None => Kind::Clean,
        }
    }

    /// Prints the last lines about a segment, and what to do. True if it ended clean.
    pub fn tell(&self, source: &Source, segment: &Segment, out: &mut Out) -> io::Result<bool> {
        self.print(source, segment, out)?;
        self.advise(source, segment, out)
    }

    /// Prints the last lines about a segment.
    pub fn print(&self, source: &Source, segment: &Segment, out: &mut Out) -> io::Result<()> {
        let kind = self.kind(segment);
        match out.json {
            true => self.print_json(&kind, source, segment, out),
            false => self.print_words(&kind, segment, out),
        }
    }

    /// Says what to do. True if it ended clean.
    pub fn advise(&self, source: &Source, segment: &Segment, out: &mut Out) -> io::Result<bool> {
        let Some(error) = self.kind(segment).error() else {
            return Ok(true);
        };
        let advice = advice(source, segment, error, self.good);
        out.complain(&format!("{}: {advice}", source.name))?;
        Ok(false)
    }

    fn print_words(&self, kind: &Kind, segment: &Segment, out: &mut Out) -> io::Result<()> {
        let Good { records, offset } = self.good;
        let mut behind = String::new();
        match kind {
            Kind::Clean => {
                writeln!(out, "clean end")?;
                let zeros = segment.bytes.len() - offset;
                if zeros > 0 {
                    behind = format!(", then {zeros} zeros");
                }
            }
            Kind::Torn(error) => {
                writeln!(out, "torn at {}: {}", error.place, error.refusal.text())?;
            }
            Kind::Refused(error) => {
                let (place, text) = (error.place, error.refusal.text());
                writeln!(
                    out,
                    "refused at {place}: {text} (number {})",
                    error.number()
                )?;
            }
            Kind::TooLong => writeln!(out, "too long")?,
        }
        let records = words::records(records);
        writeln!(out, "good: {records} in the first {offset} bytes{behind}")
    }

    fn print_json(
        &self,
        kind: &Kind,
        source: &Source,
        segment: &Segment,
        out: &mut Out,
    ) -> io::Result<()> {
        let mut line = Object::of(&source.name).text("end", kind.word());
        if let Some(error) = kind.error() {
            line = line
                .number("number", error.number())
                .count("place", error.place)
                .text("reason", error.refusal.text());
        }
        let line = line
            .number("records", self.good.records)
            .count("good", self.good.offset)
            .count("bytes", segment.bytes.len());
        writeln!(out, "{line}")
    }
}

/// What a segment is answered that has more bytes than one may have.
pub fn too_long_error() -> Error {
    Error {
        refusal: Refusal::BadBuffer,
        place: 0,
    }
}

/// The end of a segment that is not read, since it is too long.
pub fn too_long() -> End {
    End::new(Err(too_long_error()), Good::default())
}

fn too_long_advice() -> String {
    format!("it is longer than {SEGMENT_MAX} bytes, which no segment is; check that it is the right file")
}

/// What to do about a refusal, in a sentence.
pub fn advice(source: &Source, segment: &Segment, error: Error, good: Good) -> String {
    let (bytes, place) = (&segment.bytes, error.place);
    match error.refusal {
        Refusal::Torn if whole_behind(source, bytes, place) > 0 => {
            let behind = words::records(whole_behind(source, bytes, place));
            format!(
                "the record at {place} reads as cut off, but {behind} behind it can be read: it is \
                 damaged; keep a copy of the file, and have somebody look into it"
            )
        }
        Refusal::Torn => {
            let file = source.path.as_ref().map_or("FILE", |_| &source.name);
            format!(
                "the record at {place} was cut off, as by a power failure, and does not count; \
                 `depot-wal resume {file}` takes it off and keeps the {} before it",
                words::records(good.records)
            )
        }
        Refusal::BadBuffer => too_long_advice(),
        Refusal::TableFull => format!(
            "more than 256 series from the record at {place} on; see them all with `depot-wal \
             dump`, or keep fewer with `depot-wal checkpoint`"
        ),
        Refusal::BadSum if reads_as_other(source, bytes) => format!(
            "its checksums are those of version {0}; say --version {0}, or give the file its name \
             back",
            other(source.version).number()
        ),
        _ => match packed(bytes) {
            Some((what, how)) if good.records == 0 => {
                format!("it begins like a file of {what}; unpack it with {how} and try again")
            }
            _ => damage_advice(source, error, good),
        },
    }
}

/// The same about what is damage, or another program's.
fn damage_advice(source: &Source, error: Error, good: Good) -> String {
    let (place, text) = (error.place, error.refusal.text());
    let whole = words::records(good.records);
    match error.refusal {
        Refusal::Compressed => format!(
            "the record at {place} is compressed, which is not read here; have Prometheus write \
             without it, --no-storage.tsdb.wal-compression, and take a new segment"
        ),
        _ if error.number() >= 20 => format!(
            "the record at {place} is whole, but what it says cannot be read ({text}); \
             send a copy to whoever wrote it, the {whole} before it can be used"
        ),
        _ if good.records == 0 => format!(
            "no record can be read ({text}); check that it is a segment, and of version {} \
             (see --version)",
            source.version.number()
        ),
        _ => format!(
            "damaged at {place} ({text}); keep it as it is, and work on with a copy that is cut \
             behind the {whole} before: truncate -s {} COPY",
            good.offset
        ),
    }
}

/// The good length of the records that start before a place.
pub fn good_before(source: &Source, segment: &Segment, place: usize) -> Good {
    let mut buffer = Box::new([0; RECORD_MAX]);
    let mut records = Records::new(source.version, &segment.bytes, &mut buffer);
    let mut good = Good::default();
    while let Some(Ok(record)) = records.next() {
        if record.start >= place {
            break;
        }
        good = records.good();
    }
    good
}

/// How many whole records begin behind a place where a record is torn. A power failure leaves none
/// there, unless the data of the cut record hold one; a damaged length may, since a record then
/// seems to end behind the bytes. One that is cut off is in four pages at most, so no more are
/// searched.
pub fn whole_behind(source: &Source, bytes: &[u8], torn: usize) -> u64 {
    let bytes = &bytes[..bytes.len().min(torn + 4 * PAGE)];
    let mut buffer = Box::new([0; RECORD_MAX]);
    let (mut place, mut whole) = (torn + 1, 0);
    while place < bytes.len() {
        let mut records = Records::at(source.version, bytes, place, &mut buffer);
        let may_begin = matches!(bytes[place], 1 | 2);
        place = match may_begin.then(|| records.next()).flatten() {
            Some(Ok(record)) => {
                whole += 1;
                record.next
            }
            _ => place + 1,
        };
    }
    whole
}

/// What a file is that begins so, and how it is unpacked.
fn packed(bytes: &[u8]) -> Option<(&'static str, &'static str)> {
    match bytes {
        [0x1F, 0x8B, ..] => Some(("gzip", "gunzip")),
        [0x28, 0xB5, 0x2F, 0xFD, ..] => Some(("zstd", "unzstd")),
        [0xFD, b'7', b'z', b'X', b'Z', ..] => Some(("xz", "unxz")),
        [b'B', b'Z', b'h', ..] => Some(("bzip2", "bunzip2")),
        [b'P', b'K', 3, 4, ..] => Some(("zip", "unzip")),
        [0xFF, 6, 0, 0, b's', b'N', b'a', b'P', b'p', b'Y', ..] => Some(("snappy", "snzip -d")),
        _ => None,
    }
}

fn other(version: Version) -> Version {
    match version {
        Version::V1 => Version::V2,
        Version::V2 => Version::V1,
    }
}

/// True if the first record reads as the other version.
fn reads_as_other(source: &Source, bytes: &[u8]) -> bool {
    let mut buffer = Box::new([0; RECORD_MAX]);
    let mut records = Records::new(other(source.version), bytes, &mut buffer);
    matches!(records.next(), Some(Ok(_)))
}

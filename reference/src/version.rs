//! The versions of a segment, and the file names that tell them (document 02 [11]).

use crate::crc32c;
use crate::refusal::*;

/// What the checksums of a segment are over. Both are written and read for good.
#[derive(Clone, Copy, Debug, PartialEq, Eq)]
pub enum Version {
    /// The data alone, as Prometheus sums them; of no data it is 0.
    One,
    /// The type byte and the two length bytes as they stand in the header, then the data: a header
    /// that was damaged is found out too.
    Two,
}

impl Version {
    /// There are two: every call with another number is refused before everything else.
    pub fn of(number: u64) -> Result<Version, Refusal> {
        match number {
            1 => Ok(Version::One),
            2 => Ok(Version::Two),
            _ => refuse(BAD_NAME, 0),
        }
    }

    pub fn number(self) -> u64 {
        match self {
            Version::One => 1,
            Version::Two => 2,
        }
    }

    /// The checksum of a fragment, of whose header the first three bytes are in place.
    #[inline]
    pub fn sum(self, header: &[u8], data: &[u8]) -> u32 {
        match self {
            Version::One => crc32c::checksum(data),
            Version::Two => !crc32c::update(crc32c::update(!0, &header[..3]), data),
        }
    }
}

// ---- Names ----

/// Digits of a sequence number.
const DIGITS: usize = 6;
const SEQUENCE_MAX: u64 = 999_999;

/// What a segment's file name says.
#[derive(Clone, Copy, Debug, PartialEq, Eq)]
pub struct Name {
    pub sequence: u64,
    pub version: Version,
}

/// Six digits, then nothing or a version. The version is compared as text, so that no number is too
/// long for it and none begins with a zero.
pub fn parse_name(name: &[u8]) -> Result<Name, Refusal> {
    let Some((digits, suffix)) = name.split_at_checked(DIGITS) else {
        return refuse(BAD_NAME, 0);
    };
    let version = match suffix {
        b"" | b"-v1" => Version::One,
        b"-v2" => Version::Two,
        _ => return refuse(BAD_NAME, 0),
    };
    if !digits.iter().all(u8::is_ascii_digit) {
        return refuse(BAD_NAME, 0);
    }
    let add = |number, digit: &u8| 10 * number + u64::from(digit - b'0');
    let sequence = digits.iter().fold(0, add);
    Ok(Name { sequence, version })
}

/// Puts the name of a segment into the first bytes of the buffer, and answers how many they are.
/// `-v1` is never written. Refusals in order: 30, 11.
pub fn make_name(sequence: u64, version: u64, name: &mut [u8]) -> Result<usize, Refusal> {
    let suffix = match Version::of(version)? {
        Version::One => "",
        Version::Two => "-v2",
    };
    if sequence > SEQUENCE_MAX {
        return refuse(BAD_NAME, 0);
    }
    let text = format!("{sequence:06}{suffix}");
    match name.get_mut(..text.len()) {
        None => refuse(NO_ROOM, 0),
        Some(place) => {
            place.copy_from_slice(text.as_bytes());
            Ok(text.len())
        }
    }
}

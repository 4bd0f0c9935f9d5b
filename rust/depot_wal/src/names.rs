//! The name of a segment's file: its sequence and the version of its format.
//!
//! ```
//! use depot_wal::names::{Name, NAME_MAX};
//! use depot_wal::Version;
//!
//! let name = Name::parse(b"000042-v2")?;
//! assert_eq!(name, Name { sequence: 42, version: Version::V2 });
//! assert_eq!("000042".parse::<Name>()?.version, Version::V1);
//! assert!(Name::parse(b"42").is_err());
//! assert_eq!(name.make(&mut [0; NAME_MAX])?, "000042-v2");
//! # Ok::<(), depot_wal::Error>(())
//! ```

use crate::error::done;
use crate::{sys, Error, Version};
use core::str::FromStr;

/// Bytes of a name at most.
pub const NAME_MAX: usize = 9;
/// The highest sequence.
pub const SEQUENCE_MAX: u64 = 999_999;

/// What the name of a segment says.
#[derive(Clone, Copy, Debug, PartialEq, Eq, Hash)]
pub struct Name {
    /// Its number among the segments, at most [`SEQUENCE_MAX`].
    pub sequence: u64,
    /// The version of its format.
    pub version: Version,
}

impl Name {
    /// Parses a name without its directory: six digits, or six digits and `-v1` or `-v2`. Anything
    /// else is [`BadName`](crate::Refusal::BadName).
    pub fn parse(name: &[u8]) -> Result<Name, Error> {
        let mut out = [0; 2];
        // SAFETY: the name is valid for its length.
        let number = unsafe { sys::depot_wal_name_parse(name.as_ptr(), name.len(), &mut out) };
        let [sequence, version] = out;
        done(number, sequence)?;
        let version = if version == 2 {
            Version::V2
        } else {
            Version::V1
        };
        Ok(Name { sequence, version })
    }

    /// Makes the name at the front of a buffer: [`BadName`](crate::Refusal::BadName) for a sequence
    /// that is too high, [`NoRoom`](crate::Refusal::NoRoom) where it does not fit.
    pub fn make(self, buffer: &mut [u8]) -> Result<&str, Error> {
        let (bytes, len) = (buffer.as_mut_ptr(), buffer.len());
        let (version, mut out) = (u64::from(self.version.number()), [0; 2]);
        // SAFETY: the buffer is valid for its length and borrowed for this call alone.
        let number =
            unsafe { sys::depot_wal_name_make(self.sequence, version, bytes, len, &mut out) };
        let [used, error_at] = out;
        done(number, error_at)?;
        Ok(core::str::from_utf8(&buffer[..used as usize]).expect("a name is digits"))
    }
}

impl FromStr for Name {
    type Err = Error;

    fn from_str(name: &str) -> Result<Name, Error> {
        Name::parse(name.as_bytes())
    }
}

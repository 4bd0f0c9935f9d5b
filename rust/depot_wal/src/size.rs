//! How big a partition must be.
//!
//! ```
//! // A box that switches 2,000 times a day, 37 bytes a switch, and keeps a year.
//! let switches = 2000 * 365;
//! assert_eq!(depot_wal::size::pages_for(switches, 37 * switches)?, 981);
//! # Ok::<(), depot_wal::Error>(())
//! ```

use crate::error::done;
use crate::{sys, Error};

/// The pages of a segment that is sure to hold any list of so many records, none empty, of so many
/// bytes in all: [`NoRoom`](crate::Refusal::NoRoom) where that would be more than a whole segment.
pub fn pages_for(records: u64, bytes: u64) -> Result<u64, Error> {
    let mut out = [0; 1];
    // SAFETY: `out` has its size.
    let number = unsafe { sys::depot_wal_pages_for(records, bytes, &mut out) };
    done(number, out[0]).map(|()| out[0])
}

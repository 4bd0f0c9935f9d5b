//! The checksum, CRC-32C, and its table.
//!
//! With a table, data and fragments below 512 bytes go about twice as fast; longer ones do not use
//! it. With the feature `std` every call that can take a table takes [`Table::shared`], which is
//! made once. Without it a program makes a [`Table`] and lends it, or does without: the answers are
//! the same.
//!
//! ```
//! use depot_wal::checksum::{self, Table};
//!
//! assert_eq!(checksum::crc32c(b"123456789"), 0xE306_9283);
//! let table = Table::new();
//! assert_eq!(table.crc32c(b"123456789"), 0xE306_9283);
//! ```

use crate::sys;

/// The checksum's table, 8 KiB. Only the library fills one, so every table that is lent is right.
#[derive(Clone, Debug, PartialEq, Eq)]
pub struct Table([u32; sys::TABLE_LEN]);

impl Table {
    /// A table, filled by the library.
    pub fn new() -> Table {
        let mut table = Table([0; sys::TABLE_LEN]);
        // SAFETY: the array has the length of a table and is written by this call alone.
        unsafe { sys::depot_wal_table(&mut table.0) };
        table
    }

    /// The table of this program, filled at its first use.
    #[cfg(feature = "std")]
    #[inline]
    pub fn shared() -> &'static Table {
        static SHARED: std::sync::OnceLock<Table> = std::sync::OnceLock::new();
        SHARED.get_or_init(Table::new)
    }

    /// The CRC-32C of the data; of no data it is 0.
    #[inline]
    pub fn crc32c(&self, data: &[u8]) -> u32 {
        // SAFETY: the slice is valid for its length; nothing is written.
        unsafe { sys::depot_wal_crc32c_with_table(&self.0, data.as_ptr(), data.len()) }
    }

    /// Its numbers, as a file for flash memory has them.
    pub fn numbers(&self) -> &[u32; sys::TABLE_LEN] {
        &self.0
    }
}

impl Default for Table {
    fn default() -> Table {
        Table::new()
    }
}

/// The CRC-32C of the data, without a table; of no data it is 0.
pub fn crc32c_plain(data: &[u8]) -> u32 {
    // SAFETY: the slice is valid for its length; nothing is written.
    unsafe { sys::depot_wal_crc32c(data.as_ptr(), data.len()) }
}

/// The CRC-32C of the data, by the shared table where there is `std`; of no data it is 0.
pub fn crc32c(data: &[u8]) -> u32 {
    match default_table() {
        Some(table) => table.crc32c(data),
        None => crc32c_plain(data),
    }
}

/// The table that a call takes which was lent none.
#[cfg(feature = "std")]
#[inline]
pub(crate) fn default_table() -> Option<&'static Table> {
    Some(Table::shared())
}

/// The table that a call takes which was lent none.
#[cfg(not(feature = "std"))]
#[inline]
pub(crate) fn default_table() -> Option<&'static Table> {
    None
}

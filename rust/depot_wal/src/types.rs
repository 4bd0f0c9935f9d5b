//! Terms: ids, times and values are not exchanged for one another.

/// The version of a segment. The name of its file has it ([`names`](crate::names)), the bytes do
/// not.
#[derive(Clone, Copy, Debug, PartialEq, Eq, Hash)]
#[repr(u32)]
pub enum Version {
    /// The checksum is over the data: what stock Prometheus reads.
    V1 = 1,
    /// The checksum is over the type byte, the length and the data.
    V2 = 2,
}

impl Version {
    /// The number that C gets.
    pub const fn number(self) -> u32 {
        self as u32
    }
}

/// The id of a series.
#[derive(Clone, Copy, Debug, Default, PartialEq, Eq, PartialOrd, Ord, Hash)]
#[repr(transparent)]
pub struct Id(pub u64);

/// A time, for Prometheus in milliseconds.
#[derive(Clone, Copy, Debug, Default, PartialEq, Eq, PartialOrd, Ord, Hash)]
#[repr(transparent)]
pub struct Time(pub i64);

/// The 64 bits of a float. They are carried unread, so every NaN survives.
#[derive(Clone, Copy, Debug, Default, PartialEq, Eq, Hash)]
#[repr(transparent)]
pub struct Value(pub u64);

impl Value {
    /// The float.
    pub fn float(self) -> f64 {
        f64::from_bits(self.0)
    }
}

impl From<f64> for Value {
    fn from(float: f64) -> Value {
        Value(float.to_bits())
    }
}

/// The good length of a reading: what was whole so far. Bytes that are truncated at `offset` lose
/// nothing that was whole.
#[derive(Clone, Copy, Debug, Default, PartialEq, Eq, Hash)]
pub struct Good {
    /// How many records were whole.
    pub records: u64,
    /// The place just past the last of them, 0 without any.
    pub offset: usize,
}

impl Good {
    #[inline]
    pub(crate) fn of([records, offset]: [u64; 2]) -> Good {
        let offset = offset as usize;
        Good { records, offset }
    }
}

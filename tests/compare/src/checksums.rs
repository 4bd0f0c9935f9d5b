//! The checksum calls against the second program.

use crate::ffi::{self, Table, TABLE_LEN};
use crate::rng::Rng;
use crate::{Group, Outcome};
use reference::{crc32c, selftest};

pub fn groups() -> Vec<Group> {
    vec![
        ("checksum, published data", |_| compare_published()),
        ("checksum, the table", |_| compare_table()),
        ("checksum, short data", compare_short),
        ("checksum, long data", compare_long),
        ("checksum, strange tables", compare_strange_tables),
    ]
}

/// Cases with data of random length.
const RANDOM: u64 = 2_000;

/// The second program's table, row by row: row k, byte b at index 256 * k + b.
pub fn own_table() -> Box<Table> {
    let mut table = Box::new([0; TABLE_LEN]);
    table.copy_from_slice(crc32c::TABLE.as_flattened());
    table
}

/// The archive's table, equal to the second program's.
fn compare_table() -> Outcome {
    let Some(table) = ffi::table() else {
        return Err("depot_wal_table wrote beside the table".to_string());
    };
    for (index, (ours, theirs)) in table.iter().zip(own_table().iter()).enumerate() {
        if ours != theirs {
            return Err(format!("table {index}: {ours:08X}, wanted {theirs:08X}"));
        }
    }
    Ok(TABLE_LEN as u64)
}

/// The published data.
fn compare_published() -> Outcome {
    let table = own_table();
    let mut cases = 0;
    for (data, sum) in selftest::checksum_cases() {
        cases += compare_sum(&table, &data, sum)?;
    }
    Ok(cases)
}

/// Every length from 0 to 1100, at every alignment; empty data also as a null pointer.
fn compare_short(rng: &mut Rng) -> Outcome {
    let table = own_table();
    let mut cases = 0;
    for length in 0..=1100 {
        let data = rng.bytes(length + 8);
        for start in 0..8 {
            let part = &data[start..][..length];
            cases += compare_sum(&table, part, crc32c::checksum(part))?;
        }
    }
    Ok(cases)
}

/// Random lengths up to 200,000.
fn compare_long(rng: &mut Rng) -> Outcome {
    let table = own_table();
    let mut data = rng.bytes(200_000 + 16);
    let mut cases = 0;
    for case in 0..RANDOM {
        let length = rng.below(if case % 4 == 0 { 200_001 } else { 12_000 });
        let start = rng.below(16);
        let part = &mut data[start..][..length];
        if case % 16 == 0 {
            part.fill(rng.byte());
        }
        cases += compare_sum(&table, part, crc32c::checksum(part))?;
    }
    Ok(cases)
}

/// Parts of given data.
pub fn compare_data(rng: &mut Rng, data: &[u8]) -> Outcome {
    let table = own_table();
    let mut cases = 0;
    for _ in 0..100 {
        let part = &data[rng.below(data.len() + 1)..];
        let part = &part[..rng.below(part.len() + 1)];
        cases += compare_sum(&table, part, crc32c::checksum(part))?;
    }
    Ok(cases)
}

/// A table with other contents gives some answer, the same each time.
fn compare_strange_tables(rng: &mut Rng) -> Outcome {
    let mut table = own_table();
    let data = rng.bytes(2_000);
    for _ in 0..RANDOM {
        fill_with_noise(rng, &mut table);
        let part = &data[rng.below(16)..][..rng.below(1_900)];
        let sum = ffi::crc32c_with_table(&table, part);
        if sum != ffi::crc32c_with_table(&table, part) {
            return Err(format!("strange table, {} bytes: two answers", part.len()));
        }
    }
    Ok(RANDOM)
}

/// Gives a table other contents.
pub fn fill_with_noise(rng: &mut Rng, table: &mut Table) {
    for number in table {
        *number = rng.number() as u32;
    }
}

/// Both calls on the same data.
fn compare_sum(table: &Table, data: &[u8], wanted: u32) -> Outcome {
    let plain = ffi::crc32c(data);
    let lent = ffi::crc32c_with_table(table, data);
    if plain == wanted && lent == wanted {
        return Ok(2);
    }
    let length = data.len();
    let start = &data[..length.min(32)];
    Err(format!(
        "checksum of {length} bytes: {plain:08X}, with table {lent:08X}, wanted {wanted:08X}; \
         they begin {start:02X?}"
    ))
}

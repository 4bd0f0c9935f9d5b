//! The lines that the product's program `test_vectors` has to print. All numbers are decimal, bytes
//! and checksums lowercase hex without spaces, words separated by one space, each line ended by a
//! newline. In this order:
//!
//! `crc32c LENGTH SUM`: for the data of `selftest::checksum_cases`.
//!
//! `uvarint N LENGTH HEX`: for k from 0 to 63 the numbers 2^k - 1, 2^k, 2^k + 1; then 2^64 - 1.
//!
//! `varint X LENGTH HEX`: for k from 0 to 62 the numbers 2^k - 1, 2^k, -2^k, -2^k - 1; then the
//! largest and the smallest.
//!
//! `read HEX value N LENGTH`, `read HEX short` or `read HEX bad`: a uvarint read from the byte
//! strings of `readings`; `-` stands for no byte.
//!
//! For each list of writes in `WRITES`, on a fresh slice of that many pages, all zero, where byte i
//! of every record is i modulo 256:
//! - `slice PAGES`
//! - for each write `write PLACE LENGTH -> next NEXT`, followed by a line `fragment PLACE TYPE
//!   LENGTH` for each fragment of the record, as its header is in the slice (the first at the
//!   write's place, each later one at the place after the one before it, up to a type 1 or 4); or
//!   `write PLACE LENGTH -> refused NUMBER PLACE`
//! - `sum SUM`: the CRC-32C of the whole slice in the end.
//!
//! `type HEX -> refused NUMBER PLACE`: reading at place 0 a segment of 7 bytes, the type byte and
//! six zeros, for each of `TYPES`.
//!
//! `cut LENGTH -> record START LENGTH AFTER`, `cut LENGTH -> end` or `cut LENGTH -> refused NUMBER
//! PLACE`: the first LENGTH bytes of the switch segment read from the start, one line for each
//! read, for each of `CUTS`.

use crate::refusal::Refusal;
use crate::segment::{self, Good, Reading, Record, HEADER, PAGE, RECORD_MAX};
use crate::varint::{self, Fault};
use crate::version::Version;
use crate::{crc32c, selftest};
use std::fmt::Write;

/// All lines.
pub fn text() -> String {
    let mut lines = String::new();
    add_checksums(&mut lines);
    add_uvarints(&mut lines);
    add_varints(&mut lines);
    add_readings(&mut lines);
    for (pages, writes) in WRITES {
        add_writes(&mut lines, pages, writes);
    }
    add_types(&mut lines);
    add_cuts(&mut lines);
    lines
}

fn add_checksums(lines: &mut String) {
    for (data, _) in selftest::checksum_cases() {
        let sum = crc32c::bitwise(&data);
        line(lines, format_args!("crc32c {} {sum:08x}", data.len()));
    }
}

fn add_uvarints(lines: &mut String) {
    for k in 0..=63 {
        let power = 1u64 << k;
        for number in [power - 1, power, power + 1] {
            add_uvarint(lines, number);
        }
    }
    add_uvarint(lines, u64::MAX);
}

fn add_uvarint(lines: &mut String, number: u64) {
    let mut bytes = Vec::new();
    varint::write_uvarint(number, &mut bytes);
    let length = varint::uvarint_length(number);
    let hex = hex(&bytes);
    line(lines, format_args!("uvarint {number} {length} {hex}"));
}

fn add_varints(lines: &mut String) {
    for k in 0..=62 {
        let power = 1i64 << k;
        for number in [power - 1, power, -power, -power - 1] {
            add_varint(lines, number);
        }
    }
    add_varint(lines, i64::MAX);
    add_varint(lines, i64::MIN);
}

fn add_varint(lines: &mut String, number: i64) {
    let mut bytes = Vec::new();
    varint::write_varint(number, &mut bytes);
    let length = varint::varint_length(number);
    let hex = hex(&bytes);
    line(lines, format_args!("varint {number} {length} {hex}"));
}

/// The byte strings to read a uvarint from.
fn readings() -> Vec<Vec<u8>> {
    let after = |byte: u8, times: usize, rest: &[u8]| [&vec![byte; times], rest].concat();
    vec![
        vec![],
        vec![0x00],
        vec![0x7F],
        vec![0x80],
        vec![0x80, 0x01],
        vec![0xAC, 0x02],
        vec![0xAC, 0x82, 0x00],
        vec![0xAC, 0x82, 0x80, 0x80, 0x00],
        after(0x80, 9, &[]),
        after(0x80, 9, &[0x00]),
        after(0x80, 9, &[0x01]),
        after(0x80, 9, &[0x02]),
        after(0x80, 9, &[0x80]),
        after(0xFF, 9, &[0x01]),
        after(0xFF, 9, &[0x7F]),
        after(0xFF, 9, &[0xFF]),
        after(0x80, 10, &[0x00]),
        vec![0x01, 0xFF],
    ]
}

fn add_readings(lines: &mut String) {
    for bytes in readings() {
        let hex = hex(&bytes);
        match varint::read_uvarint(&bytes) {
            Ok((number, length)) => {
                line(lines, format_args!("read {hex} value {number} {length}"));
            }
            Err(Fault::Short) => line(lines, format_args!("read {hex} short")),
            Err(Fault::BadVarint) => line(lines, format_args!("read {hex} bad")),
        }
    }
}

/// Pages of a slice and the writes on it, each a place and a record's length.
type Writes = (usize, &'static [(usize, usize)]);

/// The sizes of FORMAT 14, and the places around them.
const WRITES: [Writes; 10] = [
    (1, &[(0, 0), (7, 37), (51, 0)]),
    (2, &[(0, 32_754), (32_761, 1), (32_776, 5)]),
    (2, &[(0, 32_754), (32_761, 0), (32_768, 1)]),
    (2, &[(0, 32_755), (32_768, 1)]),
    (2, &[(0, 32_761), (32_768, 1)]),
    (2, &[(0, 32_762), (32_776, 1)]),
    (3, &[(0, 65_536), (65_557, 1)]),
    (2, &[(0, 65_522), (65_536, 0), (65_536, 65_537)]),
    (2, &[(0, 65_523), (0, 65_537)]),
    (
        2,
        &[
            (65_529, 1),
            (65_529, 0),
            (32_761, 32_761),
            (32_761, 32_762),
            (32_762, 0),
            (32_767, 0),
            (65_537, 0),
        ],
    ),
];

fn add_writes(lines: &mut String, pages: usize, writes: &[(usize, usize)]) {
    line(lines, format_args!("slice {pages}"));
    let mut slice = vec![0; pages * PAGE];
    for &(place, length) in writes {
        let record: Vec<u8> = (0..length).map(|i| i as u8).collect();
        match segment::write(Version::One, &mut slice, place, &record) {
            Ok(next) => {
                line(lines, format_args!("write {place} {length} -> next {next}"));
                add_fragments(lines, &slice, place);
            }
            Err(refusal) => {
                let what = refused(refusal);
                line(lines, format_args!("write {place} {length} -> {what}"));
            }
        }
    }
    line(lines, format_args!("sum {:08x}", crc32c::bitwise(&slice)));
}

/// The headers of the record written at a place.
fn add_fragments(lines: &mut String, slice: &[u8], mut place: usize) {
    loop {
        let kind = slice[place];
        let length = u16::from_be_bytes([slice[place + 1], slice[place + 2]]);
        line(lines, format_args!("fragment {place} {kind} {length}"));
        if kind == segment::FULL || kind == segment::LAST {
            return;
        }
        place += HEADER + usize::from(length);
    }
}

/// The type bytes to read in a segment of 7 bytes.
const TYPES: [u8; 8] = [0x09, 0x21, 0x29, 0x05, 0xE0, 0x18, 0x03, 0x04];

fn add_types(lines: &mut String) {
    for type_byte in TYPES {
        let bytes = [type_byte, 0, 0, 0, 0, 0, 0];
        let good = &mut Good::default();
        let what = reading(segment::read(
            Version::One,
            &bytes,
            0,
            &mut vec![0; RECORD_MAX],
            good,
        ));
        line(lines, format_args!("type {type_byte:02x} -> {what}"));
    }
}

/// The switch of FORMAT 13: at time 1000, id 7 to 0, id 8 to 1.0.
pub const SWITCH: [u8; 37] = [
    2, 0, 0, 0, 0, 0, 0, 0, 7, 0, 0, 0, 0, 0, 0, 0x03, 0xE8, 0, 0, 0, 0, 0, 0, 0, 0, 0, 0, 2, 0,
    0x3F, 0xF0, 0, 0, 0, 0, 0, 0,
];

const CUTS: [usize; 6] = [44, 43, 7, 6, 1, 0];

fn add_cuts(lines: &mut String) {
    let mut slice = vec![0; PAGE];
    segment::write(Version::One, &mut slice, 0, &SWITCH).expect("the switch fits");
    for cut in CUTS {
        let good = &mut Good::default();
        loop {
            let read = segment::read(
                Version::One,
                &slice[..cut],
                good.offset,
                &mut vec![0; RECORD_MAX],
                good,
            );
            line(lines, format_args!("cut {cut} -> {}", reading(read)));
            if !matches!(read, Ok(Reading::Record(_))) {
                break;
            }
        }
    }
}

fn reading(read: Result<Reading, Refusal>) -> String {
    match read {
        Ok(Reading::Record(Record {
            start,
            length,
            after,
        })) => format!("record {start} {length} {after}"),
        Ok(Reading::End) => "end".to_string(),
        Err(refusal) => refused(refusal),
    }
}

fn refused(refusal: Refusal) -> String {
    format!("refused {} {}", refusal.number, refusal.place)
}

/// The bytes as lowercase pairs; `-` for none.
pub fn hex(bytes: &[u8]) -> String {
    if bytes.is_empty() {
        return "-".to_string();
    }
    bytes.iter().map(|byte| format!("{byte:02x}")).collect()
}

fn line(lines: &mut String, words: std::fmt::Arguments) {
    writeln!(lines, "{words}").expect("a string takes every line");
}

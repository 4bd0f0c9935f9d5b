//! Bodies as no builder makes them, and bodies of any bytes.

use super::{any_number, Bench, KINDS};
use crate::rng::Rng;
use crate::Outcome;
use reference::body;
use reference::varint;

/// Varints longer than needed or too long, counts and lengths that lie; whole, cut and with a byte
/// changed.
pub fn compare_hand_made(rng: &mut Rng) -> Outcome {
    let mut bench = Bench::new(rng);
    for _ in 0..2_500 {
        let bytes = hand_made(rng);
        bench.body.shift(rng);
        bench.body.put(&bytes);
        bench.read_through(bytes.len())?;
        bench.read_everywhere(bytes.len())?;
        read_cuts(rng, &mut bench, bytes.len())?;
        read_changed(rng, &mut bench, bytes)?;
    }
    Ok(bench.cases)
}

/// Reads the body cut at every place.
pub fn read_cuts(rng: &mut Rng, bench: &mut Bench, length: usize) -> Result<(), String> {
    for cut in 0..length {
        bench.check(cut)?;
        bench.entry_at(cut, 1)?;
        bench.histogram_at(cut, 1)?;
        bench.read_at(cut, rng.below(cut + 1))?;
    }
    Ok(())
}

/// Reads the body with one byte changed, ten times.
pub fn read_changed(rng: &mut Rng, bench: &mut Bench, mut bytes: Vec<u8>) -> Result<(), String> {
    for _ in 0..10 {
        let place = rng.below(bytes.len());
        let old = bytes[place];
        bytes[place] = any_byte(rng);
        bench.body.put(&bytes);
        bench.read_through(bytes.len())?;
        bytes[place] = old;
    }
    Ok(())
}

fn any_byte(rng: &mut Rng) -> u8 {
    match rng.below(4) {
        0 => rng.pick(&[0, 1, 2, 0x7F, 0x80, 0xFF]),
        1 => rng.byte() % 10,
        _ => rng.byte(),
    }
}

pub(crate) fn hand_made(rng: &mut Rng) -> Vec<u8> {
    let kind = rng.pick(&KINDS);
    let mut bytes = vec![kind];
    let no_rows = [body::SERIES, body::TOMBSTONES, body::METADATA];
    if !no_rows.contains(&kind) {
        bytes.extend(any_number(rng, 7).to_be_bytes());
        bytes.extend(any_number(rng, 1_000).to_be_bytes());
    }
    for _ in 0..rng.below(5) {
        hand_made_entry(rng, kind, &mut bytes);
    }
    bytes
}

fn hand_made_entry(rng: &mut Rng, kind: u8, bytes: &mut Vec<u8>) {
    match kind {
        body::SERIES => bytes.extend(rng.number().to_be_bytes()),
        body::METADATA => {
            push_uvarint(rng, bytes);
            bytes.push(rng.byte());
        }
        body::TOMBSTONES => {
            bytes.extend(rng.number().to_be_bytes());
            push_uvarint(rng, bytes);
            push_uvarint(rng, bytes);
        }
        _ => {
            push_uvarint(rng, bytes);
            push_uvarint(rng, bytes);
        }
    }
    match kind {
        body::HISTOGRAMS | body::FLOAT_HISTOGRAMS => push_histogram(rng, kind, bytes),
        body::SAMPLES | body::EXEMPLARS => bytes.extend(rng.number().to_be_bytes()),
        _ => {}
    }
    if matches!(kind, body::SERIES | body::EXEMPLARS | body::METADATA) {
        push_pairs(rng, bytes);
    }
}

/// What follows the deltas of a histogram.
fn push_histogram(rng: &mut Rng, kind: u8, bytes: &mut Vec<u8>) {
    bytes.push(rng.byte());
    push_varint32(rng, bytes);
    bytes.extend(rng.number().to_be_bytes());
    push_count(rng, kind, bytes);
    push_count(rng, kind, bytes);
    bytes.extend(rng.number().to_be_bytes());
    for _ in 0..2 {
        for _ in 0..push_told(rng, 3, bytes) {
            push_varint32(rng, bytes);
            push_uvarint32(rng, bytes);
        }
    }
    for _ in 0..2 {
        for _ in 0..push_told(rng, 12, bytes) {
            push_count(rng, kind, bytes);
        }
    }
}

/// A number below `end`, which now and then is told as another one.
fn push_told(rng: &mut Rng, end: usize, bytes: &mut Vec<u8>) -> usize {
    let number = rng.below(end);
    let told = lie(rng, number as u64);
    push_padded(rng, told, bytes);
    number
}

/// A count or a bucket: small mostly.
fn push_count(rng: &mut Rng, kind: u8, bytes: &mut Vec<u8>) {
    if kind == body::FLOAT_HISTOGRAMS {
        return bytes.extend(rng.number().to_be_bytes());
    }
    let small = rng.byte().into();
    match rng.below(4) {
        0 => push_uvarint(rng, bytes),
        _ => push_padded(rng, small, bytes),
    }
}

/// Small, at the ends of 32 bits, or just beyond them.
fn push_varint32(rng: &mut Rng, bytes: &mut Vec<u8>) {
    let number = match rng.below(24) {
        0..=15 => rng.below(9) as i64 - 4,
        16..=18 => rng.number() as i32 as i64,
        19 | 20 => rng.pick(&[i32::MIN, i32::MAX]).into(),
        21 => rng.pick(&[-(1 << 31) - 1, 1 << 31, i64::MIN, i64::MAX]),
        _ => 0,
    };
    push_padded(rng, varint::zigzag(number), bytes);
}

fn push_uvarint32(rng: &mut Rng, bytes: &mut Vec<u8>) {
    let number = match rng.below(24) {
        0..=15 => rng.below(200) as u64,
        16..=18 => rng.number() >> 32,
        19 | 20 => u32::MAX.into(),
        21 => rng.pick(&[1 << 32, 1 << 63, u64::MAX]),
        _ => 0,
    };
    push_padded(rng, number, bytes);
}

/// A count, sometimes a lie, and strings.
fn push_pairs(rng: &mut Rng, bytes: &mut Vec<u8>) {
    let pairs = rng.below(4) as u64;
    let told = lie(rng, pairs);
    push_padded(rng, told, bytes);
    for _ in 0..2 * pairs {
        let length = rng.below(6);
        let told = lie(rng, length as u64);
        push_padded(rng, told, bytes);
        bytes.extend(rng.bytes(length));
    }
}

/// The number, or once in a while another one.
fn lie(rng: &mut Rng, number: u64) -> u64 {
    match rng.below(40) {
        0 => number + 1,
        1 => rng.pick(&[
            1 << 61,
            1 << 62,
            1 << 63,
            (1 << 63) + 1,
            u64::MAX - 8,
            u64::MAX,
        ]),
        _ => number,
    }
}

fn push_uvarint(rng: &mut Rng, bytes: &mut Vec<u8>) {
    let number = any_number(rng, 0);
    push_padded(rng, number, bytes);
}

/// The uvarint, sometimes longer than needed, sometimes with a tenth byte above 1.
pub(crate) fn push_padded(rng: &mut Rng, number: u64, bytes: &mut Vec<u8>) {
    let start = bytes.len();
    varint::write_uvarint(number, bytes);
    let length = bytes.len() - start;
    if length < varint::LONGEST && rng.once_in(8) {
        let padded = length + 1 + rng.below(varint::LONGEST - length);
        *bytes.last_mut().expect("a uvarint has a byte") |= 0x80;
        bytes.resize(start + padded - 1, 0x80);
        bytes.push(0);
    }
    if rng.once_in(60) {
        bytes.truncate(start);
        bytes.resize(start + varint::LONGEST - 1, 0x80 | rng.byte());
        bytes.push(rng.byte());
    }
}

/// Short bodies of any bytes.
pub fn compare_noise(rng: &mut Rng) -> Outcome {
    let mut bench = Bench::new(rng);
    for _ in 0..20_000 {
        let bytes = noise(rng);
        bench.body.put(&bytes);
        bench.read_through(bytes.len())?;
        read_somewhere(rng, &mut bench, bytes.len())?;
    }
    Ok(bench.cases)
}

/// Less than 40 bytes, the first mostly a known type.
pub(crate) fn noise(rng: &mut Rng) -> Vec<u8> {
    let length = rng.below(40);
    let mut bytes: Vec<u8> = (0..length).map(|_| any_byte(rng)).collect();
    if let (Some(first), false) = (bytes.first_mut(), rng.once_in(10)) {
        *first = rng.pick(&KINDS);
    }
    bytes
}

/// Reads at a few places, up to one past the end.
fn read_somewhere(rng: &mut Rng, bench: &mut Bench, length: usize) -> Result<(), String> {
    for _ in 0..5 {
        bench.read_at(length, rng.below(length + 2))?;
    }
    Ok(())
}

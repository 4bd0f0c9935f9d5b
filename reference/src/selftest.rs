//! Published numbers as literals: RFC 3720's checksums, the varints of FORMAT 14, and its empty
//! record, which document 02 [5] refuses.

use crate::refusal::{refuse, HOLLOW};
use crate::version::Version;
use crate::{crc32c, segment, varint};

/// RFC 3720, B.4: the 48 bytes of an iSCSI read command.
pub const ISCSI_READ: [u8; 48] = [
    0x01, 0xC0, 0x00, 0x00, 0x00, 0x00, 0x00, 0x00, 0x00, 0x00, 0x00, 0x00, 0x00, 0x00, 0x00, 0x00,
    0x14, 0x00, 0x00, 0x00, 0x00, 0x00, 0x04, 0x00, 0x00, 0x00, 0x00, 0x14, 0x00, 0x00, 0x00, 0x18,
    0x28, 0x00, 0x00, 0x00, 0x00, 0x00, 0x00, 0x00, 0x02, 0x00, 0x00, 0x00, 0x00, 0x00, 0x00, 0x00,
];

/// The data with a published checksum, in the order in which they are printed.
pub fn checksum_cases() -> Vec<(Vec<u8>, u32)> {
    vec![
        (Vec::new(), 0),
        (vec![0x00; 32], 0x8A91_36AA),
        (vec![0xFF; 32], 0x62A8_AB43),
        ((0x00..=0x1F).collect(), 0x46DD_794E),
        ((0x00..=0x1F).rev().collect(), 0x113F_DB5C),
        (ISCSI_READ.to_vec(), 0xD996_3A56),
        (b"123456789".to_vec(), 0xE306_9283),
    ]
}

const TOP: [u8; 10] = [0xFF, 0xFF, 0xFF, 0xFF, 0xFF, 0xFF, 0xFF, 0xFF, 0xFF, 0x01];

/// The uvarints of FORMAT 14.
const UVARINTS: [(u64, &[u8]); 4] = [
    (127, &[0x7F]),
    (128, &[0x80, 0x01]),
    (300, &[0xAC, 0x02]),
    (u64::MAX, &TOP),
];

/// The varints of FORMAT 14.
const VARINTS: [(i64, &[u8]); 5] = [
    (-1, &[0x01]),
    (1, &[0x02]),
    (-64, &[0x7F]),
    (64, &[0x80, 0x01]),
    (i64::MIN, &TOP),
];

/// Runs all checks; the error names the first difference.
pub fn run() -> Result<(), String> {
    published_checksums()?;
    both_forms_agree()?;
    published_uvarints()?;
    published_varints()?;
    empty_record_is_refused()
}

fn published_checksums() -> Result<(), String> {
    for (data, sum) in checksum_cases() {
        expect("bitwise checksum", crc32c::bitwise(&data), sum)?;
        expect("checksum by slices", crc32c::checksum(&data), sum)?;
    }
    Ok(())
}

fn both_forms_agree() -> Result<(), String> {
    let data = seeded_bytes(1100 + 8);
    for length in 0..=1100 {
        let part = &data[length % 8..][..length];
        expect(
            &format!("checksum of {length} bytes"),
            crc32c::checksum(part),
            crc32c::bitwise(part),
        )?;
    }
    Ok(())
}

fn published_uvarints() -> Result<(), String> {
    for (number, encoded) in UVARINTS {
        let mut bytes = Vec::new();
        varint::write_uvarint(number, &mut bytes);
        expect(&format!("uvarint {number}"), &bytes[..], encoded)?;
        let length = varint::uvarint_length(number);
        expect("uvarint's length", length, encoded.len())?;
        let back = varint::read_uvarint(encoded);
        expect("uvarint read", back, Ok((number, encoded.len())))?;
    }
    Ok(())
}

fn published_varints() -> Result<(), String> {
    for (number, encoded) in VARINTS {
        let mut bytes = Vec::new();
        varint::write_varint(number, &mut bytes);
        expect(&format!("varint {number}"), &bytes[..], encoded)?;
        let length = varint::varint_length(number);
        expect("varint's length", length, encoded.len())?;
        let back = varint::read_varint(encoded);
        expect("varint read", back, Ok((number, encoded.len())))?;
    }
    Ok(())
}

/// 01 then six zero bytes is neither read nor written.
fn empty_record_is_refused() -> Result<(), String> {
    let mut buffer = vec![0; segment::RECORD_MAX];
    let good = &mut segment::Good::default();
    let read = segment::read(Version::One, &[1, 0, 0, 0, 0, 0, 0], 0, &mut buffer, good);
    expect("empty record read", read, refuse(HOLLOW, 0))?;
    let mut page = vec![0; segment::PAGE];
    let written = segment::write(Version::One, &mut page, 14, &[]);
    expect("empty record written", written, refuse(HOLLOW, 14))
}

/// Bytes that look random and are the same each time.
fn seeded_bytes(length: usize) -> Vec<u8> {
    let mut state: u64 = 0x5EED;
    let next = || {
        state = state
            .wrapping_mul(6_364_136_223_846_793_005)
            .wrapping_add(1_442_695_040_888_963_407);
        (state >> 56) as u8
    };
    std::iter::repeat_with(next).take(length).collect()
}

fn expect<T: PartialEq + std::fmt::Debug>(what: &str, got: T, wanted: T) -> Result<(), String> {
    if got == wanted {
        Ok(())
    } else {
        Err(format!("{what}: got {got:X?}, wanted {wanted:X?}"))
    }
}

#[cfg(test)]
mod tests {
    #[test]
    fn passes() {
        assert_eq!(super::run(), Ok(()));
    }
}

//! Uvarint and varint, 64 bits wide (FORMAT 8.2, 8.3). A uvarint has seven bits a byte, lowest
//! group first; longer than needed is accepted in reading, never written. A varint is the uvarint
//! of 2x for x >= 0 and of -2x - 1 for x < 0.

/// The longest encoding in bytes.
pub const LONGEST: usize = 10;

/// Why no number was read.
#[derive(Clone, Copy, Debug, PartialEq, Eq)]
pub enum Fault {
    /// The bytes end inside the number.
    Short,
    /// The tenth byte is above 1.
    BadVarint,
}

/// Appends the uvarint of `number`.
pub fn write_uvarint(number: u64, bytes: &mut Vec<u8>) {
    let mut room = [0; LONGEST];
    let length = put_uvarint(number, &mut room);
    bytes.extend(&room[..length]);
}

/// Writes the uvarint of `number` to the front of `room`, which has to hold it, and answers its
/// length.
#[inline(always)]
pub fn put_uvarint(mut number: u64, room: &mut [u8]) -> usize {
    let mut last = 0;
    while number > 0x7F {
        room[last] = number as u8 | 0x80;
        number >>= 7;
        last += 1;
    }
    room[last] = number as u8;
    last + 1
}

/// The number of bytes that the uvarint of `number` takes: one for each seven bits begun, at least
/// one. For 1 to 64 bits, (9 * bits + 64) / 64 is bits / 7 rounded up.
pub fn uvarint_length(number: u64) -> usize {
    let bits = u64::BITS - (number | 1).leading_zeros();
    (9 * bits + 64) as usize / 64
}

/// The number that `bytes` begin with, and how many bytes it takes.
pub fn read_uvarint(bytes: &[u8]) -> Result<(u64, usize), Fault> {
    let mut number = 0;
    for (index, &byte) in bytes.iter().take(LONGEST).enumerate() {
        if index == LONGEST - 1 && byte > 1 {
            return Err(Fault::BadVarint);
        }
        number |= u64::from(byte & 0x7F) << (7 * index);
        if byte < 0x80 {
            return Ok((number, index + 1));
        }
    }
    Err(Fault::Short)
}

/// Appends the varint of `number`.
pub fn write_varint(number: i64, bytes: &mut Vec<u8>) {
    write_uvarint(zigzag(number), bytes);
}

/// The number of bytes that `write_varint` appends.
pub fn varint_length(number: i64) -> usize {
    uvarint_length(zigzag(number))
}

/// The signed number that `bytes` begin with, and how many bytes it takes.
pub fn read_varint(bytes: &[u8]) -> Result<(i64, usize), Fault> {
    read_uvarint(bytes).map(|(number, length)| (unzigzag(number), length))
}

/// 2x for x >= 0, -2x - 1 for x < 0: twice the number, all bits turned if it is negative. Every
/// delta of a row goes through here, so there is no branch.
pub fn zigzag(number: i64) -> u64 {
    ((number << 1) ^ (number >> 63)) as u64
}

/// The number whose zigzag form is `coded`: half of it, all bits turned if it is odd.
pub fn unzigzag(coded: u64) -> i64 {
    (coded >> 1) as i64 ^ -((coded & 1) as i64)
}

#[cfg(test)]
mod tests {
    use super::*;

    #[test]
    fn both_ends_come_back() {
        for number in [0, 1, -1, 63, -64, 64, i64::MAX, i64::MIN] {
            let mut bytes = Vec::new();
            write_varint(number, &mut bytes);
            assert_eq!(bytes.len(), varint_length(number));
            assert_eq!(read_varint(&bytes), Ok((number, bytes.len())));
        }
    }

    #[test]
    fn zigzag_is_what_the_format_says() {
        for bits in 0..i64::BITS {
            let power = i64::MIN >> bits;
            for number in [power, power.wrapping_sub(1), -(power + 1), power + 1] {
                let wide = i128::from(number);
                let coded = if wide >= 0 { 2 * wide } else { -2 * wide - 1 };
                assert_eq!(i128::from(zigzag(number)), coded);
                assert_eq!(unzigzag(zigzag(number)), number);
            }
        }
    }

    #[test]
    fn lengths() {
        assert_eq!(uvarint_length(0), 1);
        for bits in 1..=u64::BITS {
            let length = bits.div_ceil(7) as usize;
            for number in [1 << (bits - 1), u64::MAX >> (u64::BITS - bits)] {
                assert_eq!(uvarint_length(number), length);
                assert_eq!(put_uvarint(number, &mut [0; LONGEST]), length);
            }
        }
    }

    #[test]
    fn tenth_byte() {
        let mut bytes = vec![0x80; 9];
        assert_eq!(read_uvarint(&bytes), Err(Fault::Short));
        bytes.push(2);
        assert_eq!(read_uvarint(&bytes), Err(Fault::BadVarint));
        bytes[9] = 0x80;
        assert_eq!(read_uvarint(&bytes), Err(Fault::BadVarint));
        bytes[9] = 1;
        assert_eq!(read_uvarint(&bytes), Ok((1 << 63, 10)));
        bytes[9] = 0;
        assert_eq!(read_uvarint(&bytes), Ok((0, 10)));
    }
}

//! CRC-32C (Castagnoli), as FORMAT 3 gives it: reflected polynomial 0x82F63B78, start and final xor
//! 0xFFFFFFFF. Twice: bit by bit, which is the definition, and by slices of eight bytes, which is
//! the fastest form without special instructions.

/// The reflected polynomial.
pub const POLYNOMIAL: u32 = 0x82F6_3B78;

/// Rows of the table: one for each byte of a slice.
pub const ROWS: usize = 8;

/// Row k, byte b: the register left of byte b after 8 * (k + 1) bits.
pub type Table = [[u32; 256]; ROWS];

/// The table, made once by the compiler.
pub static TABLE: Table = make_table();

/// The checksum by its definition, one bit at a time.
pub fn bitwise(data: &[u8]) -> u32 {
    let register = data
        .iter()
        .fold(!0, |register, &byte| shift_byte(register ^ u32::from(byte)));
    !register
}

/// The checksum by slices of eight bytes.
pub fn checksum(data: &[u8]) -> u32 {
    !update(!0, data)
}

/// The register after `data`, without the final xor.
pub fn update(mut register: u32, data: &[u8]) -> u32 {
    let mut slices = data.chunks_exact(8);
    for slice in &mut slices {
        register = update_eight(register, slice);
    }
    let mut tail = slices.remainder();
    if let Some((four, rest)) = tail.split_first_chunk::<4>() {
        register = look_up(0, register ^ u32::from_le_bytes(*four));
        tail = rest;
    }
    for &byte in tail {
        let index = (register ^ u32::from(byte)) & 0xFF;
        register = TABLE[0][index as usize] ^ (register >> 8);
    }
    register
}

/// Eight bytes at once; the last four do not depend on the register, so they are looked up first.
#[inline(always)]
fn update_eight(register: u32, slice: &[u8]) -> u32 {
    let early = u32::from_le_bytes([slice[0], slice[1], slice[2], slice[3]]);
    let late = u32::from_le_bytes([slice[4], slice[5], slice[6], slice[7]]);
    look_up(0, late) ^ look_up(4, register ^ early)
}

/// The register left of four bytes followed by `row` more bytes of zero.
#[inline(always)]
fn look_up(row: usize, word: u32) -> u32 {
    TABLE[row + 3][(word & 0xFF) as usize]
        ^ TABLE[row + 2][(word >> 8 & 0xFF) as usize]
        ^ TABLE[row + 1][(word >> 16 & 0xFF) as usize]
        ^ TABLE[row][(word >> 24) as usize]
}

/// Shifts eight bits out of the register.
const fn shift_byte(mut register: u32) -> u32 {
    let mut bit = 0;
    while bit < 8 {
        let carry = register & 1;
        register >>= 1;
        if carry == 1 {
            register ^= POLYNOMIAL;
        }
        bit += 1;
    }
    register
}

const fn make_table() -> Table {
    let mut table = [[0; 256]; ROWS];
    let mut byte = 0;
    while byte < 256 {
        let mut register = byte as u32;
        let mut row = 0;
        while row < ROWS {
            register = shift_byte(register);
            table[row][byte] = register;
            row += 1;
        }
        byte += 1;
    }
    table
}

#[cfg(test)]
mod tests {
    use super::*;

    #[test]
    fn nine_digits() {
        assert_eq!(bitwise(b"123456789"), 0xE306_9283);
        assert_eq!(checksum(b"123456789"), 0xE306_9283);
    }

    #[test]
    fn table_rows_add_a_byte_of_zero_each() {
        for rows in TABLE.windows(2) {
            for (&before, &after) in rows[0].iter().zip(&rows[1]) {
                let index = (before & 0xFF) as usize;
                assert_eq!(after, TABLE[0][index] ^ (before >> 8));
            }
        }
    }
}

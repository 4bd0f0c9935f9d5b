//! The checksum by the processor's own instruction, where it has one.

use reference::crc32c;

/// True if the processor has the instruction.
#[inline]
pub fn present() -> bool {
    #[cfg(target_arch = "x86_64")]
    return std::is_x86_feature_detected!("sse4.2");
    #[cfg(not(target_arch = "x86_64"))]
    return false;
}

/// By the instruction; without it, as the second program sums.
#[inline]
pub fn checksum(data: &[u8]) -> u32 {
    #[cfg(target_arch = "x86_64")]
    if present() {
        return unsafe { with_instruction(data) };
    }
    crc32c::checksum(data)
}

#[cfg(target_arch = "x86_64")]
#[target_feature(enable = "sse4.2")]
fn with_instruction(data: &[u8]) -> u32 {
    use core::arch::x86_64::{_mm_crc32_u64, _mm_crc32_u8};
    let mut words = data.chunks_exact(8);
    let mut register = u64::from(!0u32);
    for word in &mut words {
        let word = word.try_into().expect("a word has eight bytes");
        register = _mm_crc32_u64(register, u64::from_le_bytes(word));
    }
    let mut register = register as u32;
    for &byte in words.remainder() {
        register = _mm_crc32_u8(register, byte);
    }
    !register
}

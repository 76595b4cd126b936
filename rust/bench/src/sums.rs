//! The proved sum and CRC32c by themselves, from the crate `host_sums`, which
//! is there for measuring alone. All unsafe code of this crate is here.
//!
//! Both functions ask for a pointer to as many bytes as the length says: it
//! comes from a slice.
#![allow(unsafe_code)]

extern "C" {
    fn wuraketozo_sum(running: u16, bytes: *const u8, length: usize, odd: bool) -> u16;
    fn wuraketozo_crc32c(bytes: *const u8, length: usize) -> u32;
}

/// The folded sum of `running` and the bytes, the first at an odd offset or
/// at an even one.
#[inline]
pub fn sum(running: u16, bytes: &[u8], odd: bool) -> u16 {
    // SAFETY: the pointer and the length are a slice's.
    unsafe { wuraketozo_sum(running, bytes.as_ptr(), bytes.len(), odd) }
}

/// The number whose big-endian bytes an APC option holds.
#[inline]
pub fn crc32c(bytes: &[u8]) -> u32 {
    // SAFETY: the pointer and the length are a slice's.
    unsafe { wuraketozo_crc32c(bytes.as_ptr(), bytes.len()) }
}

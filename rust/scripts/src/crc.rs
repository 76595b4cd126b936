//! CRC32c, bit by bit: a short word for what a long buffer holds.

/// The number whose big-endian bytes are those that iSCSI prints.
pub fn crc32c(bytes: &[u8]) -> u32 {
    let mut register = u32::MAX;
    for byte in bytes {
        register ^= u32::from(*byte);
        for _ in 0..8 {
            let polynomial = if register & 1 == 1 { 0x82F6_3B78 } else { 0 };
            register = (register >> 1) ^ polynomial;
        }
    }
    (!register).swap_bytes()
}

#[cfg(test)]
mod tests {
    #[test]
    fn the_published_check_value() {
        assert_eq!(super::crc32c(b"123456789"), 0x8392_06E3);
    }
}

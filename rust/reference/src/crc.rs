//! CRC32c (RFC section 11.3), table-driven, 16 bytes at a step.

/// The reflected Castagnoli polynomial.
const POLYNOMIAL: u32 = 0x82F6_3B78;

/// What a byte adds to the value that stands `n + 1` bytes on, for each n.
static TABLES: [[u32; 256]; 16] = tables();

const fn tables() -> [[u32; 256]; 16] {
    let mut tables = [[0u32; 256]; 16];
    let mut byte = 0;
    while byte < 256 {
        let mut value = byte as u32;
        let mut bit = 0;
        while bit < 8 {
            value = (value >> 1) ^ (POLYNOMIAL & (value & 1).wrapping_neg());
            bit += 1;
        }
        tables[0][byte] = value;
        byte += 1;
    }
    let mut table = 1;
    while table < 16 {
        let mut byte = 0;
        while byte < 256 {
            let before = tables[table - 1][byte];
            tables[table][byte] = (before >> 8) ^ tables[0][(before & 0xFF) as usize];
            byte += 1;
        }
        table += 1;
    }
    tables
}

/// What the four bytes of a little-endian word add, `behind` bytes past them.
#[inline]
fn four(behind: usize, word: u32) -> u32 {
    let [a, b, c, d] = word.to_le_bytes();
    let look_up = |table: usize, byte: u8| TABLES[behind + table][usize::from(byte)];
    (look_up(3, a) ^ look_up(2, b)) ^ (look_up(1, c) ^ look_up(0, d))
}

/// The little-endian word at `at`.
#[inline]
fn word<const N: usize>(bytes: &[u8; N], at: usize) -> u32 {
    u32::from_le_bytes([bytes[at], bytes[at + 1], bytes[at + 2], bytes[at + 3]])
}

/// The CRC32c of `bytes` as the number of the APC field: iSCSI's four bytes
/// read big-endian. 32 zero bytes give 0xAA36918A.
pub fn crc32c(bytes: &[u8]) -> u32 {
    let mut value = !0u32;
    let mut rest = bytes;
    // Only the first word's look-ups wait for the value before; they come last.
    while let Some((block, behind)) = rest.split_first_chunk::<16>() {
        let later = four(0, word(block, 12)) ^ four(4, word(block, 8)) ^ four(8, word(block, 4));
        value = later ^ four(12, word(block, 0) ^ value);
        rest = behind;
    }
    if let Some((block, behind)) = rest.split_first_chunk::<8>() {
        value = four(0, word(block, 4)) ^ four(4, word(block, 0) ^ value);
        rest = behind;
    }
    if let Some((block, behind)) = rest.split_first_chunk::<4>() {
        value = four(0, word(block, 0) ^ value);
        rest = behind;
    }
    for &byte in rest {
        value = (value >> 8) ^ TABLES[0][((value ^ u32::from(byte)) & 0xFF) as usize];
    }
    // The usual reflected value is sent lowest byte first.
    (!value).swap_bytes()
}

//! The 16-bit ones' complement sum (RFC 768, RFC 1071).
//!
//! Everything here counts modulo 65,535. There 65,536 is 1, so a wider word
//! may stand for the 16-bit words in it, and carries come back in at the end;
//! and 256 times a 16-bit word is that word with its bytes exchanged, so words
//! may be added in either byte order (RFC 1071, section 2).

/// Adds the carries back in until 16 bits remain. Adding a number to itself
/// with its halves exchanged leaves their sum, carry included, on top.
#[inline]
pub fn fold(sum: u64) -> u16 {
    let sum = (sum.wrapping_add(sum.rotate_left(32)) >> 32) as u32;
    (sum.wrapping_add(sum.rotate_left(16)) >> 16) as u16
}

/// The folded sum of `running` and the big-endian 16-bit words of `bytes`; a
/// missing last byte counts as 0. At an odd start the first byte is a low
/// byte. `running` is a sum so far, below 2^48.
#[inline(always)]
pub fn sum(running: u64, bytes: &[u8], odd_start: bool) -> u16 {
    // At an odd start the little-endian words are the wanted ones.
    if odd_start {
        fold(running + little_endian(bytes))
    } else {
        fold((running << 8) + little_endian(bytes)).swap_bytes()
    }
}

/// From here on blocks are faster than words one by one.
const BLOCKS_FROM: usize = 128;

/// A number that is the sum of the little-endian 16-bit words of `bytes`
/// modulo 65,535, and 0 only if they all are.
#[inline(always)]
fn little_endian(bytes: &[u8]) -> u64 {
    let (mut total, mut rest) = (0, bytes);
    if bytes.len() >= BLOCKS_FROM {
        (total, rest) = blocks(bytes);
    }
    let mut wide = 0;
    while let Some((two, behind)) = rest.split_first_chunk() {
        let two = u128::from_le_bytes(*two);
        wide = add(add(wide, two as u64), (two >> 64) as u64);
        rest = behind;
    }
    if let Some((word, behind)) = rest.split_first_chunk() {
        wide = add(wide, u64::from_le_bytes(*word));
        rest = behind;
    }
    total += (wide & 0xFFFF_FFFF) + (wide >> 32);
    if let Some((word, behind)) = rest.split_first_chunk() {
        total += u64::from(u32::from_le_bytes(*word));
        rest = behind;
    }
    if let Some((word, behind)) = rest.split_first_chunk() {
        total += u64::from(u16::from_le_bytes(*word));
        rest = behind;
    }
    if let [byte] = rest {
        total += u64::from(*byte);
    }
    total
}

/// The sum with its carry added at the low end: 2^64 is 1 too.
#[inline]
fn add(a: u64, b: u64) -> u64 {
    let (sum, carry) = a.overflowing_add(b);
    sum + u64::from(carry)
}

/// The sum of the 32-bit words of the whole blocks of 64 bytes, and the bytes
/// that are left. Each of eight lanes adds 64-bit words, letting carries out
/// of them go, and their high halves apart; less the high halves, the first
/// sum is that of the low halves.
#[inline(never)]
fn blocks(bytes: &[u8]) -> (u64, &[u8]) {
    let mut words = [0u64; 8];
    let mut highs = [0u64; 8];
    let mut blocks = bytes.chunks_exact(64);
    for block in &mut blocks {
        for (lane, word) in block.chunks_exact(8).enumerate() {
            let mut eight = [0; 8];
            eight.copy_from_slice(word);
            let word = u64::from_le_bytes(eight);
            words[lane] = words[lane].wrapping_add(word);
            highs[lane] += word >> 32;
        }
    }
    let word = words
        .iter()
        .fold(0, |sum: u64, &word| sum.wrapping_add(word));
    let high: u64 = highs.iter().sum();
    let low = word.wrapping_sub(high << 32);
    (low + high, blocks.remainder())
}

/// The sum over RFC 768's pseudo-header and the datagram's bytes 0 to L.
/// Both numbers are UDP's: protocol 17, length L.
#[inline]
pub fn udp_sum(source: [u8; 4], destination: [u8; 4], datagram: &[u8]) -> u16 {
    let addresses =
        u64::from(u32::from_be_bytes(source)) + u64::from(u32::from_be_bytes(destination));
    sum(addresses + 17 + datagram.len() as u64, datagram, false)
}

/// The sum over the area's length and the area, paired on even offsets from
/// the UDP header.
#[inline]
pub fn area_sum(area: &[u8], odd_start: bool) -> u16 {
    sum(area.len() as u64, area, odd_start)
}

/// What is sent for a sum: its complement, 0 as FFFF.
#[inline]
pub fn sent(sum: u16) -> u16 {
    match !sum {
        0 => 0xFFFF,
        other => other,
    }
}

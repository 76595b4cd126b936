//! Published vectors, and the sum and the CRC against the simplest spelling of
//! them.

use reference::checksum::{area_sum, fold, sent, sum, udp_sum};
use reference::crc::crc32c;
use reference::generate::Random;

fn bytes_of(data: &[u8]) -> [u8; 4] {
    crc32c(data).to_be_bytes()
}

#[test]
fn iscsi_vectors() {
    assert_eq!(bytes_of(&[0; 32]), [0xAA, 0x36, 0x91, 0x8A]);
    assert_eq!(bytes_of(&[0xFF; 32]), [0x43, 0xAB, 0xA8, 0x62]);
    let up: Vec<u8> = (0..32).collect();
    let down: Vec<u8> = (0..32).rev().collect();
    assert_eq!(bytes_of(&up), [0x4E, 0x79, 0xDD, 0x46]);
    assert_eq!(bytes_of(&down), [0x5C, 0xDB, 0x3F, 0x11]);
    assert_eq!(bytes_of(b"123456789"), [0x83, 0x92, 0x06, 0xE3]);
    assert_eq!(crc32c(&[0; 32]), 2_855_702_922);
    assert_eq!(crc32c(&[]), 0);
}

/// Bit by bit, reflected.
fn slow_crc(bytes: &[u8]) -> u32 {
    let mut value = !0u32;
    for &byte in bytes {
        for bit in 0..8 {
            let carry = (value ^ u32::from(byte >> bit)) & 1;
            value >>= 1;
            if carry == 1 {
                value ^= 0x82F6_3B78;
            }
        }
    }
    (!value).swap_bytes()
}

/// Word by word, big-endian, with the carry added at once.
fn slow_sum(bytes: &[u8]) -> u16 {
    let mut total = 0u32;
    for pair in bytes.chunks(2) {
        let low = if pair.len() == 2 { pair[1] } else { 0 };
        total += u32::from(pair[0]) * 256 + u32::from(low);
        if total > 0xFFFF {
            total -= 0xFFFF;
        }
    }
    total as u16
}

/// Every short length, those about the blocks, and long ones about 2^16 and
/// 2^17, where carries of carries come.
fn lengths() -> impl Iterator<Item = usize> {
    (0..=300)
        .chain([1_000, 1_001, 65_515])
        .chain(65_535..=65_540)
        .chain(131_071..=131_073)
}

/// Bytes of no pattern, and bytes that carry the most and the least.
fn fillings(random: &mut Random, length: usize) -> [Vec<u8>; 4] {
    let mut least = vec![0; length];
    if let Some(last) = least.last_mut() {
        *last = 1;
    }
    [
        random.bytes(length),
        vec![0xFF; length],
        vec![0; length],
        least,
    ]
}

#[test]
fn sums_against_slow_ones() {
    let mut random = Random::new(1);
    for length in lengths() {
        for bytes in fillings(&mut random, length + 1) {
            // The bytes themselves start at an even and at an odd address.
            for bytes in [&bytes[..length], &bytes[1..]] {
                let odd = [&[0], bytes].concat();
                for running in [0, 1, 0x00FF, 0xFF00, 0xABCD, 0xFFFE, 0xFFFFu16] {
                    let with = |rest: &[u8]| slow_sum(&[&running.to_be_bytes()[..], rest].concat());
                    let running = u64::from(running);
                    assert_eq!(sum(running, bytes, false), with(bytes), "{length}");
                    assert_eq!(sum(running, bytes, true), with(&odd), "{length}, odd");
                }
            }
        }
    }
}

/// What brings a sum to FFFF, at either parity of start and at each place.
#[test]
fn sums_to_all_ones() {
    let mut random = Random::new(2);
    for length in (4..=80).chain([128, 192, 1_472, 65_514]) {
        let mut bytes = random.bytes(length);
        for odd_start in [false, true] {
            for at in [0, length / 3, length / 2, length - 2] {
                bytes[at..at + 2].fill(0);
                let rest = sum(0, &bytes, odd_start);
                let word = !rest;
                let high_first = (at % 2 == 1) == odd_start;
                let word = if high_first { word } else { word.swap_bytes() };
                bytes[at..at + 2].copy_from_slice(&word.to_be_bytes());
                assert_eq!(sum(0, &bytes, odd_start), 0xFFFF, "{length} {at}");
            }
        }
    }
}

#[test]
fn sums_with_their_lengths() {
    let mut random = Random::new(3);
    for length in (0..200).chain([1_000, 1_001, 65_515]) {
        let bytes = random.bytes(length);
        let even = [&(length as u16).to_be_bytes(), &bytes[..]].concat();
        let odd = [&(length as u16).to_be_bytes(), &[0][..], &bytes].concat();
        assert_eq!(area_sum(&bytes, false), slow_sum(&even), "{length}");
        assert_eq!(area_sum(&bytes, true), slow_sum(&odd), "{length}");
        for (a, b) in [(random.four(), random.four()), ([0xFF; 4], [0xFF; 4])] {
            let pseudo = [&a[..], &b, &[0, 17], &(length as u16).to_be_bytes(), &bytes].concat();
            assert_eq!(udp_sum(a, b, &bytes), slow_sum(&pseudo), "{length}");
        }
    }
    assert_eq!((sent(0), sent(0xFFFF), sent(1)), (0xFFFF, 0xFFFF, 0xFFFE));
}

#[test]
fn folds() {
    let mut random = Random::new(4);
    let edges = [
        0,
        1,
        0xFFFE,
        0xFFFF,
        0x1_0000,
        0x1_FFFE,
        0xFFFF_FFFF,
        0x1_0000_0000,
        u64::MAX,
    ];
    for number in edges.into_iter().chain((0..1_000).map(|_| {
        let (a, b) = (random.four(), random.four());
        u64::from(u32::from_be_bytes(a)) << 32 | u64::from(u32::from_be_bytes(b))
    })) {
        let remainder = (number % 0xFFFF) as u16;
        let folded = if number > 0 && remainder == 0 {
            0xFFFF
        } else {
            remainder
        };
        assert_eq!(fold(number), folded, "{number}");
    }
}

#[test]
fn crcs_against_slow_ones() {
    let mut random = Random::new(5);
    for length in lengths() {
        for bytes in fillings(&mut random, length + 1) {
            for bytes in [&bytes[..length], &bytes[1..]] {
                assert_eq!(crc32c(bytes), slow_crc(bytes), "{length}");
            }
        }
    }
}

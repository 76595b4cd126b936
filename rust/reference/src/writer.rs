//! "Dockets and the writer": the writer of unfragmented datagrams.

use crate::checksum;
use crate::crc::crc32c;
use crate::docket::Entries;
use crate::reader::{Fields, ReadOption, PAYLOAD_MOST};

/// Writes the whole payload to the front of `buffer` and returns its length;
/// refusal 7, 9 or 8 leaves the buffer alone.
#[allow(clippy::too_many_arguments)]
pub fn write(
    source: [u8; 4],
    destination: [u8; 4],
    source_port: u16,
    destination_port: u16,
    user: &[u8],
    docket: &[u8],
    fill: u8,
    buffer: &mut [u8],
) -> Result<usize, u32> {
    // 7 and 9 before 8: the docket is read to its end first.
    let mut options = 0;
    let mut entries = Entries::open(docket)?;
    let first = entries.clone();
    while let Some(option) = entries.next_option()? {
        options += whole_length(&option);
    }
    let udp_length = user.len().saturating_add(8);
    let pad = udp_length % 2;
    let length = udp_length.saturating_add(pad + 2 + options + usize::from(fill));
    if length > PAYLOAD_MOST || length > buffer.len() {
        return Err(8);
    }

    let payload = &mut buffer[..length];
    payload[0..2].copy_from_slice(&source_port.to_be_bytes());
    payload[2..4].copy_from_slice(&destination_port.to_be_bytes());
    payload[4..6].copy_from_slice(&(udp_length as u16).to_be_bytes());
    payload[6..8].fill(0);
    payload[8..udp_length].copy_from_slice(user);
    let sum_at = udp_length + pad;
    if pad == 1 {
        payload[udp_length] = 0;
    }
    payload[sum_at..sum_at + 2].fill(0);
    let mut at = sum_at + 2;
    let mut entries = first;
    while let Ok(Some(option)) = entries.next_option() {
        at = put_option(payload, at, &option, user);
    }
    // The fill; its first byte is EOL.
    payload[at..].fill(0);

    let option_sum = checksum::sent(checksum::area_sum(&payload[udp_length..], pad == 1));
    payload[sum_at..sum_at + 2].copy_from_slice(&option_sum.to_be_bytes());
    let udp_sum = checksum::udp_sum(source, destination, &payload[..udp_length]);
    payload[6..8].copy_from_slice(&checksum::sent(udp_sum).to_be_bytes());
    Ok(length)
}

/// The whole length of a docket's option on the wire.
#[inline]
fn whole_length(option: &ReadOption) -> usize {
    match (option.kind, option.fields) {
        (2 | 6 | 7, _) => 6,
        (4, _) => 4,
        (5, _) => 5,
        (8, _) => 10,
        // The extended form only where the short would pass 254.
        (_, Fields::Body(body)) if body.len() + 2 <= 254 => body.len() + 2,
        (_, Fields::Body(body)) => body.len() + 4,
        _ => 0,
    }
}

/// Writes one option at `at` and returns where it ends.
#[inline]
fn put_option(payload: &mut [u8], at: usize, option: &ReadOption, user: &[u8]) -> usize {
    let whole = whole_length(option);
    let end = at + whole;
    let bytes = &mut payload[at..end];
    bytes[0] = option.kind;
    if whole <= 254 {
        bytes[1] = whole as u8;
    } else {
        bytes[1] = 255;
        bytes[2..4].copy_from_slice(&(whole as u16).to_be_bytes());
    }
    match (option.kind, option.fields) {
        (2, _) => bytes[2..6].copy_from_slice(&crc32c(user).to_be_bytes()),
        (4, Fields::One(a)) => bytes[2..4].copy_from_slice(&(a as u16).to_be_bytes()),
        (5, Fields::Two(a, b)) => {
            bytes[2..4].copy_from_slice(&(a as u16).to_be_bytes());
            bytes[4] = b as u8;
        }
        (6 | 7, Fields::One(a)) => bytes[2..6].copy_from_slice(&a.to_be_bytes()),
        (8, Fields::Two(a, b)) => {
            bytes[2..6].copy_from_slice(&a.to_be_bytes());
            bytes[6..10].copy_from_slice(&b.to_be_bytes());
        }
        (_, Fields::Body(body)) => {
            let header = whole - body.len();
            bytes[header..].copy_from_slice(body);
        }
        _ => {}
    }
    end
}

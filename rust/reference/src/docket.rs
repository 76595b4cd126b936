//! "Dockets and the writer": numbers, dockets and the listing of a reading.

use crate::reader::{Fields, Options, ReadOption, Reading, Rereading, OPTIONS_MOST};

/// The longest body: an extended option of 65,535 bytes less its header.
pub const BODY_MOST: u32 = 65_531;

/// Reads the number at `at`: its value and where it ends. None where it is
/// cut short, not in shortest form, or over `most`.
#[inline]
fn number(bytes: &[u8], at: usize, most: u32) -> Option<(u32, usize)> {
    // Most numbers are one byte.
    match bytes.get(at) {
        None => return None,
        Some(&byte) if byte < 0x80 => {
            let value = u32::from(byte);
            return (value <= most).then_some((value, at + 1));
        }
        Some(_) => {}
    }
    let mut value = 0u64;
    for (index, &byte) in bytes.get(at..)?.iter().enumerate() {
        // A sixth group means 2^35 or more, or not the shortest form.
        if index == 5 {
            return None;
        }
        value |= u64::from(byte & 0x7F) << (7 * index);
        if byte & 0x80 == 0 {
            let shortest = byte != 0;
            return match u32::try_from(value) {
                Ok(value) if shortest && value <= most => Some((value, at + index + 1)),
                _ => None,
            };
        }
    }
    None
}

/// The count of bytes of a number in its shortest form.
fn number_length(value: u32) -> usize {
    match value {
        0..=0x7F => 1,
        0x80..=0x3FFF => 2,
        0x4000..=0x1F_FFFF => 3,
        0x20_0000..=0xFFF_FFFF => 4,
        _ => 5,
    }
}

/// Writes a number at `at` and returns where it ends.
fn put_number(buffer: &mut [u8], mut at: usize, mut value: u32) -> usize {
    while value > 0x7F {
        buffer[at] = value as u8 | 0x80;
        value >>= 7;
        at += 1;
    }
    buffer[at] = value as u8;
    at + 1
}

/// A docket being read from the front.
#[derive(Clone, Debug)]
pub struct Entries<'a> {
    docket: &'a [u8],
    at: usize,
    left: u32,
}

impl<'a> Entries<'a> {
    /// Reads the count; refusal 7.
    pub fn open(docket: &'a [u8]) -> Result<Self, u32> {
        let (left, at) = number(docket, 0, OPTIONS_MOST as u32).ok_or(7u32)?;
        Ok(Entries { docket, at, left })
    }

    /// The next option, or none at a clean end; refusal 7 or 9, whichever is
    /// met first from the front.
    #[inline(always)]
    pub fn next_option(&mut self) -> Result<Option<ReadOption<'a>>, u32> {
        if self.left == 0 {
            // Bytes left over.
            return if self.at == self.docket.len() {
                Ok(None)
            } else {
                Err(7)
            };
        }
        self.left -= 1;
        let kind = self.number(255)? as u8;
        let fields = match kind {
            0 | 1 | 3 | 192..=255 => return Err(9),
            2 => Fields::None,
            4 => Fields::One(self.number(0xFFFF)?),
            5 => Fields::Two(self.number(0xFFFF)?, self.number(0xFF)?),
            6 | 7 => Fields::One(self.number(u32::MAX)?),
            8 => Fields::Two(self.number(u32::MAX)?, self.number(u32::MAX)?),
            9..=191 => {
                let length = self.number(BODY_MOST)? as usize;
                let rest = &self.docket[self.at..];
                let body = rest.get(..length).ok_or(7u32)?;
                self.at += length;
                Fields::Body(body)
            }
        };
        Ok(Some(ReadOption { kind, fields }))
    }

    #[inline(always)]
    fn number(&mut self, most: u32) -> Result<u32, u32> {
        let (value, next) = number(self.docket, self.at, most).ok_or(7u32)?;
        self.at = next;
        Ok(value)
    }
}

/// The options of a docket, or refusal 7 or 9.
pub fn decode(docket: &[u8]) -> Result<Vec<ReadOption<'_>>, u32> {
    let mut entries = Entries::open(docket)?;
    let mut options = Vec::new();
    while let Some(option) = entries.next_option()? {
        options.push(option);
    }
    Ok(options)
}

/// The bytes of one option in a docket.
fn entry_length(option: &ReadOption) -> usize {
    let fields = match option.fields {
        _ if option.kind == 2 => 0,
        Fields::None => 0,
        Fields::One(a) => number_length(a),
        Fields::Two(a, b) => number_length(a) + number_length(b),
        Fields::Body(body) => number_length(body.len() as u32) + body.len(),
    };
    number_length(u32::from(option.kind)) + fields
}

/// Writes one option at `at` and returns where it ends. APC has no field.
fn put_entry(buffer: &mut [u8], at: usize, option: &ReadOption) -> usize {
    let at = put_number(buffer, at, u32::from(option.kind));
    match option.fields {
        _ if option.kind == 2 => at,
        Fields::None => at,
        Fields::One(a) => put_number(buffer, at, a),
        Fields::Two(a, b) => {
            let at = put_number(buffer, at, a);
            put_number(buffer, at, b)
        }
        Fields::Body(body) => {
            let at = put_number(buffer, at, body.len() as u32);
            let end = at + body.len();
            buffer[at..end].copy_from_slice(body);
            end
        }
    }
}

/// The docket of the given options, as they are: it can be decoded again if
/// they are at most 32, of kinds and widths that a docket takes.
pub fn encode(options: &[ReadOption]) -> Vec<u8> {
    let count = options.len() as u32;
    let length = number_length(count) + options.iter().map(entry_length).sum::<usize>();
    let mut docket = vec![0; length];
    let mut at = put_number(&mut docket, 0, count);
    for option in options {
        at = put_entry(&mut docket, at, option);
    }
    docket
}

/// The length of a docket written into a lent buffer, and the fill beside it.
#[derive(Clone, Copy, Debug, PartialEq, Eq)]
pub struct Listing {
    pub length: usize,
    pub fill: usize,
}

/// Lists a reading of `payload` as a docket; refusal 8 if the buffer is too
/// small, which leaves it alone.
pub fn list_options(payload: &[u8], reading: &Reading, buffer: &mut [u8]) -> Result<Listing, u32> {
    list(reading.options(payload), reading.fill, buffer)
}

/// Lists a rereading of `original` the same way.
pub fn list_reread(
    original: &[u8],
    rereading: &Rereading,
    buffer: &mut [u8],
) -> Result<Listing, u32> {
    list(rereading.options(original), rereading.fill, buffer)
}

fn list(options: Options, fill: usize, buffer: &mut [u8]) -> Result<Listing, u32> {
    // A docket says nothing of where an option stood.
    let options = options.take(OPTIONS_MOST);
    let mut count = 0;
    let mut length = 1; // a count of at most 32
    for located in options.clone() {
        count += 1;
        length += entry_length(&located.option);
    }
    if length > buffer.len() {
        return Err(8);
    }
    let mut at = put_number(buffer, 0, count);
    for located in options {
        at = put_entry(buffer, at, &located.option);
    }
    Ok(Listing { length, fill })
}

//! Encoded option lists: listing a reading, and looking into a list.

use crate::ffi;
use crate::reading::{Reading, Rereading};
use crate::refusal::Refusal;

/// What was listed.
#[derive(Clone, Copy, Debug, PartialEq, Eq)]
pub struct Listing {
    /// Bytes of the list, at the front of the buffer.
    pub size: usize,
    /// The fill behind the options on the wire.
    pub fill: usize,
}

/// Lists the options of a reading as an encoded option list at the front of
/// `buffer`; `payload` is what was read. Refusal 8 leaves the buffer as it
/// was. A reading that was made up gives a list without options where its
/// range does not hold a sound option list.
pub fn list(payload: &[u8], reading: &Reading, buffer: &mut [u8]) -> Result<Listing, Refusal> {
    let options = ffi::Extent {
        from: reading.options.start,
        to: reading.options.end,
    };
    listing(ffi::list(
        payload,
        reading.verdict.number(),
        options,
        buffer,
    ))
}

/// Lists the options of a rereading in the same way.
///
/// ```
/// use wuraketozo::{entries, relist, reread, Entry, Place, Strictness, Value};
/// let original = [0, 0, 6, 6, 0, 0, 1, 0x2C, 0];
/// let rereading = reread(&original, Place(0), Strictness::Plain)?;
/// let mut buffer = [0; 64];
/// let listing = relist(&original, &rereading, &mut buffer)?;
/// assert_eq!(buffer[..listing.size], [1, 6, 0xAC, 2]);
/// assert_eq!(listing.fill, 1);
/// let mut options = entries(&buffer[..listing.size]);
/// assert_eq!(options.next(), Some(Entry { kind: 6, value: Value::One(300) }));
/// assert_eq!(options.next(), None);
/// # Ok::<(), wuraketozo::Refusal>(())
/// ```
pub fn relist(
    original: &[u8],
    rereading: &Rereading,
    buffer: &mut [u8],
) -> Result<Listing, Refusal> {
    let options = ffi::OriginalExtent {
        from: rereading.options.start,
        to: rereading.options.end,
    };
    listing(ffi::relist(
        original,
        rereading.verdict.number(),
        options,
        buffer,
    ))
}

fn listing(raw: ffi::Listing) -> Result<Listing, Refusal> {
    if raw.refusal != 0 {
        return Err(Refusal::of(raw.refusal));
    }
    Ok(Listing {
        size: raw.size,
        fill: raw.fill,
    })
}

/// The fields of a listed option.
#[derive(Clone, Copy, Debug, PartialEq, Eq)]
pub enum Value<'a> {
    /// APC: whether it fits is in the reading.
    None,
    /// MDS, REQ, RES.
    One(u32),
    /// MRDS, TIME.
    Two(u32, u32),
    /// Kinds 9 to 191.
    Body(&'a [u8]),
}

/// A listed option.
#[derive(Clone, Copy, Debug, PartialEq, Eq)]
pub struct Entry<'a> {
    /// Its kind on the wire.
    pub kind: u8,
    /// Its fields.
    pub value: Value<'a>,
}

/// The options of a list that [`list`] or [`relist`] wrote, in order. This is plain Rust
/// for a host's convenience and not part of what is proved; it ends early at
/// bytes that no list has.
#[derive(Clone, Debug)]
pub struct Entries<'a> {
    rest: &'a [u8],
    left: u64,
}

/// The options of a list that [`list`] wrote.
pub fn entries(list: &[u8]) -> Entries<'_> {
    let mut entries = Entries {
        rest: list,
        left: 0,
    };
    entries.left = entries.number().unwrap_or(0);
    entries
}

impl<'a> Entries<'a> {
    /// A number: groups of seven bits, the lowest first.
    fn number(&mut self) -> Option<u64> {
        let mut value = 0;
        for (index, &byte) in self.rest.iter().take(5).enumerate() {
            value |= u64::from(byte & 0x7F) << (7 * index);
            if byte & 0x80 == 0 {
                self.rest = self.rest.get(index + 1..)?;
                return Some(value);
            }
        }
        None
    }

    fn field(&mut self) -> Option<u32> {
        u32::try_from(self.number()?).ok()
    }

    fn body(&mut self) -> Option<&'a [u8]> {
        let length = usize::try_from(self.number()?).ok()?;
        let (body, rest) = self.rest.split_at_checked(length)?;
        self.rest = rest;
        Some(body)
    }

    fn entry(&mut self) -> Option<Entry<'a>> {
        let kind = u8::try_from(self.number()?).ok()?;
        let value = match kind {
            2 => Value::None,
            4 | 6 | 7 => Value::One(self.field()?),
            5 | 8 => Value::Two(self.field()?, self.field()?),
            9..=191 => Value::Body(self.body()?),
            _ => return None,
        };
        Some(Entry { kind, value })
    }
}

impl<'a> Iterator for Entries<'a> {
    type Item = Entry<'a>;

    fn next(&mut self) -> Option<Entry<'a>> {
        self.left = self.left.checked_sub(1)?;
        let entry = self.entry();
        if entry.is_none() {
            self.left = 0;
        }
        entry
    }
}

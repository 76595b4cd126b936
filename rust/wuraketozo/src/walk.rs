//! The options of a reading one by one, each where it stands.

use crate::ffi;
use crate::reading::{PacketOffset, Reading, Rereading};
use core::iter::FusedIterator;

/// An option where it stands.
#[derive(Clone, Copy, Debug, PartialEq, Eq)]
pub struct Located<'a> {
    /// Its kind on the wire.
    pub kind: u8,
    /// Where its kind byte stands.
    pub offset: PacketOffset,
    /// Its fields or body, as they are on the wire: all that stands behind its
    /// length.
    pub body: &'a [u8],
}

impl<'a> Located<'a> {
    /// What the library found. A kind that is no byte, or a body that is not
    /// there, is no answer of the library that this crate is for.
    #[inline]
    fn of(kind: u32, offset: PacketOffset, body: Option<&'a [u8]>) -> Option<Located<'a>> {
        Some(Located {
            kind: u8::try_from(kind).ok()?,
            offset,
            body: body?,
        })
    }
}

/// The options of a payload, from [`walk`].
#[derive(Clone, Debug)]
pub struct Walk<'a> {
    payload: &'a [u8],
    verdict: u32,
    rest: ffi::Extent,
}

/// The options of a reading in order, each once, as they stand in the payload
/// that was read; none unless the verdict is `Read`. NOPs are left out. With a
/// reading that was made up, or another payload, it is what stands there as long
/// as it has the form of an option.
///
/// ```
/// use wuraketozo::{read, walk, Located, PacketOffset, Strictness};
/// // Ports 4660 and 53, UDP length 8, checksum; option checksum, REQ 300 at 10.
/// let payload = [
///     0x12, 0x34, 0x00, 0x35, 0x00, 0x08, 0x01, 0x39, //
///     0xF8, 0xC5, 0x06, 0x06, 0x00, 0x00, 0x01, 0x2C,
/// ];
/// let (source, destination) = ([192, 0, 2, 1], [198, 51, 100, 7]);
/// let reading = read(&payload, source, destination, Strictness::Plain)?;
/// let mut options = walk(&payload, &reading);
/// let token = Located { kind: 6, offset: PacketOffset(10), body: &[0, 0, 1, 0x2C] };
/// assert_eq!(options.next(), Some(token));
/// assert_eq!(options.next(), None);
/// # Ok::<(), wuraketozo::Refusal>(())
/// ```
#[inline]
pub fn walk<'a>(payload: &'a [u8], reading: &Reading) -> Walk<'a> {
    Walk {
        payload,
        verdict: reading.verdict.number(),
        rest: ffi::Extent {
            from: reading.options.start,
            to: reading.options.end,
        },
    }
}

impl<'a> Iterator for Walk<'a> {
    type Item = Located<'a>;

    #[inline]
    fn next(&mut self) -> Option<Located<'a>> {
        let raw = ffi::next(self.payload, self.verdict, self.rest);
        if raw.found == 0 {
            return None;
        }
        let body = self.payload.get(raw.body.from..raw.body.to);
        let located = Located::of(raw.kind, raw.offset, body)?;
        self.rest.from = raw.body.to;
        Some(located)
    }
}

impl FusedIterator for Walk<'_> {}

/// The options of an original, from [`rewalk`].
#[derive(Clone, Debug)]
pub struct Rewalk<'a> {
    original: &'a [u8],
    verdict: u32,
    rest: ffi::OriginalExtent,
}

/// The options of a rereading in the same way. An offset is 8 plus the place in
/// the original.
///
/// ```
/// use wuraketozo::{reread, rewalk, Located, PacketOffset, Place, Strictness};
/// // "ok", no option checksum, a NOP, kind 9 without a body at place 5, REQ 300.
/// let original = [b'o', b'k', 0, 0, 1, 9, 2, 6, 6, 0, 0, 1, 0x2C];
/// let rereading = reread(&original, Place(2), Strictness::Plain)?;
/// let mut options = rewalk(&original, &rereading);
/// let empty = Located { kind: 9, offset: PacketOffset(13), body: &[] };
/// assert_eq!(options.next(), Some(empty));
/// let token = Located { kind: 6, offset: PacketOffset(15), body: &[0, 0, 1, 0x2C] };
/// assert_eq!(options.next(), Some(token));
/// assert_eq!(options.next(), None);
/// # Ok::<(), wuraketozo::Refusal>(())
/// ```
#[inline]
pub fn rewalk<'a>(original: &'a [u8], rereading: &Rereading) -> Rewalk<'a> {
    Rewalk {
        original,
        verdict: rereading.verdict.number(),
        rest: ffi::OriginalExtent {
            from: rereading.options.start,
            to: rereading.options.end,
        },
    }
}

impl<'a> Iterator for Rewalk<'a> {
    type Item = Located<'a>;

    #[inline]
    fn next(&mut self) -> Option<Located<'a>> {
        let raw = ffi::renext(self.original, self.verdict, self.rest);
        if raw.found == 0 {
            return None;
        }
        let body = self.original.get(raw.body.from.0..raw.body.to.0);
        let located = Located::of(raw.kind, raw.offset, body)?;
        self.rest.from = raw.body.to;
        Some(located)
    }
}

impl FusedIterator for Rewalk<'_> {}

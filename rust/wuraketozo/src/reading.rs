//! Reading a payload, or an original again.

use crate::ffi;
use crate::record::Place;
use crate::refusal::Refusal;
use core::fmt;
use core::ops::Range;

/// A count of bytes from the UDP header: where an option or a fault stands. In
/// an original, which was put together from fragments, it is 8 plus the
/// [`Place`], as in a datagram of one piece.
#[repr(transparent)]
#[derive(Clone, Copy, Debug, Default, PartialEq, Eq, PartialOrd, Ord, Hash)]
pub struct PacketOffset(pub usize);

impl fmt::Display for PacketOffset {
    fn fmt(&self, f: &mut fmt::Formatter<'_>) -> fmt::Result {
        self.0.fmt(f)
    }
}

/// How NOPs are read, chosen for each call that reads. An answer of strict
/// reading that is not [`Verdict::Padded`] is the answer of plain reading too.
///
/// RFC 9868 (section 11.2) says that packets should not have more than seven
/// NOPs in a row, and that a receiver which keeps meeting more should log it as
/// a possible attack. A host that wants to go by that reads strictly and logs
/// `Padded`.
///
/// ```
/// use wuraketozo::{read, PacketOffset, Strictness, Verdict};
/// // UDP length 8, no checksums, eight NOPs from offset 10 on.
/// let payload = [0x12, 0x34, 0, 53, 0, 8, 0, 0, 0, 0, 1, 1, 1, 1, 1, 1, 1, 1];
/// let verdict = |payload: &[u8], strictness| {
///     let reading = read(payload, [192, 0, 2, 1], [198, 51, 100, 7], strictness)?;
///     Ok(reading.verdict)
/// };
/// assert_eq!(verdict(&payload, Strictness::Plain)?, Verdict::Read);
/// let eighth = PacketOffset(17);
/// assert_eq!(verdict(&payload, Strictness::Strict)?, Verdict::Padded(eighth));
/// assert_eq!(verdict(&payload[..17], Strictness::Strict)?, Verdict::Read);
/// # Ok::<(), wuraketozo::Refusal>(())
/// ```
#[derive(Clone, Copy, Debug, Default, PartialEq, Eq)]
pub enum Strictness {
    /// Any number of NOPs is skipped.
    #[default]
    Plain,
    /// The eighth NOP in a row gives `Padded`. Seven are fine, and any other
    /// option starts the count again.
    Strict,
}

impl Strictness {
    /// The number in the header.
    pub const fn number(self) -> u32 {
        match self {
            Strictness::Plain => 0,
            Strictness::Strict => 1,
        }
    }
}

/// What a fragment's datagram says of it.
#[derive(Clone, Debug, PartialEq, Eq)]
pub struct Fragment {
    /// Which original it belongs to, within its flow.
    pub identification: u32,
    /// Where it stands in the original.
    pub place: Place,
    /// Its bytes, in the payload that was read.
    pub bytes: Range<usize>,
    /// Whether it is the original's last.
    pub last: bool,
    /// Of the last fragment: where the original's options start.
    pub option_start: Place,
}

/// The verdict on the surplus area, which is what stands behind the user
/// data. With every verdict but `Piece` the user data is to be delivered.
///
/// A fault in the option list has the offset where it was met, to be looked up in
/// a packet trace.
///
/// ```
/// use wuraketozo::{read, PacketOffset, Strictness, Verdict};
/// // UDP length 8, no checksums; REQ 300 at 10, then a REQ of 5 bytes at 16.
/// let payload = [
///     0x12, 0x34, 0, 53, 0, 8, 0, 0, 0, 0, //
///     6, 6, 0, 0, 1, 0x2C, 6, 5, 0, 0, 0,
/// ];
/// let (source, destination) = ([192, 0, 2, 1], [198, 51, 100, 7]);
/// let verdict = read(&payload, source, destination, Strictness::Plain)?.verdict;
/// assert_eq!(verdict, Verdict::Malformed(PacketOffset(16)));
/// assert_eq!(verdict.fault_at(), Some(PacketOffset(16)));
/// # Ok::<(), wuraketozo::Refusal>(())
/// ```
#[derive(Clone, Debug, PartialEq, Eq)]
pub enum Verdict {
    /// "none": there is no surplus area.
    Bare,
    /// It has no room for the option checksum.
    Short,
    /// The pad byte is not zero.
    Pad,
    /// There is a UDP checksum, and no option checksum.
    Unsummed,
    /// The option checksum is wrong.
    BadSum,
    /// An option breaks the rules of the format: at its kind byte. So does a
    /// fragment's option in a wrong place.
    Malformed(PacketOffset),
    /// There is an option of kind 192 to 255: at its kind byte.
    Unsafe(PacketOffset),
    /// A fragment's option beside user data: at its kind byte.
    FragData(PacketOffset),
    /// More than 32 options: at the 33rd one's kind byte.
    Crowded(PacketOffset),
    /// The options are read.
    Read,
    /// A fragment of a larger original.
    Piece(Fragment),
    /// A byte behind EOL is not zero: at the first one. A datagram led by a
    /// fragment's option is no fragment then.
    Tail(PacketOffset),
    /// In strict reading only: eight NOPs in a row, at the eighth. A datagram
    /// led by a fragment's option is no fragment then.
    Padded(PacketOffset),
}

impl Verdict {
    /// The word in the documents and in the output of `program_inspect`.
    pub const fn word(&self) -> &'static str {
        match self {
            Verdict::Bare => "none",
            Verdict::Short => "short",
            Verdict::Pad => "pad",
            Verdict::Unsummed => "unsummed",
            Verdict::BadSum => "badsum",
            Verdict::Malformed(_) => "malformed",
            Verdict::Unsafe(_) => "unsafe",
            Verdict::FragData(_) => "fragdata",
            Verdict::Crowded(_) => "crowded",
            Verdict::Read => "read",
            Verdict::Piece(_) => "piece",
            Verdict::Tail(_) => "tail",
            Verdict::Padded(_) => "padded",
        }
    }

    /// The number in the header.
    pub const fn number(&self) -> u32 {
        match self {
            Verdict::Bare => 0,
            Verdict::Short => 1,
            Verdict::Pad => 2,
            Verdict::Unsummed => 3,
            Verdict::BadSum => 4,
            Verdict::Malformed(_) => 5,
            Verdict::Unsafe(_) => 6,
            Verdict::FragData(_) => 7,
            Verdict::Crowded(_) => 8,
            Verdict::Read => 9,
            Verdict::Piece(_) => 10,
            Verdict::Tail(_) => 11,
            Verdict::Padded(_) => 12,
        }
    }

    /// Where the fault was met, if it is one in the option list.
    pub const fn fault_at(&self) -> Option<PacketOffset> {
        match self {
            Verdict::Malformed(at)
            | Verdict::Unsafe(at)
            | Verdict::FragData(at)
            | Verdict::Crowded(at)
            | Verdict::Tail(at)
            | Verdict::Padded(at) => Some(*at),
            Verdict::Bare
            | Verdict::Short
            | Verdict::Pad
            | Verdict::Unsummed
            | Verdict::BadSum
            | Verdict::Read
            | Verdict::Piece(_) => None,
        }
    }

    /// The verdict of a number; a fault has the offset, a piece the fragment.
    #[inline]
    fn of(
        number: u32,
        at: PacketOffset,
        fragment: impl FnOnce() -> Option<Fragment>,
    ) -> Result<Verdict, Refusal> {
        Ok(match number {
            0 => Verdict::Bare,
            1 => Verdict::Short,
            2 => Verdict::Pad,
            3 => Verdict::Unsummed,
            4 => Verdict::BadSum,
            5 => Verdict::Malformed(at),
            6 => Verdict::Unsafe(at),
            7 => Verdict::FragData(at),
            8 => Verdict::Crowded(at),
            9 => Verdict::Read,
            10 => Verdict::Piece(fragment().ok_or(Refusal::Unknown)?),
            11 => Verdict::Tail(at),
            12 => Verdict::Padded(at),
            _ => return Err(Refusal::Unknown),
        })
    }
}

/// What the APC options say of the user data.
#[derive(Clone, Copy, Debug, PartialEq, Eq)]
pub enum Apc {
    /// There is none.
    None,
    /// All of them fit.
    Right,
    /// One of them does not fit.
    Wrong,
}

impl Apc {
    #[inline]
    fn of(number: u32) -> Result<Apc, Refusal> {
        Ok(match number {
            0 => Apc::None,
            1 => Apc::Right,
            2 => Apc::Wrong,
            _ => return Err(Refusal::Unknown),
        })
    }
}

/// A payload that was not refused. The ranges are offsets in the payload.
#[derive(Clone, Debug, PartialEq, Eq)]
pub struct Reading {
    /// The user data.
    pub user: Range<usize>,
    /// The verdict on what stands behind it.
    pub verdict: Verdict,
    /// The option list with its fill, empty unless the verdict is `Read`.
    pub options: Range<usize>,
    /// Options in it.
    pub count: usize,
    /// Zero bytes from EOL to the end.
    pub fill: usize,
    /// What the APC options say.
    pub apc: Apc,
}

impl Reading {
    /// The user data of the payload that was read.
    pub fn user_data<'a>(&self, payload: &'a [u8]) -> &'a [u8] {
        payload.get(self.user.clone()).unwrap_or(&[])
    }

    #[inline]
    pub(crate) fn of(raw: ffi::Reading) -> Result<Reading, Refusal> {
        if raw.refusal != 0 {
            return Err(Refusal::of(raw.refusal));
        }
        let fragment = || {
            Some(Fragment {
                identification: raw.identification,
                place: raw.place,
                bytes: raw.part.from..raw.part.to,
                last: raw.last != 0,
                option_start: raw.option_start,
            })
        };
        Ok(Reading {
            user: raw.user.from..raw.user.to,
            verdict: Verdict::of(raw.verdict, raw.fault_at, fragment)?,
            options: raw.options.from..raw.options.to,
            count: raw.count,
            fill: raw.fill,
            apc: Apc::of(raw.apc)?,
        })
    }
}

/// An original that was not refused. The ranges are places in the original; the
/// offset of a fault is 8 plus the place. Its verdict is never `Piece`.
#[derive(Clone, Debug, PartialEq, Eq)]
pub struct Rereading {
    /// The user data.
    pub user: Range<Place>,
    /// The verdict on what stands behind it.
    pub verdict: Verdict,
    /// The option list with its fill, empty unless the verdict is `Read`.
    pub options: Range<Place>,
    /// Options in it.
    pub count: usize,
    /// Zero bytes from EOL to the end.
    pub fill: usize,
    /// What the APC options say.
    pub apc: Apc,
}

impl Rereading {
    /// The user data of the original that was read.
    pub fn user_data<'a>(&self, original: &'a [u8]) -> &'a [u8] {
        let Range { start, end } = self.user;
        original.get(start.0..end.0).unwrap_or(&[])
    }

    #[inline]
    fn of(raw: ffi::Rereading) -> Result<Rereading, Refusal> {
        if raw.refusal != 0 {
            return Err(Refusal::of(raw.refusal));
        }
        Ok(Rereading {
            user: raw.user.from..raw.user.to,
            verdict: Verdict::of(raw.verdict, raw.fault_at, || None)?,
            options: raw.options.from..raw.options.to,
            count: raw.count,
            fill: raw.fill,
            apc: Apc::of(raw.apc)?,
        })
    }
}

/// Reads one IPv4 UDP payload. Refusals 1 to 4.
///
/// ```
/// use wuraketozo::{read, Strictness, Verdict};
/// // Ports 4660 and 53, UDP length 8, checksum; option checksum, REQ 300.
/// let payload = [
///     0x12, 0x34, 0x00, 0x35, 0x00, 0x08, 0x01, 0x39, //
///     0xF8, 0xC5, 0x06, 0x06, 0x00, 0x00, 0x01, 0x2C,
/// ];
/// let (source, destination) = ([192, 0, 2, 1], [198, 51, 100, 7]);
/// let reading = read(&payload, source, destination, Strictness::Plain)?;
/// assert_eq!(reading.verdict, Verdict::Read);
/// assert_eq!(reading.options, 10..16);
/// assert_eq!(reading.count, 1);
/// # Ok::<(), wuraketozo::Refusal>(())
/// ```
#[inline]
pub fn read(
    payload: &[u8],
    source: [u8; 4],
    destination: [u8; 4],
    strictness: Strictness,
) -> Result<Reading, Refusal> {
    Reading::of(ffi::read(payload, source, destination, strictness.number()))
}

/// Reads an original again that was put together from fragments. Refusals
/// 2, 6 and 5; with 5 nothing of it is to be delivered. In strict reading an
/// unsafe option behind eight NOPs in a row is not met: that is `Padded`.
///
/// ```
/// use wuraketozo::{reread, PacketOffset, Place, Refusal, Strictness, Verdict};
/// // "ok", then the option checksum 0 (none) and REQ 300.
/// let original = [b'o', b'k', 0, 0, 6, 6, 0, 0, 1, 0x2C];
/// let rereading = reread(&original, Place(2), Strictness::Plain)?;
/// assert_eq!(rereading.user_data(&original), b"ok");
/// assert_eq!(rereading.verdict, Verdict::Read);
/// let past = reread(&original, Place(11), Strictness::Plain);
/// assert_eq!(past, Err(Refusal::OptionStartPastOriginal));
/// // Without the token's last byte REQ is malformed. Its place is 4.
/// let cut = reread(&original[..9], Place(2), Strictness::Plain)?;
/// assert_eq!(cut.verdict, Verdict::Malformed(PacketOffset(12)));
/// # Ok::<(), Refusal>(())
/// ```
#[inline]
pub fn reread(
    original: &[u8],
    option_start: Place,
    strictness: Strictness,
) -> Result<Rereading, Refusal> {
    Rereading::of(ffi::reread(original, option_start, strictness.number()))
}

#[cfg(test)]
pub(crate) mod tests {
    use super::{Fragment, PacketOffset, Verdict};
    use crate::{Place, Refusal};

    /// The verdict of each number, from 0 on until there is none.
    pub(crate) fn verdicts() -> Vec<Verdict> {
        let fragment = || {
            Some(Fragment {
                identification: 7,
                place: Place(0),
                bytes: 20..22,
                last: false,
                option_start: Place(0),
            })
        };
        let verdict = |number| Verdict::of(number, PacketOffset(12), fragment).ok();
        (0..).map_while(verdict).collect()
    }

    #[test]
    fn numbers_and_words() {
        let verdicts = verdicts();
        let numbers: Vec<u32> = verdicts.iter().map(Verdict::number).collect();
        let words: Vec<&str> = verdicts.iter().map(Verdict::word).collect();
        assert_eq!(numbers, [0, 1, 2, 3, 4, 5, 6, 7, 8, 9, 10, 11, 12]);
        assert_eq!(
            words.join(" "),
            "none short pad unsummed badsum malformed unsafe fragdata crowded read piece tail padded"
        );
        let at = PacketOffset(12);
        assert_eq!(Verdict::of(10, at, || None), Err(Refusal::Unknown));
    }

    #[test]
    fn faults_have_the_offset() {
        let with = |verdict: &Verdict| verdict.fault_at() == Some(PacketOffset(12));
        let verdicts = verdicts();
        let (faults, others): (Vec<_>, Vec<_>) = verdicts.into_iter().partition(with);
        let numbers: Vec<u32> = faults.iter().map(Verdict::number).collect();
        assert_eq!(numbers, [5, 6, 7, 8, 11, 12]);
        assert!(others.iter().all(|verdict| verdict.fault_at().is_none()));
        assert_eq!(PacketOffset(12).to_string(), "12");
    }
}

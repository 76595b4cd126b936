//! "Reading one IPv4 payload" and "Walking the list".

use crate::checksum;
use crate::crc::crc32c;

/// The longest payload that is read (refusal 2).
pub const PAYLOAD_MOST: usize = 65_515;
/// The longest original that is read again (refusal 2).
pub const ORIGINAL_MOST: usize = 65_507;
/// The most options besides NOP and EOL; one more is "crowded".
pub const OPTIONS_MOST: usize = 32;

/// How NOPs are read, as the host chooses for each reading (document 02, R-6).
#[derive(Clone, Copy, Debug, Default, PartialEq, Eq)]
pub enum Strictness {
    /// Any number of NOPs is skipped.
    #[default]
    Plain,
    /// The eighth NOP in a row gives "padded".
    Strict,
}

/// A count of bytes from the UDP header, of a byte that is named by itself. In
/// an original, which has none, it is 8 plus the place (document 02, R-7).
#[derive(Clone, Copy, Debug, PartialEq, Eq, PartialOrd, Ord)]
pub struct PacketOffset(pub usize);

/// From `from` up to, not including, `to`.
#[derive(Clone, Copy, Debug, PartialEq, Eq)]
pub struct Range {
    pub from: usize,
    pub to: usize,
}

/// What a piece carries besides its verdict.
#[derive(Clone, Copy, Debug, PartialEq, Eq)]
pub struct Fragment {
    pub identification: u32,
    /// Counted from the original's first user byte.
    pub place: usize,
    /// Packet offsets of the piece's bytes, from this UDP header.
    pub from: usize,
    pub to: usize,
    pub last: bool,
    /// r, a place in the original; 0 unless `last`.
    pub option_start: usize,
}

/// The verdict on the area. A fault of the walk has the offset where it was met.
#[derive(Clone, Copy, Debug, PartialEq, Eq)]
pub enum Verdict {
    None,
    Short,
    Pad,
    Unsummed,
    BadSum,
    /// The faulty option's kind byte.
    Malformed(PacketOffset),
    /// That kind byte.
    Unsafe(PacketOffset),
    /// FRAG's kind byte.
    FragData(PacketOffset),
    /// The 33rd option's kind byte.
    Crowded(PacketOffset),
    /// The first byte behind EOL that is not zero.
    Tail(PacketOffset),
    /// In strict reading alone. The eighth NOP.
    Padded(PacketOffset),
    Read,
    Piece(Fragment),
}

impl Verdict {
    /// The verdict's word in the paper and in the program's text.
    pub fn word(&self) -> &'static str {
        match self {
            Verdict::None => "none",
            Verdict::Short => "short",
            Verdict::Pad => "pad",
            Verdict::Unsummed => "unsummed",
            Verdict::BadSum => "badsum",
            Verdict::Malformed(_) => "malformed",
            Verdict::Unsafe(_) => "unsafe",
            Verdict::FragData(_) => "fragdata",
            Verdict::Crowded(_) => "crowded",
            Verdict::Tail(_) => "tail",
            Verdict::Padded(_) => "padded",
            Verdict::Read => "read",
            Verdict::Piece(_) => "piece",
        }
    }

    /// Where the fault was met, if it is one of the walk.
    pub fn fault_at(&self) -> Option<PacketOffset> {
        match *self {
            Verdict::Malformed(at)
            | Verdict::Unsafe(at)
            | Verdict::FragData(at)
            | Verdict::Crowded(at)
            | Verdict::Tail(at)
            | Verdict::Padded(at) => Some(at),
            _ => None,
        }
    }
}

/// Whether the APC options, if any, fit the user data.
#[derive(Clone, Copy, Debug, PartialEq, Eq)]
pub enum Apc {
    None,
    Right,
    Wrong,
}

/// The fields of an option. In a reading APC has its CRC; in a docket none.
#[derive(Clone, Copy, Debug, PartialEq, Eq)]
pub enum Fields<'a> {
    None,
    One(u32),
    Two(u32, u32),
    Body(&'a [u8]),
}

/// One option of a reading or of a docket.
#[derive(Clone, Copy, Debug, PartialEq, Eq)]
pub struct ReadOption<'a> {
    pub kind: u8,
    pub fields: Fields<'a>,
}

/// An option that was read, and where its kind byte stands.
#[derive(Clone, Copy, Debug, PartialEq, Eq)]
pub struct Located<'a> {
    pub offset: PacketOffset,
    pub option: ReadOption<'a>,
}

/// A payload that was not refused. All numbers are packet offsets.
#[derive(Clone, Copy, Debug, PartialEq, Eq)]
pub struct Reading {
    /// 8 to L.
    pub user: Range,
    pub verdict: Verdict,
    /// Behind the option checksum to the payload's end, fill included;
    /// 0 to 0 unless the verdict is "read".
    pub options_from: usize,
    pub options_to: usize,
    /// Options to report.
    pub count: usize,
    /// From EOL to the end, 0 without EOL.
    pub fill: usize,
    pub apc: Apc,
}

/// A reassembled original that was not refused. All numbers are places, but
/// for the verdict's offset.
#[derive(Clone, Copy, Debug, PartialEq, Eq)]
pub struct Rereading {
    /// 0 to r.
    pub user: Range,
    /// Never `Unsafe` (refusal 5), `Unsummed`, `FragData` or `Piece`.
    pub verdict: Verdict,
    pub options_from: usize,
    pub options_to: usize,
    pub count: usize,
    pub fill: usize,
    pub apc: Apc,
}

impl Reading {
    /// The options to report, in order. `payload` is the one that was read.
    pub fn options<'a>(&self, payload: &'a [u8]) -> Options<'a> {
        Options::over(payload, self.options_from, self.options_to, Carrier::Packet)
    }
}

impl Rereading {
    /// The options to report, in order. `original` is the one that was read.
    pub fn options<'a>(&self, original: &'a [u8]) -> Options<'a> {
        Options::over(
            original,
            self.options_from,
            self.options_to,
            Carrier::Original,
        )
    }
}

/// Reads one IPv4 payload: the reading, or refusal 1 to 4.
pub fn read(
    payload: &[u8],
    source: [u8; 4],
    destination: [u8; 4],
    strictness: Strictness,
) -> Result<Reading, u32> {
    if payload.len() < 8 {
        return Err(1);
    }
    if payload.len() > PAYLOAD_MOST {
        return Err(2);
    }
    let length = number16(payload, 4);
    if length < 8 || length > payload.len() {
        return Err(3);
    }
    let summed = number16(payload, 6) != 0;
    if summed && checksum::udp_sum(source, destination, &payload[..length]) != 0xFFFF {
        return Err(4);
    }
    let user = Range {
        from: 8,
        to: length,
    };
    let examined = examine(payload, user, summed, Carrier::Packet, strictness);
    Ok(Reading {
        user,
        verdict: examined.verdict,
        options_from: examined.from,
        options_to: examined.to,
        count: examined.count,
        fill: examined.fill,
        apc: examined.apc,
    })
}

/// Reads a reassembled original with option start `r`: the reading, or
/// refusal 2, 6 or 5 ("Walking the list", last paragraph).
pub fn reread(original: &[u8], r: usize, strictness: Strictness) -> Result<Rereading, u32> {
    if original.len() > ORIGINAL_MOST {
        return Err(2);
    }
    if r > original.len() {
        return Err(6);
    }
    let user = Range { from: 0, to: r };
    // The UDP checksum is taken as zero.
    let examined = examine(original, user, false, Carrier::Original, strictness);
    if let Verdict::Unsafe(_) = examined.verdict {
        return Err(5);
    }
    Ok(Rereading {
        user,
        verdict: examined.verdict,
        options_from: examined.from,
        options_to: examined.to,
        count: examined.count,
        fill: examined.fill,
        apc: examined.apc,
    })
}

/// What the area stands in: FRAG may stand in a packet's alone.
#[derive(Clone, Copy, Debug, PartialEq, Eq)]
enum Carrier {
    Packet,
    Original,
}

impl Carrier {
    /// The offset of the byte with this index: in an original that is a place.
    #[inline]
    fn offset(self, index: usize) -> PacketOffset {
        match self {
            Carrier::Packet => PacketOffset(index),
            Carrier::Original => PacketOffset(8 + index),
        }
    }
}

/// What is found out about an area.
struct Examined {
    verdict: Verdict,
    from: usize,
    to: usize,
    count: usize,
    fill: usize,
    apc: Apc,
}

impl Examined {
    /// With any verdict but "read" no option is reported and APC is none.
    fn only(verdict: Verdict) -> Self {
        Examined {
            verdict,
            from: 0,
            to: 0,
            count: 0,
            fill: 0,
            apc: Apc::None,
        }
    }
}

/// The verdict on the area `user.to` to the end. The original's user data
/// starts 8 bytes behind its header, so both carriers have the same parity.
#[inline(always)]
fn examine(
    bytes: &[u8],
    user: Range,
    summed: bool,
    carrier: Carrier,
    strictness: Strictness,
) -> Examined {
    let area = &bytes[user.to..];
    if area.is_empty() {
        return Examined::only(Verdict::None);
    }
    let pad = user.to % 2;
    if area.len() < pad + 2 {
        return Examined::only(Verdict::Short);
    }
    if pad == 1 && area[0] != 0 {
        return Examined::only(Verdict::Pad);
    }
    let option_sum = number16(area, pad);
    if option_sum == 0 {
        if summed {
            return Examined::only(Verdict::Unsummed);
        }
    } else if checksum::area_sum(area, pad == 1) != 0xFFFF {
        return Examined::only(Verdict::BadSum);
    }
    let from = user.to + pad + 2;
    walk(bytes, user, from, carrier, strictness).unwrap_or_else(Examined::only)
}

/// The walk from `from`, behind the option checksum; or its fault, or a piece.
#[inline(always)]
fn walk(
    bytes: &[u8],
    user: Range,
    from: usize,
    carrier: Carrier,
    strictness: Strictness,
) -> Result<Examined, Verdict> {
    let padded = |index| Verdict::Padded(carrier.offset(index));
    let first = skip_nops(bytes, from, strictness).map_err(padded)?;
    // FRAG must be first, and never stands in an original.
    if carrier == Carrier::Packet && bytes.get(first) == Some(&3) {
        return Err(walk_piece(bytes, user, first, strictness));
    }
    let list = walk_list(bytes, first, 0, carrier, strictness)?;
    let apc = match list.crc {
        None => Apc::None,
        // Two different fields can't both be right.
        Some(_) if list.crcs_differ => Apc::Wrong,
        Some(field) if field == crc32c(&bytes[user.from..user.to]) => Apc::Right,
        Some(_) => Apc::Wrong,
    };
    Ok(Examined {
        verdict: Verdict::Read,
        from,
        to: bytes.len(),
        count: list.count,
        fill: list.fill,
        apc,
    })
}

/// The verdict on a packet's list that starts with FRAG, at `at`.
fn walk_piece(bytes: &[u8], user: Range, at: usize, strictness: Strictness) -> Verdict {
    let Step::Sound { next, .. } = step(bytes, at) else {
        return Verdict::Malformed(PacketOffset(at));
    };
    let Some(found) = frag(bytes, at, next) else {
        return Verdict::Malformed(PacketOffset(at));
    };
    if user.to > user.from {
        return Verdict::FragData(PacketOffset(at));
    }
    // The list ends at Frag. Start.
    let list = &bytes[..found.from];
    match walk_list(list, next, 1, Carrier::Packet, strictness) {
        Ok(_) => Verdict::Piece(found),
        Err(verdict) => verdict,
    }
}

/// What is found out about a list without fault.
struct List {
    count: usize,
    fill: usize,
    /// The first APC's field.
    crc: Option<u32>,
    crcs_differ: bool,
}

/// Walks the list from `at` on, where `count` options and no NOP stand right
/// before and FRAG may not come; or the fault met first.
#[inline(always)]
fn walk_list(
    list: &[u8],
    mut at: usize,
    mut count: usize,
    carrier: Carrier,
    strictness: Strictness,
) -> Result<List, Verdict> {
    let mut fill = 0;
    let mut crc = None;
    let mut crcs_differ = false;
    loop {
        match step(list, at) {
            Step::End => break,
            Step::Eol => {
                // Document 02, R-2: what stands behind EOL must be zero.
                let behind = &list[at + 1..];
                if !all_zero(behind) {
                    let bad = at + 1 + leading_zeros(behind);
                    return Err(Verdict::Tail(carrier.offset(bad)));
                }
                fill = list.len() - at;
                break;
            }
            Step::Nop => {
                let padded = |index| Verdict::Padded(carrier.offset(index));
                at = skip_nops(list, at, strictness).map_err(padded)?;
            }
            Step::Unsafe => return Err(Verdict::Unsafe(carrier.offset(at))),
            Step::Malformed | Step::Sound { kind: 3, .. } => {
                return Err(Verdict::Malformed(carrier.offset(at)))
            }
            Step::Sound { kind, body, next } => {
                if count == OPTIONS_MOST {
                    return Err(Verdict::Crowded(carrier.offset(at)));
                }
                if kind == 2 {
                    let field = number32(list, body);
                    crcs_differ |= *crc.get_or_insert(field) != field;
                }
                count += 1;
                at = next;
            }
        }
    }
    Ok(List {
        count,
        fill,
        crc,
        crcs_differ,
    })
}

/// Eight NOPs, one more than strict reading takes in a row.
const NOPS: u64 = u64::from_ne_bytes([1; 8]);

/// Behind the run of NOPs at `at`, which may be empty; or the eighth of them,
/// which is "padded" (document 02, R-6). The byte before is no NOP of the list.
#[inline(always)]
fn skip_nops(list: &[u8], at: usize, strictness: Strictness) -> Result<usize, usize> {
    let rest = &list[at..];
    let run = match rest.first_chunk() {
        Some(eight) if u64::from_ne_bytes(*eight) != NOPS => leading_nops(*eight),
        // Fewer than eight are left, so the run is short enough.
        None => rest.iter().take_while(|byte| **byte == 1).count(),
        Some(_) if strictness == Strictness::Strict => return Err(at + 7),
        Some(_) => long_run(rest),
    };
    Ok(at + run)
}

/// How many NOPs stand at the front of eight bytes.
#[inline]
fn leading_nops(eight: [u8; 8]) -> usize {
    (u64::from_le_bytes(eight) ^ NOPS).trailing_zeros() as usize / 8
}

/// How many NOPs stand at the front: 64 bytes at a step, then eight.
#[inline(never)]
fn long_run(bytes: &[u8]) -> usize {
    let (blocks, _) = bytes.as_chunks::<64>();
    let all_nops = |block: &&[u8; 64]| block.iter().fold(0, |any, byte| any | (byte ^ 1)) == 0;
    let whole = blocks.iter().take_while(all_nops).count() * 64;
    let (eights, last) = bytes[whole..].as_chunks();
    for (number, eight) in eights.iter().enumerate() {
        let run = leading_nops(*eight);
        if run < 8 {
            return whole + 8 * number + run;
        }
    }
    let run = last.iter().take_while(|byte| **byte == 1).count();
    bytes.len() - last.len() + run
}

/// Whether all bytes are 0: 64 bytes at a step, then eight, and the last eight
/// whatever came before them.
#[inline(never)]
fn all_zero(bytes: &[u8]) -> bool {
    let Some(last) = bytes.last_chunk() else {
        return bytes.iter().fold(0, |any, byte| any | byte) == 0;
    };
    let (blocks, rest) = bytes.as_chunks::<64>();
    let mut lanes = [0; 8];
    for block in blocks {
        let (eights, _) = block.as_chunks();
        for (lane, eight) in lanes.iter_mut().zip(eights) {
            *lane |= u64::from_ne_bytes(*eight);
        }
    }
    let (eights, _) = rest.as_chunks();
    let words = eights.iter().map(|eight| u64::from_ne_bytes(*eight));
    let words = words.chain(lanes);
    words.fold(u64::from_ne_bytes(*last), |any, word| any | word) == 0
}

/// How many zeros stand at the front: 64 bytes at a step, then one.
#[inline(never)]
fn leading_zeros(bytes: &[u8]) -> usize {
    let whole = bytes.chunks_exact(64).take_while(|block| all_zero(block));
    let whole = whole.count() * 64;
    let rest = bytes[whole..].iter().take_while(|byte| **byte == 0);
    whole + rest.count()
}

/// FRAG's fields (RFC section 11.4) at `at`, ending at `end`; none where one
/// of them is malformed. Its length, 10 or 12, has been tested.
fn frag(payload: &[u8], at: usize, end: usize) -> Option<Fragment> {
    let start = number16(payload, at + 2);
    if start < end || start > payload.len() {
        return None;
    }
    // Both count from the original's UDP header; places from its user data.
    let place = number16(payload, at + 8).checked_sub(8)?;
    let last = end - at == 12;
    let option_start = if last {
        number16(payload, at + 10).checked_sub(8)?
    } else {
        0
    };
    Some(Fragment {
        identification: number32(payload, at + 4),
        place,
        from: start,
        to: payload.len(),
        last,
        option_start,
    })
}

/// What stands at one place of a list.
enum Step {
    End,
    Eol,
    Nop,
    Unsafe,
    Malformed,
    /// An option of sound length; `body` is behind the header.
    Sound {
        kind: u8,
        body: usize,
        next: usize,
    },
}

/// Looks at the option at `at` of the list that ends where `list` ends.
#[inline]
fn step(list: &[u8], at: usize) -> Step {
    let Some(&kind) = list.get(at) else {
        return Step::End;
    };
    match kind {
        0 => return Step::Eol,
        1 => return Step::Nop,
        192..=255 => return Step::Unsafe,
        _ => {}
    }
    // The one whole length of a fixed kind; 0 where the length byte decides.
    let own = match kind {
        2 | 6 | 7 => 6,
        4 => 4,
        5 => 5,
        8 => 10,
        _ => 0,
    };
    let (header, whole) = match list.get(at + 1) {
        None | Some(0 | 1) => return Step::Malformed,
        Some(255) => match list.get(at + 2..at + 4) {
            Some(&[high, low]) => (4, usize::from(u16::from_be_bytes([high, low]))),
            _ => return Step::Malformed,
        },
        Some(&short) => (2, usize::from(short)),
    };
    if (header == 4 && whole < 255)
        || (own != 0 && whole != own)
        || (kind == 3 && whole != 10 && whole != 12)
        || whole > list.len() - at
    {
        return Step::Malformed;
    }
    Step::Sound {
        kind,
        body: at + header,
        next: at + whole,
    }
}

/// The options of a reading, NOPs left out, each where it stands.
#[derive(Clone, Debug)]
pub struct Options<'a> {
    list: &'a [u8],
    at: usize,
    /// The offset of the list's first byte.
    from: PacketOffset,
}

impl<'a> Options<'a> {
    fn over(bytes: &'a [u8], from: usize, to: usize, carrier: Carrier) -> Self {
        Options {
            list: bytes.get(from..to).unwrap_or(&[]),
            at: 0,
            from: carrier.offset(from),
        }
    }
}

impl<'a> Iterator for Options<'a> {
    type Item = Located<'a>;

    fn next(&mut self) -> Option<Located<'a>> {
        loop {
            match step(self.list, self.at) {
                Step::Nop => self.at = skip_nops(self.list, self.at, Strictness::Plain).ok()?,
                Step::Sound { kind, body, next } => {
                    let offset = PacketOffset(self.from.0 + self.at);
                    self.at = next;
                    let list = self.list;
                    let fields = match kind {
                        4 => Fields::One(number16(list, body) as u32),
                        5 => Fields::Two(number16(list, body) as u32, u32::from(list[body + 2])),
                        2 | 6 | 7 => Fields::One(number32(list, body)),
                        8 => Fields::Two(number32(list, body), number32(list, body + 4)),
                        _ => Fields::Body(&list[body..next]),
                    };
                    let option = ReadOption { kind, fields };
                    return Some(Located { offset, option });
                }
                // A list that was read has no fault.
                Step::End | Step::Eol | Step::Unsafe | Step::Malformed => return None,
            }
        }
    }
}

/// One step of a host that takes a reading's options one by one.
#[derive(Clone, Copy, Debug, PartialEq, Eq)]
pub struct Standing {
    pub kind: u8,
    /// Its kind byte.
    pub offset: PacketOffset,
    /// Behind its header to its end, counted as `rest` is.
    pub body: Range,
}

/// The first option of `rest`, which is the range of a reading's options or what
/// remains of it behind an option's body. `read` says that the verdict is
/// "read". With anything else that a host may say: none, or what stands there if
/// it has the form of an option, FRAG too.
#[inline]
pub fn next_option(payload: &[u8], read: bool, rest: Range) -> Option<Standing> {
    standing(payload, read, rest, Carrier::Packet)
}

/// The same of an original, where `rest` and the body are places.
#[inline]
pub fn next_reread_option(original: &[u8], read: bool, rest: Range) -> Option<Standing> {
    standing(original, read, rest, Carrier::Original)
}

#[inline(always)]
fn standing(bytes: &[u8], read: bool, rest: Range, carrier: Carrier) -> Option<Standing> {
    if !read || rest.from > rest.to {
        return None;
    }
    let list = bytes.get(..rest.to)?;
    let mut at = rest.from;
    loop {
        match step(list, at) {
            Step::Nop => at = skip_nops(list, at, Strictness::Plain).ok()?,
            Step::Sound { kind, body, next } => {
                return Some(Standing {
                    kind,
                    offset: carrier.offset(at),
                    body: Range {
                        from: body,
                        to: next,
                    },
                })
            }
            Step::End | Step::Eol | Step::Unsafe | Step::Malformed => return None,
        }
    }
}

/// Two bytes, big-endian. The caller has tested that they are there.
#[inline]
fn number16(bytes: &[u8], at: usize) -> usize {
    usize::from(bytes[at]) << 8 | usize::from(bytes[at + 1])
}

/// Four bytes, big-endian. The caller has tested that they are there.
#[inline]
fn number32(bytes: &[u8], at: usize) -> u32 {
    let mut four = [0; 4];
    four.copy_from_slice(&bytes[at..at + 4]);
    u32::from_be_bytes(four)
}

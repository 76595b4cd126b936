//! Readings at the rules' edges, and all readings against a second reader
//! that first splits the list into words and only then judges them.

use reference::checksum;
use reference::crc::crc32c;
use reference::generate::{datagram, original, Random};
use reference::Strictness::{Plain, Strict};
use reference::*;
use std::collections::BTreeMap;

fn payload(user: &[u8], area: &[u8]) -> Vec<u8> {
    let mut payload = vec![0, 1, 0, 2];
    payload.extend(((8 + user.len()) as u16).to_be_bytes());
    payload.extend([0, 0]);
    payload.extend(user);
    payload.extend(area);
    payload
}

/// The verdicts on an area in plain and in strict reading, without checksums.
fn verdicts(user: &[u8], area: &[u8]) -> (Verdict, Verdict) {
    let packet = payload(user, area);
    let [plain, strict] = by_setting(|strictness| read(&packet, [0; 4], [0; 4], strictness));
    if plain != strict {
        let verdict = strict.unwrap().verdict;
        let padded = Reading {
            user: Range {
                from: 8,
                to: 8 + user.len(),
            },
            verdict: padded(eighth(&packet, verdict)),
            options_from: 0,
            options_to: 0,
            count: 0,
            fill: 0,
            apc: Apc::None,
        };
        assert_eq!(strict, Ok(padded));
    }
    (plain.unwrap().verdict, strict.unwrap().verdict)
}

/// The index of the byte that a verdict names, which ends eight NOPs.
fn eighth(packet: &[u8], verdict: Verdict) -> usize {
    let at = verdict.fault_at().unwrap().0;
    assert_eq!(packet[at - 7..=at], [1; 8]);
    at
}

/// What comes of both settings. Any strict answer but "padded" is the plain
/// answer, and "padded" is no plain one.
fn by_setting<R: Answered>(answer: impl Fn(Strictness) -> Result<R, u32>) -> [Result<R, u32>; 2] {
    let [plain, strict] = [Plain, Strict].map(answer);
    let padded = |answer: &Result<R, u32>| answer.as_ref().is_ok_and(R::is_padded);
    assert!(!padded(&plain));
    assert!(strict == plain || padded(&strict), "{plain:?} {strict:?}");
    [plain, strict]
}

/// A reading or a rereading.
trait Answered: PartialEq + std::fmt::Debug {
    fn is_padded(&self) -> bool;
}

impl Answered for Reading {
    fn is_padded(&self) -> bool {
        matches!(self.verdict, Verdict::Padded(_))
    }
}

impl Answered for Rereading {
    fn is_padded(&self) -> bool {
        matches!(self.verdict, Verdict::Padded(_))
    }
}

/// "malformed", met at this offset; and so on.
fn malformed(at: usize) -> Verdict {
    Verdict::Malformed(PacketOffset(at))
}

fn unsafe_kind(at: usize) -> Verdict {
    Verdict::Unsafe(PacketOffset(at))
}

fn fragdata(at: usize) -> Verdict {
    Verdict::FragData(PacketOffset(at))
}

fn crowded(at: usize) -> Verdict {
    Verdict::Crowded(PacketOffset(at))
}

fn tail(at: usize) -> Verdict {
    Verdict::Tail(PacketOffset(at))
}

fn padded(at: usize) -> Verdict {
    Verdict::Padded(PacketOffset(at))
}

/// The verdict in plain reading.
fn verdict(user: &[u8], area: &[u8]) -> Verdict {
    verdicts(user, area).0
}

/// The verdict on a list of an even datagram without checksums. The list starts
/// at offset 10.
fn of_list(list: &[u8]) -> Verdict {
    verdict(&[], &[&[0, 0], list].concat())
}

#[test]
fn refusals_in_order() {
    let read = |payload: &[u8]| {
        let read = |strictness| read(payload, [1, 2, 3, 4], [5, 6, 7, 8], strictness);
        let [plain, strict] = by_setting(read);
        assert_eq!(plain, strict);
        plain.map(|reading| reading.verdict)
    };
    assert_eq!(read(&[]), Err(1));
    assert_eq!(read(&[0; 7]), Err(1));
    assert_eq!(read(&vec![0; 65_516]), Err(2));
    assert_eq!(read(&vec![0; 65_515]), Err(3));
    assert_eq!(read(&[0, 0, 0, 0, 0, 7, 0, 0]), Err(3));
    assert_eq!(read(&[0, 0, 0, 0, 0, 9, 0, 0]), Err(3));
    assert_eq!(read(&[0, 0, 0, 0, 0, 8, 0, 0]), Ok(Verdict::None));
    assert_eq!(read(&[0, 0, 0, 0, 0, 8, 0, 1]), Err(4));
    // 0102 0304 0506 0708 0011 0008 0008 sum to 1035.
    assert_eq!(read(&[0, 0, 0, 0, 0, 8, 0xEF, 0xCA]), Ok(Verdict::None));
}

#[test]
fn before_the_walk() {
    assert_eq!(verdict(&[7], &[7]), Verdict::Short);
    assert_eq!(verdict(&[7], &[7, 0]), Verdict::Short);
    assert_eq!(verdict(&[7], &[7, 0, 0]), Verdict::Pad);
    assert_eq!(verdict(&[7], &[0, 0, 0]), Verdict::Read);
    assert_eq!(verdict(&[], &[0, 0]), Verdict::Read);
    assert_eq!(verdict(&[], &[0xFF, 0xFD]), Verdict::Read);
    assert_eq!(verdict(&[], &[0xFF, 0xFC]), Verdict::BadSum);
    // A missing last byte counts as 0: 3 + FEFC + 0100 = FFFF.
    assert_eq!(verdict(&[], &[0xFE, 0xFC, 1]), Verdict::Read);
    // UDP checksum there, option checksum 0.
    let mut summed = payload(&[], &[0, 0]);
    let sum = checksum::sent(checksum::udp_sum([0; 4], [0; 4], &summed[..8]));
    summed[6..8].copy_from_slice(&sum.to_be_bytes());
    let reading = read(&summed, [0; 4], [0; 4], Plain).unwrap();
    assert_eq!(reading.verdict, Verdict::Unsummed);
}

#[test]
fn last_kind_byte() {
    for kind in 0..=255u8 {
        let expected = match kind {
            0 | 1 => Verdict::Read,
            2..=191 => malformed(10),
            192..=255 => unsafe_kind(10),
        };
        assert_eq!(of_list(&[kind]), expected, "{kind}");
    }
}

#[test]
fn lengths() {
    for kind in 2..=191u8 {
        for length in 0..=254u8 {
            let mut list = vec![kind, length];
            list.resize(usize::from(length).max(2), 0);
            let own: &[u8] = match kind {
                2 | 6 | 7 => &[6],
                4 => &[4],
                5 => &[5],
                8 => &[10],
                _ => &[],
            };
            if kind == 3 {
                // All its fields are 0, before their origins.
                assert_eq!(of_list(&list), malformed(10));
                continue;
            }
            let sound = if kind < 9 {
                own.contains(&length)
            } else {
                length >= 2
            };
            let expected = if sound { Verdict::Read } else { malformed(10) };
            assert_eq!(of_list(&list), expected, "{kind} {length}");
            list.pop();
            if length > 2 {
                assert_eq!(of_list(&list), malformed(10), "{kind} {length}");
            }
        }
    }
    for whole in [0u16, 4, 254, 255, 256, 600, 65_535] {
        for kind in [2, 3, 8, 9, 191] {
            let mut list = vec![kind, 255];
            list.extend(whole.to_be_bytes());
            list.resize(700, 0);
            let sound = kind >= 9 && (255..=700).contains(&whole);
            let expected = if sound { Verdict::Read } else { malformed(10) };
            assert_eq!(of_list(&list), expected, "{kind} {whole}");
        }
    }
}

#[test]
fn the_33rd() {
    let full = [9, 2].repeat(32);
    let with = |more: &[u8]| of_list(&[&full, more].concat());
    assert_eq!(with(&[]), Verdict::Read);
    assert_eq!(with(&[1, 1, 0, 0, 0]), Verdict::Read);
    assert_eq!(with(&[1, 1, 0, 9, 2]), tail(77));
    assert_eq!(with(&[9, 2]), crowded(74));
    assert_eq!(with(&[9, 2, 0, 5]), crowded(74));
    assert_eq!(with(&[9, 2, 192]), crowded(74));
    assert_eq!(with(&[9, 3]), malformed(74));
    assert_eq!(with(&[192]), unsafe_kind(74));
    assert_eq!(with(&[3]), malformed(74));
    let frag = [3, 10, 0, 0, 0, 0, 0, 0, 0, 8];
    assert_eq!(with(&frag), malformed(74));
}

/// FRAG at packet offset 10, with bytes behind it.
fn frag(start: u16, offset: u16, option_start: Option<u16>, behind: &[u8]) -> Vec<u8> {
    let mut list = vec![3, if option_start.is_some() { 12 } else { 10 }];
    list.extend(start.to_be_bytes());
    list.extend([1, 2, 3, 4]);
    list.extend(offset.to_be_bytes());
    if let Some(option_start) = option_start {
        list.extend(option_start.to_be_bytes());
    }
    list.extend(behind);
    list
}

#[test]
fn pieces() {
    let piece = |place, from, to, option_start: Option<usize>| {
        Verdict::Piece(Fragment {
            identification: 0x0102_0304,
            place,
            from,
            to,
            last: option_start.is_some(),
            option_start: option_start.unwrap_or(0),
        })
    };
    assert_eq!(of_list(&frag(20, 8, None, &[5, 6])), piece(0, 20, 22, None));
    assert_eq!(of_list(&frag(22, 8, None, &[1, 0])), piece(0, 22, 22, None));
    assert_eq!(
        of_list(&frag(22, 30, Some(9), &[5])),
        piece(22, 22, 23, Some(1))
    );
    assert_eq!(of_list(&frag(19, 8, None, &[5])), malformed(10));
    assert_eq!(of_list(&frag(22, 8, None, &[5])), malformed(10));
    assert_eq!(of_list(&frag(20, 7, None, &[5])), malformed(10));
    assert_eq!(of_list(&frag(20, 0, None, &[5])), malformed(10));
    assert_eq!(of_list(&frag(22, 8, Some(7), &[5])), malformed(10));
    assert_eq!(
        of_list(&frag(20, 65_535, None, &[5])),
        piece(65_527, 20, 21, None)
    );
    // Options on a piece: faults, EOL, one that crosses Frag. Start.
    assert_eq!(of_list(&frag(21, 8, None, &[192])), unsafe_kind(20));
    assert_eq!(
        of_list(&frag(22, 8, None, &[0, 0, 7])),
        piece(0, 22, 23, None)
    );
    assert_eq!(
        of_list(&frag(21, 8, None, &[0, 192, 7])),
        piece(0, 21, 23, None)
    );
    assert_eq!(of_list(&frag(22, 8, None, &[0, 192, 7])), tail(21));
    assert_eq!(of_list(&frag(21, 8, None, &[9, 2])), malformed(20));
    assert_eq!(
        of_list(&frag(22, 8, None, &[9, 2, 9])),
        piece(0, 22, 23, None)
    );
    let second = frag(50, 8, None, &[]);
    assert_eq!(of_list(&frag(30, 8, None, &second)), malformed(20));
    // FRAG counts.
    let start = |count: u16| 20 + 2 * count;
    let many = frag(start(31), 8, None, &[9, 2].repeat(31));
    assert_eq!(of_list(&many), piece(0, 82, 82, None));
    let many = frag(start(32), 8, None, &[9, 2].repeat(32));
    assert_eq!(of_list(&many), crowded(82));
    // What stands before it.
    let after_nop = [&[1][..], &frag(21, 8, None, &[5])].concat();
    assert_eq!(of_list(&after_nop), piece(0, 21, 22, None));
    let after_eol = [&[0][..], &frag(21, 8, None, &[5])].concat();
    assert_eq!(of_list(&after_eol), tail(11));
    let after_other = [&[9, 2][..], &frag(22, 8, None, &[5])].concat();
    assert_eq!(of_list(&after_other), malformed(12));
    // With user data: at once, whatever follows, if it is sound.
    let area = [&[0, 0][..], &frag(22, 8, None, &[192, 3])].concat();
    assert_eq!(verdict(&[1, 2], &area), fragdata(12));
    let area = [&[0, 0][..], &frag(25, 8, None, &[0, 0, 9])].concat();
    assert_eq!(verdict(&[1, 2], &area), fragdata(12));
    let area = [&[0, 0][..], &frag(21, 8, None, &[192, 3])].concat();
    assert_eq!(verdict(&[1, 2], &area), malformed(12));
    let whole = payload(&[], &[&[0, 0][..], &frag(20, 8, None, &[5])].concat());
    let reading = read(&whole, [0; 4], [0; 4], Plain).unwrap();
    assert_eq!(reading.user, Range { from: 8, to: 8 });
    assert_eq!((reading.options_from, reading.options_to), (0, 0));
}

/// Document 02, R-2.
#[test]
fn tails() {
    assert_eq!(of_list(&[0]), Verdict::Read);
    assert_eq!(of_list(&[0, 0, 0]), Verdict::Read);
    assert_eq!(of_list(&[0, 1, 0]), tail(11));
    assert_eq!(of_list(&[0, 0, 128]), tail(12));
    assert_eq!(of_list(&[1, 9, 2, 0, 0, 1]), tail(15));
    // What would be a fault in front of EOL is none behind it.
    assert_eq!(of_list(&[0, 192]), tail(11));
    assert_eq!(of_list(&[0, 9, 1]), tail(11));
    assert_eq!(of_list(&[0, 3, 10]), tail(11));
    // A fault in front of EOL is met first.
    assert_eq!(of_list(&[192, 0, 1]), unsafe_kind(10));
    assert_eq!(of_list(&[9, 1, 0, 1]), malformed(10));
    assert_eq!(of_list(&[9, 2, 3, 10, 0, 1]), malformed(12));
    // User data is delivered, and no option: the APC would be right.
    let mut area = vec![0, 0, 2, 6];
    area.extend(crc32c(b"ab").to_be_bytes());
    area.extend([0, 0]);
    let right = payload(b"ab", &area);
    area.push(4);
    let bad = payload(b"ab", &area);
    let reading = read(&right, [0; 4], [0; 4], Plain).unwrap();
    assert_eq!((reading.count, reading.fill), (1, 2));
    assert_eq!(reading.apc, Apc::Right);
    let nothing = Reading {
        user: Range { from: 8, to: 10 },
        verdict: tail(20),
        options_from: 0,
        options_to: 0,
        count: 0,
        fill: 0,
        apc: Apc::None,
    };
    assert_eq!(read(&bad, [0; 4], [0; 4], Plain), Ok(nothing));
    assert_eq!(nothing.options(&bad).count(), 0);
    let rereading = reread(&bad[8..], 2, Plain).unwrap();
    assert_eq!(rereading.user, Range { from: 0, to: 2 });
    assert_eq!(rereading.verdict, tail(20));
    assert_eq!((rereading.options_from, rereading.options_to), (0, 0));
    assert_eq!((rereading.count, rereading.fill), (0, 0));
    assert_eq!(rereading.apc, Apc::None);
}

/// Fills of every length to 150, all zero, and with one bit set in one byte,
/// each byte in turn: of a datagram, of a piece with other bytes behind Frag.
/// Start, and of an original.
#[test]
fn fills() {
    let frag_end = 20;
    for count in 0..=150 {
        let area = vec![0; 2 + 1 + count];
        let start = (frag_end + 1 + count) as u16;
        let list = frag(start, 8, None, &area[2..]);
        let packet = payload(b"ab", &area);
        let reading = read(&packet, [0; 4], [0; 4], Plain).unwrap();
        assert_eq!((reading.verdict, reading.fill), (Verdict::Read, 1 + count));
        let piece = of_list(&[&list, &[255; 9][..]].concat());
        assert!(matches!(piece, Verdict::Piece(_)), "{count}");
        assert_eq!(reread(&area, 0, Plain).unwrap().fill, 1 + count);
        for at in 0..count {
            let bit = 1 << (at % 8);
            let mut area = area.clone();
            area[3 + at] = bit;
            // One more at the end changes nothing: the first one is named.
            area[2 + count] |= bit;
            assert_eq!(verdict(b"ab", &area), tail(13 + at), "{at} of {count}");
            let again = reread(&area, 0, Plain).unwrap().verdict;
            assert_eq!(again, tail(11 + at), "{at} of {count}");
            let mut list = list.clone();
            list[frag_end - 10 + 1 + at] = bit;
            assert_eq!(of_list(&list), tail(21 + at), "{at} of {count}");
        }
    }
}

/// The verdicts on a list of an even datagram, in plain and strict reading.
fn of_both(list: &[u8]) -> (Verdict, Verdict) {
    verdicts(&[], &[&[0, 0], list].concat())
}

/// So many NOPs.
fn nops(count: usize) -> Vec<u8> {
    vec![1; count]
}

/// What strict reading makes of a run of NOPs from `at` on that gives this in
/// plain reading.
fn strictly(at: usize, count: usize, plain: Verdict) -> (Verdict, Verdict) {
    let strict = if count > 7 { padded(at + 7) } else { plain };
    (plain, strict)
}

/// Runs of every length to 20, and some long ones.
fn runs() -> impl Iterator<Item = usize> {
    (0..=20).chain([63, 64, 65, 71, 72, 73, 127, 128, 129, 1_400, 65_000])
}

const REQ: [u8; 6] = [6, 6, 0, 0, 1, 44];

/// Document 02, R-6: NOPs before, between and behind options, alone, and
/// before EOL, in a datagram and in an original, at either parity.
#[test]
fn padded_everywhere() {
    for count in runs() {
        let run = nops(count);
        // What stands before the run and behind it, options and fill.
        for (before, behind, options, fill) in [
            (&[][..], &[][..], 0, 0),
            (&[], &REQ, 1, 0),
            (&REQ, &[], 1, 0),
            (&REQ, &REQ, 2, 0),
            (&[9, 2], &[9, 3, 1], 2, 0),
            (&[], &[0], 0, 1),
            (&REQ, &[0, 0, 0], 1, 3),
        ] {
            for user in [&[][..], &[7], &[7, 7]] {
                let head = user.len() % 2 + 2;
                let area = [&[0; 3][..head], before, &run, behind].concat();
                let at = 8 + user.len() + head + before.len();
                let expected = strictly(at, count, Verdict::Read);
                assert_eq!(verdicts(user, &area), expected, "{count} {user:?}");
                let packet = payload(user, &area);
                let reading = read(&packet, [0; 4], [0; 4], Plain).unwrap();
                assert_eq!((reading.count, reading.fill), (options, fill));
                let original = [user, &area].concat();
                let r = user.len();
                let [plain, strict] = by_setting(|strictness| reread(&original, r, strictness));
                let (plain, strict) = (plain.unwrap(), strict.unwrap());
                assert_eq!((plain.verdict, strict.verdict), expected);
                assert_eq!((plain.count, plain.fill), (options, fill));
                assert_eq!(strict.user, Range { from: 0, to: r });
                if strict != plain {
                    let reported = (strict.options_from, strict.options_to, strict.count);
                    assert_eq!(reported, (0, 0, 0));
                    assert_eq!((strict.fill, strict.apc), (0, Apc::None));
                }
            }
        }
    }
}

/// User data is delivered, and no option: the APC would be right.
#[test]
fn padded_reports_nothing() {
    let mut area = vec![0, 0, 2, 6];
    area.extend(crc32c(b"ab").to_be_bytes());
    area.extend(nops(8));
    let packet = payload(b"ab", &area);
    let plain = read(&packet, [0; 4], [0; 4], Plain).unwrap();
    assert_eq!((plain.count, plain.apc), (1, Apc::Right));
    assert_eq!(verdicts(b"ab", &area), (Verdict::Read, padded(25)));
    let strict = read(&packet, [0; 4], [0; 4], Strict).unwrap();
    assert_eq!(strict.options(&packet).count(), 0);
    let mut buffer = [9; 4];
    let listing = list_options(&packet, &strict, &mut buffer).unwrap();
    assert_eq!((listing.length, listing.fill, buffer[0]), (1, 0, 0));
}

/// Any other option starts the count again, and the first fault met decides.
#[test]
fn padded_among_others() {
    for count in runs() {
        let run = nops(count);
        let with = |parts: &[&[u8]]| of_both(&parts.concat());
        let expected = |plain| strictly(10, count, plain);
        // A run in front is met first.
        let next = 10 + count;
        assert_eq!(with(&[&run, &[192]]), expected(unsafe_kind(next)));
        assert_eq!(with(&[&run, &[9, 1]]), expected(malformed(next)));
        assert_eq!(with(&[&run, &[9]]), expected(malformed(next)));
        assert_eq!(with(&[&run, &[0, 1]]), expected(tail(next + 1)));
        let late = frag(40, 8, None, &[]);
        let late = with(&[&REQ, &run, &late]);
        assert_eq!(late, strictly(16, count, malformed(16 + count)));
        // A fault in front of the run is met first, or takes its bytes.
        let same = |verdict: Verdict| (verdict, verdict);
        assert_eq!(with(&[&[192], &run]), same(unsafe_kind(10)));
        assert_eq!(with(&[&[9, 0], &run]), same(malformed(10)));
        let behind_eol = if count == 0 { Verdict::Read } else { tail(11) };
        assert_eq!(with(&[&[0], &run]), same(behind_eol));
        // The run at each place among 32 options and 33, and behind 33.
        let options = |count: usize| [9, 2].repeat(count);
        for place in 0..=32 {
            let expected = |plain| strictly(10 + 2 * place, count, plain);
            let all = with(&[&options(place), &run, &options(32 - place)]);
            assert_eq!(all, expected(Verdict::Read), "{place} {count}");
            let more = with(&[&options(place), &run, &options(33 - place)]);
            assert_eq!(more, expected(crowded(74 + count)), "{place} {count}");
        }
        assert_eq!(with(&[&options(33), &run]), same(crowded(74)));
    }
    // Seven before, between and behind 32 options.
    let seven = nops(7);
    let between = [&seven[..], &[9, 2]].concat().repeat(32);
    let all = [&between[..], &seven].concat();
    assert_eq!(of_both(&all), (Verdict::Read, Verdict::Read));
    let eight = [&all[..], &[1]].concat();
    assert_eq!(of_both(&eight), (Verdict::Read, padded(305)));
    let eight = [&[1], &all[..]].concat();
    assert_eq!(of_both(&eight), (Verdict::Read, padded(17)));
    let another = [&all[..], &[9, 2]].concat();
    assert_eq!(of_both(&another), (crowded(305), crowded(305)));
    // The shortest of other options between two runs.
    for option in [&[9, 2][..], &[191, 2], &[4, 4, 1, 1], &REQ] {
        let list = [&seven[..], option, &seven].concat();
        assert_eq!(of_both(&list), (Verdict::Read, Verdict::Read));
    }
}

/// Bytes that are 1 and no NOPs of the walk: in bodies and fields, behind EOL
/// and behind Frag. Start.
#[test]
fn ones_that_are_no_nops() {
    let same = |verdict: Verdict| (verdict, verdict);
    for count in 0..=254 - 2 {
        let option = [&[9, 2 + count as u8][..], &nops(count)].concat();
        assert_eq!(of_both(&option), same(Verdict::Read));
        let seven = [&nops(7)[..], &option, &nops(7)].concat();
        assert_eq!(of_both(&seven), same(Verdict::Read));
        let eight = [&option[..], &nops(8)].concat();
        assert_eq!(of_both(&eight), (Verdict::Read, padded(19 + count)));
    }
    let extended = [&[9, 255, 1, 1][..], &nops(253)].concat();
    assert_eq!(of_both(&extended), same(Verdict::Read));
    let time = [&[8, 10][..], &nops(8)].concat();
    assert_eq!(of_both(&time), same(Verdict::Read));
    assert_eq!(of_both(&[&[0][..], &nops(20)].concat()), same(tail(11)));
    let piece = of_both(&frag(20, 8, None, &nops(20)));
    assert_eq!(piece.0.word(), "piece");
    assert_eq!(piece.0, piece.1);
    // Behind EOL up to Frag. Start: tail.
    let list = [&[0][..], &nops(20)].concat();
    assert_eq!(of_both(&frag(30, 8, None, &list)), same(tail(21)));
}

/// FRAG of the last piece or another one behind so many NOPs, with this Frag.
/// Start behind its end, offset, and bytes behind it.
fn frag_behind(count: usize, last: bool, start: isize, offset: u16, behind: &[u8]) -> Vec<u8> {
    let end = 10 + count + if last { 12 } else { 10 };
    let start = end as isize + start;
    let list = frag(start as u16, offset, last.then_some(8), behind);
    [&nops(count)[..], &list].concat()
}

#[test]
fn padded_before_and_behind_frag() {
    for last in [false, true] {
        for before in runs().filter(|count| *count < 60_000) {
            // A good one, with and without user data.
            let list = frag_behind(before, last, 0, 8, &[5, 5]);
            let (plain, strict) = of_both(&list);
            assert_eq!(plain.word(), "piece");
            assert_eq!((plain, strict), strictly(10, before, plain));
            let list = frag_behind(before + 2, last, 0, 8, &[5, 5]);
            let area = [&[0, 0], &list[2..]].concat();
            let expected = strictly(12, before, fragdata(12 + before));
            assert_eq!(verdicts(b"ab", &area), expected);
            let area = [&[0, 0, 0], &list[2..]].concat();
            assert_eq!(verdicts(b"a", &area), expected);
            // Bad ones.
            for (start, offset) in [(-1, 8), (3, 8), (0, 7)] {
                let list = frag_behind(before, last, start, offset, &[5, 5]);
                let expected = strictly(10, before, malformed(10 + before));
                assert_eq!(of_both(&list), expected);
                let list = frag_behind(before + 2, last, start, offset, &[5, 5]);
                let area = [&[0, 0], &list[2..]].concat();
                let expected = strictly(12, before, malformed(12 + before));
                assert_eq!(verdicts(b"ab", &area), expected);
            }
            let expected = strictly(10, before, malformed(10 + before));
            let cut = [&nops(before)[..], &[3]].concat();
            assert_eq!(of_both(&cut), expected);
            let length = [&nops(before)[..], &[3, 11], &[0; 20]].concat();
            assert_eq!(of_both(&length), expected);
            // In its list the count starts again.
            let end = 10 + before + if last { 12 } else { 10 };
            for behind in 0..=20 {
                let run = nops(behind);
                let next = end + behind;
                for (rest, plain) in [
                    (vec![], None),
                    (vec![0], None),
                    (vec![9, 2], None),
                    (vec![192], Some(unsafe_kind(next))),
                    (vec![9, 1], Some(malformed(next))),
                    (vec![9, 2, 9, 1], Some(malformed(next + 2))),
                    (vec![0, 1], Some(tail(next + 1))),
                    (vec![0, 0, 0, 1, 1], Some(tail(next + 3))),
                ] {
                    let list = [&run[..], &rest].concat();
                    let start = list.len() as isize;
                    let list = [&list[..], &nops(9)].concat();
                    let list = frag_behind(before, last, start, 8, &list);
                    let (found, strict) = of_both(&list);
                    match plain {
                        Some(plain) => assert_eq!(found, plain),
                        None => assert_eq!(found.word(), "piece"),
                    }
                    let expected = if before > 7 {
                        strictly(10, before, found)
                    } else {
                        strictly(end, behind, found)
                    };
                    assert_eq!((found, strict), expected);
                }
            }
        }
    }
    // With user data a good FRAG ends the walk before the NOPs behind it.
    let list = frag(30, 8, None, &nops(8));
    let area = [&[0, 0], &list[..]].concat();
    assert_eq!(verdicts(b"ab", &area), (fragdata(12), fragdata(12)));
    // Frag. Start within the run: eight before it, or seven.
    let (plain, strict) = of_both(&frag(28, 8, None, &nops(12)));
    assert_eq!((plain.word(), strict), ("piece", padded(27)));
    let (plain, strict) = of_both(&frag(27, 8, None, &nops(12)));
    assert_eq!((plain.word(), strict), ("piece", plain));
    // FRAG and 31 options with seven NOPs around each.
    let list = [&nops(7)[..], &[9, 2]].concat().repeat(31);
    let list = [&list[..], &nops(7)].concat();
    let start = list.len() as isize;
    let (plain, strict) = of_both(&frag_behind(7, true, start, 8, &list));
    assert_eq!((plain.word(), strict), ("piece", plain));
}

/// In an original FRAG is malformed; a run of eight before it is met first.
#[test]
fn padded_originals() {
    for count in runs() {
        let of = |parts: &[&[u8]]| {
            let original = [&[0, 0], &parts.concat()[..]].concat();
            by_setting(|strictness| reread(&original, 0, strictness))
                .map(|result| result.map(|rereading| rereading.verdict))
        };
        let run = nops(count);
        let expected = |plain: Verdict| {
            let (plain, strict) = strictly(10, count, plain);
            [Ok(plain), Ok(strict)]
        };
        let first = frag(40, 8, None, &[5; 30]);
        assert_eq!(of(&[&run, &first]), expected(malformed(10 + count)));
        let strict = if count > 7 { Ok(padded(17)) } else { Err(5) };
        assert_eq!(of(&[&run, &[192]]), [Err(5), strict]);
        assert_eq!(of(&[&[192], &run]), [Err(5), Err(5)]);
        assert_eq!(of(&[&run, &[0, 7]]), expected(tail(11 + count)));
    }
    // The longest original: NOPs alone.
    let original = [&[0, 0], &nops(65_505)[..]].concat();
    let verdict = |strictness| reread(&original, 0, strictness).unwrap().verdict;
    assert_eq!(verdict(Plain), Verdict::Read);
    assert_eq!(verdict(Strict), padded(17));
    let longer = [&original[..], &[1]].concat();
    assert_eq!(reread(&longer, 0, Strict), Err(2));
    assert_eq!(reread(&original, 65_508, Strict), Err(6));
}

#[test]
fn rereadings() {
    let of = |bytes: &[u8], r| {
        let [plain, strict] = by_setting(|strictness| reread(bytes, r, strictness));
        assert_eq!(plain, strict);
        plain.map(|reading| reading.verdict)
    };
    assert_eq!(of(&[], 0), Ok(Verdict::None));
    assert_eq!(of(&[], 1), Err(6));
    assert_eq!(of(&vec![0; 65_508], usize::MAX), Err(2));
    assert_eq!(of(&vec![0; 65_507], 65_508), Err(6));
    assert_eq!(of(&vec![0; 65_507], 65_507), Ok(Verdict::None));
    assert_eq!(of(&[1, 2, 3], 3), Ok(Verdict::None));
    assert_eq!(of(&[1, 2, 3], 2), Ok(Verdict::Short));
    assert_eq!(of(&[1, 2, 0, 0], 1), Ok(Verdict::Pad));
    assert_eq!(of(&[1, 0, 0, 0], 1), Ok(Verdict::Read));
    assert_eq!(of(&[0, 1, 255], 0), Ok(Verdict::BadSum));
    assert_eq!(of(&[0, 0, 192], 0), Err(5));
    assert_eq!(of(&[0, 0, 0, 192], 0), Ok(tail(11)));
    assert_eq!(of(&[7, 0, 0, 0, 0, 0, 192], 1), Ok(tail(14)));
    assert_eq!(of(&[0, 0, 192, 0, 1], 0), Err(5));
    assert_eq!(of(&[0, 0, 9, 192], 0), Ok(malformed(10)));
    assert_eq!(of(&[0, 0, 3], 0), Ok(malformed(10)));
    let first = [&[0, 0][..], &frag(12, 8, None, &[5])].concat();
    assert_eq!(of(&first, 0), Ok(malformed(10)));
    let mut whole = vec![0; 32];
    whole.extend([0, 0, 2, 6, 0xAA, 0x36, 0x91, 0x8A, 0, 0]);
    let reading = reread(&whole, 32, Plain).unwrap();
    assert_eq!(reading.user, Range { from: 0, to: 32 });
    assert_eq!((reading.options_from, reading.options_to), (34, 42));
    assert_eq!((reading.count, reading.fill), (1, 2));
    assert_eq!(reading.apc, Apc::Right);
    whole[0] = 1;
    assert_eq!(reread(&whole, 32, Plain).unwrap().apc, Apc::Wrong);
}

#[test]
fn program_texts() {
    assert_eq!(report(&[]), "refused 1\n");
    assert_eq!(report(&[0; 15]), "refused 1\n");
    assert_eq!(report(&[0; 16]), "refused 3\n");
    assert_eq!(report(&vec![0; 8 + 65_516]), "refused 2\n");
    assert_eq!(report(&vec![0; 8 + 80_000]), "refused 2\n");
    let text = |user: &[u8], area: &[u8]| report(&[&[0; 8], &payload(user, area)[..]].concat());
    assert_eq!(text(&[1, 2], &[]), "user 2\nverdict none\n");
    let mut area = vec![0, 0, 2, 6, 0xAA, 0x36, 0x91, 0x8A];
    area.extend([4, 4, 255, 255, 5, 5, 1, 0, 9, 1, 7, 6, 255, 255, 255, 255]);
    area.extend([
        8, 10, 0, 0, 0, 1, 0, 0, 1, 0, 9, 2, 191, 4, 0x0A, 0xFF, 0, 0,
    ]);
    assert_eq!(
        text(&[0; 32], &area),
        "user 32\nverdict read\nkind 2 2855702922 at 42\nkind 4 65535 at 48\nkind 5 256 9 at 52\n\
         kind 7 4294967295 at 58\nkind 8 1 256 at 64\nkind 9 at 74\nkind 191 0aff at 76\nfill 2\n"
    );
    area.push(1);
    assert_eq!(text(&[0; 32], &area), "user 32\nverdict tail at 82\n");
    let piece = [&[0, 0][..], &frag(20, 8, None, &[5])].concat();
    assert_eq!(text(&[], &piece), "user 0\nverdict piece\n");
}

/// One word of a list, and where it starts.
#[derive(Debug, PartialEq)]
struct Word {
    at: usize,
    sort: Sort,
}

#[derive(Debug, PartialEq)]
enum Sort {
    Nop,
    Eol { behind: Vec<u8> },
    Unsafe,
    Broken,
    Sound { kind: u8, body: Vec<u8> },
}

impl Word {
    fn is_nop(&self) -> bool {
        self.sort == Sort::Nop
    }
}

/// Splits bytes `at` to `end` into words, up to the first that ends a walk.
fn words(bytes: &[u8], mut at: usize, end: usize) -> Vec<Word> {
    let mut words = Vec::new();
    while at < end {
        let (start, kind) = (at, bytes[at]);
        let rest = &bytes[at..end];
        let sort = if kind == 0 {
            Sort::Eol {
                behind: rest[1..].to_vec(),
            }
        } else if kind == 1 {
            Sort::Nop
        } else if kind >= 192 {
            Sort::Unsafe
        } else {
            let (header, length) = if rest.len() >= 4 && rest[1] == 255 {
                (4, usize::from(rest[2]) * 256 + usize::from(rest[3]))
            } else if rest.len() >= 2 {
                (2, usize::from(rest[1]))
            } else {
                (0, 0)
            };
            let fits = match kind {
                2 | 6 | 7 => length == 6,
                3 => length == 10 || length == 12,
                4 => length == 4,
                5 => length == 5,
                8 => length == 10,
                _ => (header == 2 && (2..255).contains(&length)) || (header == 4 && length >= 255),
            };
            if fits && length <= rest.len() {
                let body = rest[header..length].to_vec();
                at += length - 1;
                Sort::Sound { kind, body }
            } else {
                Sort::Broken
            }
        };
        at += 1;
        let over = matches!(sort, Sort::Eol { .. } | Sort::Unsafe | Sort::Broken);
        words.push(Word { at: start, sort });
        if over {
            break;
        }
    }
    words
}

fn number(bytes: &[u8]) -> u64 {
    bytes
        .iter()
        .fold(0, |value, &byte| value * 256 + u64::from(byte))
}

/// The sound options: where they start, kind and body.
fn options_of(words: &[Word]) -> Vec<(usize, u8, Vec<u8>)> {
    let sound = words.iter().filter_map(|word| match &word.sort {
        Sort::Sound { kind, body } => Some((word.at, *kind, body.clone())),
        _ => None,
    });
    sound.collect()
}

/// The verdict of words that don't start with FRAG, and none of 33.
fn judge(words: &[Word], sound_before: usize, strictness: Strictness) -> Verdict {
    let mut count = sound_before;
    let mut nops = 0;
    for Word { at, sort } in words {
        nops = if *sort == Sort::Nop { nops + 1 } else { 0 };
        match sort {
            Sort::Nop if nops == 8 && strictness == Strict => return padded(*at),
            Sort::Nop => {}
            Sort::Eol { behind } => {
                if let Some(bad) = behind.iter().position(|byte| *byte != 0) {
                    return tail(at + 1 + bad);
                }
            }
            Sort::Unsafe => return unsafe_kind(*at),
            Sort::Broken | Sort::Sound { kind: 3, .. } => return malformed(*at),
            Sort::Sound { .. } if count == 32 => return crowded(*at),
            Sort::Sound { .. } => count += 1,
        }
    }
    Verdict::Read
}

/// The length of the longest run of NOPs.
fn longest_run(words: &[Word]) -> usize {
    let runs = words.split(|word| !word.is_nop());
    runs.map(<[Word]>::len).max().unwrap_or(0)
}

/// What stands behind EOL, told in words.
fn ending(words: &[Word]) -> String {
    let Some(Sort::Eol { behind }) = words.last().map(|word| &word.sort) else {
        return "no EOL".into();
    };
    let bad: Vec<usize> = (0..behind.len()).filter(|&at| behind[at] != 0).collect();
    let told = match bad[..] {
        [] if behind.is_empty() => "EOL",
        [] => "EOL and zeros",
        [0] => "EOL and the first",
        [at] if at + 1 == behind.len() => "EOL and the last",
        [_] => "EOL and one",
        _ => "EOL and some",
    };
    let long = if behind.len() > 1_000 { "long " } else { "" };
    let full = if options_of(words).len() == 32 {
        "32, "
    } else {
        ""
    };
    format!("{full}{long}{told}")
}

/// Counts how often each verdict came with each ending and each run of NOPs.
#[derive(Default)]
struct Sorts(BTreeMap<String, usize>);

impl Sorts {
    fn count(&mut self, second: &Second, strictness: Strictness) {
        let word = second.verdict.word();
        for name in [
            format!("{word}: {}", second.ending),
            format!("{strictness:?} {word}: a run of {}", second.run),
        ] {
            *self.0.entry(name).or_default() += 1;
        }
    }

    /// Each of these has to come often.
    fn hold(&self, names: &[&str]) {
        for name in names {
            let count = self.0.get(*name).copied().unwrap_or(0);
            assert!(count >= 10, "{name}: {count}");
        }
    }
}

struct Second {
    verdict: Verdict,
    options: Vec<(usize, u8, Vec<u8>)>,
    fill: usize,
    apc: Apc,
    ending: String,
    /// The longest run of NOPs.
    run: usize,
}

/// The second reader, of an area at `start` (a packet offset). An original has
/// eight bytes put before it, so that all indices are packet offsets.
fn second(packet: &[u8], start: usize, again: bool, strictness: Strictness) -> Second {
    let only = |verdict| Second {
        verdict,
        options: Vec::new(),
        fill: 0,
        apc: Apc::None,
        ending: String::new(),
        run: 0,
    };
    let area = &packet[start..];
    if area.is_empty() {
        return only(Verdict::None);
    }
    let pad = start % 2;
    if area.len() < 2 + pad {
        return only(Verdict::Short);
    }
    if area[..pad] != [0u8; 1][..pad] {
        return only(Verdict::Pad);
    }
    let option_sum = number(&area[pad..pad + 2]);
    if option_sum == 0 && !again && number(&packet[6..8]) != 0 {
        return only(Verdict::Unsummed);
    }
    if option_sum != 0 {
        let mut bytes = (area.len() as u16).to_be_bytes().to_vec();
        bytes.extend(vec![0; pad]);
        bytes.extend(area);
        bytes.extend(vec![0; bytes.len() % 2]);
        let total: u64 = bytes.chunks(2).map(number).sum();
        if total == 0 || !total.is_multiple_of(0xFFFF) {
            return only(Verdict::BadSum);
        }
    }
    let from = start + pad + 2;
    let list = words(packet, from, packet.len());
    let run = longest_run(&list);
    let first = list.iter().position(|word| !word.is_nop());
    let padded = first.is_some_and(|first| first > 7) && strictness == Strict;
    if let (Some(first), false, false) = (first, again, padded) {
        let at = list[first].at;
        if let Sort::Sound { kind: 3, body } = &list[first].sort {
            let frag_start = number(&body[0..2]) as usize;
            let end = at + 2 + body.len();
            let offset = number(&body[6..8]) as usize;
            let last = body.len() == 10;
            let option_start = if last {
                number(&body[8..10]) as usize
            } else {
                8
            };
            if frag_start < end || frag_start > packet.len() || offset < 8 || option_start < 8 {
                return only(malformed(at));
            }
            if start > 8 {
                return Second {
                    run: first,
                    ..only(fragdata(at))
                };
            }
            let others = words(packet, end, frag_start);
            let verdict = match judge(&others, 1, strictness) {
                Verdict::Read => Verdict::Piece(Fragment {
                    identification: number(&body[2..6]) as u32,
                    place: offset - 8,
                    from: frag_start,
                    to: packet.len(),
                    last,
                    option_start: option_start - 8,
                }),
                fault => fault,
            };
            let part = number(&packet[frag_start..packet.len().min(frag_start + 8)]);
            let part = if part == 0 { "" } else { ", then its part" };
            return Second {
                ending: format!("FRAG, {}{part}", ending(&others)),
                run: longest_run(&others).max(first),
                ..only(verdict)
            };
        }
    }
    match judge(&list, 0, strictness) {
        Verdict::Read => {
            let options = options_of(&list);
            let eol = list.last().filter(|word| packet[word.at] == 0);
            let crc = crc32c(&packet[8..start]).to_be_bytes();
            let mut apcs = options.iter().filter(|(_, kind, _)| *kind == 2);
            let apc = if !options.iter().any(|(_, kind, _)| *kind == 2) {
                Apc::None
            } else if apcs.all(|(_, _, body)| *body == crc) {
                Apc::Right
            } else {
                Apc::Wrong
            };
            Second {
                verdict: Verdict::Read,
                options,
                fill: eol.map_or(0, |eol| packet.len() - eol.at),
                apc,
                ending: ending(&list),
                run,
            }
        }
        fault => Second {
            ending: ending(&list),
            run,
            ..only(fault)
        },
    }
}

/// An option as the second reader has it: its offset, kind and body.
fn wire(Located { offset, option }: &Located) -> (usize, u8, Vec<u8>) {
    let body = match (option.kind, option.fields) {
        (_, Fields::Body(body)) => body.to_vec(),
        (4, Fields::One(a)) => (a as u16).to_be_bytes().to_vec(),
        (5, Fields::Two(a, b)) => [&(a as u16).to_be_bytes()[..], &[b as u8]].concat(),
        (_, Fields::One(a)) => a.to_be_bytes().to_vec(),
        (_, Fields::Two(a, b)) => [a.to_be_bytes(), b.to_be_bytes()].concat(),
        (_, Fields::None) => panic!("{option:?}"),
    };
    (offset.0, option.kind, body)
}

/// Compares a reading with the second reader's.
fn compare(payload: &[u8], reading: &Reading, second: &Second) {
    assert_eq!(reading.verdict, second.verdict, "{payload:02x?}");
    let options: Vec<_> = reading.options(payload).map(|o| wire(&o)).collect();
    assert_eq!(options, second.options, "{payload:02x?}");
    assert_eq!(reading.count, second.options.len());
    assert_eq!(reading.fill, second.fill, "{payload:02x?}");
    assert_eq!(reading.apc, second.apc, "{payload:02x?}");
    assert_eq!(reading.user.from, 8);
    if reading.verdict == Verdict::Read {
        let at = reading.user.to + reading.user.to % 2 + 2;
        assert_eq!(reading.options_from, at);
        assert_eq!(reading.options_to, payload.len());
    } else {
        assert_eq!((reading.options_from, reading.options_to), (0, 0));
    }
}

#[test]
fn against_the_second_reader() {
    let mut random = Random::new(2);
    let mut sorts = Sorts::default();
    let mut reads = 0;
    for _ in 0..200_000 {
        let input = datagram(&mut random);
        let payload = &input.payload;
        let read = |strictness| read(payload, input.source, input.destination, strictness);
        for (strictness, result) in [Plain, Strict].into_iter().zip(by_setting(read)) {
            let Ok(reading) = result else {
                continue;
            };
            let second = second(payload, reading.user.to, false, strictness);
            sorts.count(&second, strictness);
            compare(payload, &reading, &second);
            reads += usize::from(reading.verdict == Verdict::Read);
        }
    }
    assert!(reads > 20_000);
    sorts.hold(&[
        "Plain read: a run of 7",
        "Plain read: a run of 8",
        "Plain read: a run of 1400",
        "Strict read: a run of 6",
        "Strict read: a run of 7",
        "Strict padded: a run of 8",
        "Strict padded: a run of 9",
        "Strict padded: a run of 64",
        "Strict padded: a run of 1400",
        "Strict crowded: a run of 7",
        "Strict crowded: a run of 8",
        "Strict tail: a run of 7",
        "Strict fragdata: a run of 7",
        "Plain piece: a run of 8",
        "Strict piece: a run of 7",
        "read: EOL",
        "read: EOL and zeros",
        "read: long EOL and zeros",
        "read: 32, EOL and zeros",
        "tail: EOL and the first",
        "tail: EOL and the last",
        "tail: EOL and one",
        "tail: EOL and some",
        "tail: long EOL and the first",
        "tail: long EOL and the last",
        "tail: long EOL and one",
        "tail: 32, EOL and the first",
        "tail: 32, EOL and some",
        "crowded: EOL and the last",
        "crowded: EOL and some",
        "piece: FRAG, EOL, then its part",
        "piece: FRAG, EOL and zeros, then its part",
        "tail: FRAG, EOL and the first, then its part",
        "tail: FRAG, EOL and the last, then its part",
        "tail: FRAG, EOL and one, then its part",
        "tail: FRAG, EOL and some, then its part",
    ]);
}

#[test]
fn rereadings_against_the_second_reader() {
    let mut random = Random::new(3);
    let mut sorts = Sorts::default();
    for _ in 0..100_000 {
        let (whole, r) = original(&mut random);
        let packet = [&[0; 8], &whole[..]].concat();
        let results = by_setting(|strictness| reread(&whole, r, strictness));
        for (strictness, result) in [Plain, Strict].into_iter().zip(results) {
            let expected = if whole.len() > 65_507 {
                Err(2)
            } else if r > whole.len() {
                Err(6)
            } else {
                let second = second(&packet, 8 + r, true, strictness);
                match second.verdict {
                    Verdict::Unsafe(_) => Err(5),
                    _ => Ok(second),
                }
            };
            match (result, expected) {
                (Err(number), Err(expected)) => assert_eq!(number, expected),
                (Ok(reading), Ok(second)) => {
                    sorts.count(&second, strictness);
                    assert_eq!(reading.verdict, second.verdict, "{r} {whole:02x?}");
                    let options: Vec<_> = reading.options(&whole).map(|o| wire(&o)).collect();
                    assert_eq!(options, second.options);
                    assert_eq!(reading.count, second.options.len());
                    assert_eq!(reading.fill, second.fill);
                    assert_eq!(reading.apc, second.apc);
                    assert_eq!(reading.user, Range { from: 0, to: r });
                }
                (Err(number), Ok(_)) => panic!("refused {number}: {r} {whole:02x?}"),
                (Ok(_), Err(number)) => panic!("not refused {number}: {r} {whole:02x?}"),
            }
        }
    }
    sorts.hold(&[
        "Plain read: a run of 8",
        "Plain read: a run of 1400",
        "Strict read: a run of 7",
        "Strict padded: a run of 8",
        "Strict padded: a run of 9",
        "Strict padded: a run of 1400",
        "Strict crowded: a run of 7",
        "Strict crowded: a run of 8",
        "Strict malformed: a run of 7",
        "Strict tail: a run of 7",
        "read: EOL",
        "read: EOL and zeros",
        "read: long EOL and zeros",
        "tail: EOL and the first",
        "tail: EOL and the last",
        "tail: EOL and one",
        "tail: EOL and some",
        "tail: long EOL and the last",
        "tail: 32, EOL and the first",
        "tail: 32, EOL and some",
        "crowded: EOL and some",
    ]);
}

//! Document 02, R-7: where an option stood and where a fault was met, with
//! offsets counted by hand, and the step of a host against a slow one.

use reference::generate::{datagram, original, Random};
use reference::Strictness::{Plain, Strict};
use reference::*;

/// A payload without checksums: L, user data, pad and option checksum, then the
/// list.
fn payload(user: &[u8], list: &[u8]) -> Vec<u8> {
    let length = 8 + user.len();
    let mut payload = vec![0, 1, 0, 2];
    payload.extend((length as u16).to_be_bytes());
    payload.extend([0, 0]);
    payload.extend(user);
    payload.extend(vec![0; length % 2 + 2]);
    payload.extend(list);
    payload
}

/// What the program says, without its first line.
fn text(user: &[u8], list: &[u8]) -> String {
    let text = report(&[&[0; 8], &payload(user, list)[..]].concat());
    let (_, rest) = text.split_once('\n').unwrap();
    rest.into()
}

const REQ: [u8; 6] = [6, 6, 0, 0, 1, 44];
const MDS: [u8; 4] = [4, 4, 5, 220];

/// FRAG of a piece that is not the last, with this Frag. Start.
fn frag(start: u8) -> [u8; 10] {
    [3, 10, 0, start, 0, 0, 0, 7, 0, 8]
}

/// The verdict of a packet, and of the same bytes behind its header read as an
/// original: of both the list starts at 10 behind no data, at 12 behind one
/// byte or two.
fn both(user: &[u8], list: &[u8], strictness: Strictness) -> [String; 2] {
    let told = |verdict: Verdict| match verdict.fault_at() {
        Some(PacketOffset(at)) => format!("{} at {at}", verdict.word()),
        None => verdict.word().into(),
    };
    let packet = payload(user, list);
    let reading = read(&packet, [0; 4], [0; 4], strictness).unwrap();
    let again = match reread(&packet[8..], user.len(), strictness) {
        Ok(rereading) => told(rereading.verdict),
        Err(number) => format!("refused {number}"),
    };
    [told(reading.verdict), again]
}

/// The same fault in a packet and in an original.
fn alike(user: &[u8], parts: &[&[u8]], expected: &str) {
    let list = parts.concat();
    let found = both(user, &list, Plain);
    assert_eq!(found, [expected, expected], "{user:?} {list:?}");
}

#[test]
fn malformed() {
    // The kind byte, not the byte that is wrong or missing.
    alike(&[], &[&[6, 5, 0, 0, 0]], "malformed at 10");
    alike(b"a", &[&[6, 5, 0, 0, 0]], "malformed at 12");
    alike(&[], &[&[9, 1]], "malformed at 10");
    alike(&[], &[&[9, 255, 0]], "malformed at 10");
    alike(b"ab", &[&[9, 255, 0, 254]], "malformed at 12");
    alike(&[], &[&[9]], "malformed at 10");
    // Behind an option, NOPs, both, and an extended option of 300 bytes.
    alike(&[], &[&REQ, &[9, 0]], "malformed at 16");
    alike(b"a", &[&REQ, &[9, 0]], "malformed at 18");
    alike(&[], &[&[1, 1, 1], &[9, 4, 7]], "malformed at 13");
    alike(b"ab", &[&MDS, &[1, 1], &[7, 6, 0, 0, 0]], "malformed at 18");
    let long = [&[10, 255, 1, 44][..], &[192; 296]].concat();
    alike(&[], &[&long, &[9]], "malformed at 310");
    alike(b"abc", &[&[1], &long, &[9]], "malformed at 315");
}

#[test]
fn malformed_frags() {
    // In a wrong place, whatever its fields are: FRAG's own kind byte.
    alike(&[], &[&REQ, &frag(26), b"xyz"], "malformed at 16");
    alike(b"a", &[&MDS, &[1], &frag(27), b"xyz"], "malformed at 17");
    alike(&[], &[&REQ, &[3]], "malformed at 16");
    // With a bad field: Frag. Start before its end and past the payload.
    let of = |user: &[u8], parts: &[&[u8]]| both(user, &parts.concat(), Plain);
    assert_eq!(of(&[], &[&frag(19)])[0], "malformed at 10");
    assert_eq!(of(&[], &[&[1, 1], &frag(40)])[0], "malformed at 12");
    assert_eq!(of(b"ab", &[&[1], &frag(22)])[0], "malformed at 13");
    // Frag. Offset under 8.
    let mut low = frag(20);
    low[9] = 7;
    assert_eq!(of(&[], &[&low])[0], "malformed at 10");
    // A second one, in the first one's list.
    assert_eq!(of(&[], &[&frag(30), &frag(30)])[0], "malformed at 20");
    let second = [&frag(34)[..], &[9, 2, 1, 1], &frag(34)];
    assert_eq!(of(&[], &second)[0], "malformed at 24");
    // An original has none.
    assert_eq!(of(&[], &[&frag(20)]), ["piece", "malformed at 10"]);
    assert_eq!(of(b"a", &[&[1], &frag(23)])[1], "malformed at 13");
}

#[test]
fn faults_in_a_fragments_list() {
    let of = |parts: &[&[u8]]| both(&[], &parts.concat(), Plain)[0].clone();
    // FRAG from 10 to 20, then its list up to Frag. Start.
    assert_eq!(of(&[&frag(22), &[9, 1], b"xyz"]), "malformed at 20");
    assert_eq!(of(&[&frag(26), &MDS, &[9, 0], b"xyz"]), "malformed at 24");
    assert_eq!(
        of(&[&[1], &frag(24), &[1, 1, 9], b"xyz"]),
        "malformed at 23"
    );
    // An option that runs past Frag. Start, not past the end.
    assert_eq!(of(&[&frag(26), &MDS, &[9, 3, 7]]), "malformed at 24");
    assert_eq!(of(&[&frag(21), &[192], b"xyz"]), "unsafe at 20");
    assert_eq!(of(&[&frag(25), &[9, 2, 1, 1, 200], b"xyz"]), "unsafe at 24");
    assert_eq!(of(&[&frag(22), &[0, 5], b"xyz"]), "tail at 21");
    assert_eq!(
        of(&[&frag(29), &MDS, &[0, 0, 0, 0, 5], b"xyz"]),
        "tail at 28"
    );
    // FRAG is the first of 33.
    let full = [9, 2].repeat(32);
    assert_eq!(of(&[&frag(84), &full, b"xyz"]), "crowded at 82");
    let nops = [&[1; 3], &full[..]].concat();
    assert_eq!(of(&[&[1], &frag(88), &nops, b"xyz"]), "crowded at 86");
}

#[test]
fn unsafe_kinds() {
    let of = |user: &[u8], parts: &[&[u8]]| both(user, &parts.concat(), Plain);
    assert_eq!(of(&[], &[&[192]]), ["unsafe at 10", "refused 5"]);
    assert_eq!(of(b"a", &[&[255, 0]]), ["unsafe at 12", "refused 5"]);
    assert_eq!(of(b"ab", &[&REQ, &[200, 2]])[0], "unsafe at 18");
    assert_eq!(of(&[], &[&REQ, &[1, 1, 192]])[0], "unsafe at 18");
    assert_eq!(of(&[], &[&[1; 9], &[192]])[0], "unsafe at 19");
    // A body of such bytes is none.
    assert_eq!(of(&[], &[&[9, 4, 192, 192], &[193]])[0], "unsafe at 14");
}

#[test]
fn fragdata() {
    let of = |user: &[u8], parts: &[&[u8]]| both(user, &parts.concat(), Plain)[0].clone();
    assert_eq!(of(b"ab", &[&frag(22)]), "fragdata at 12");
    assert_eq!(of(b"a", &[&frag(22)]), "fragdata at 12");
    assert_eq!(of(b"abc", &[&[1, 1], &frag(26)]), "fragdata at 16");
    assert_eq!(of(b"ab", &[&[1; 9], &frag(31)]), "fragdata at 21");
    // What stands behind FRAG is not met.
    assert_eq!(of(b"ab", &[&frag(23), &[192]]), "fragdata at 12");
}

#[test]
fn crowded() {
    let full = [9, 2].repeat(32);
    alike(&[], &[&full, &[9, 2]], "crowded at 74");
    alike(b"a", &[&full, &[9, 2]], "crowded at 76");
    // Not the 34th, and not the NOPs before it.
    alike(&[], &[&full, &REQ, &MDS], "crowded at 74");
    alike(b"ab", &[&[1], &full, &[1, 1, 1], &REQ], "crowded at 80");
    alike(&[], &[&MDS, &full[2..], &[8, 10], &[0; 8]], "crowded at 76");
}

#[test]
fn tail() {
    alike(&[], &[&[0, 1]], "tail at 11");
    alike(b"a", &[&[0, 1]], "tail at 13");
    alike(&[], &[&REQ, &[0, 0, 0, 0, 7, 0, 7]], "tail at 20");
    alike(b"ab", &[&[1], &REQ, &[0; 64], &[128, 1]], "tail at 83");
    alike(&[], &[&[0; 65], &[1]], "tail at 75");
    alike(&[], &[&[0; 64], &[1]], "tail at 74");
    // Zeros that end a body stand before EOL.
    alike(&[], &[&[9, 6, 0, 0, 0, 0], &[0, 0], &[192]], "tail at 18");
    // Another option behind EOL is none.
    alike(b"abc", &[&[0], &REQ], "tail at 15");
}

#[test]
fn padded() {
    let of = |user: &[u8], parts: &[&[u8]]| both(user, &parts.concat(), Strict);
    let same = |user: &[u8], parts: &[&[u8]], expected: &str| {
        assert_eq!(of(user, parts), [expected, expected]);
    };
    let eight = [1; 8];
    same(&[], &[&eight], "padded at 17");
    same(b"a", &[&eight, &REQ], "padded at 19");
    // Behind an option the eighth of the run, not of the list.
    same(&[], &[&[1; 7], &REQ, &eight], "padded at 30");
    same(b"ab", &[&REQ, &eight, &[1; 9]], "padded at 25");
    same(&[], &[&[9, 4, 1, 1], &eight, &[192]], "padded at 21");
    // In a fragment's list, before FRAG, and before FRAG beside user data.
    let list = of(&[], &[&frag(28), &eight, b"xyz"]);
    assert_eq!(list, ["padded at 27", "malformed at 10"]);
    assert_eq!(of(&[], &[&eight, &frag(28)])[0], "padded at 17");
    assert_eq!(of(b"ab", &[&eight, &frag(30)])[0], "padded at 19");
}

/// Faults that are none of the walk, and no fault at all, name no byte.
#[test]
fn no_offset() {
    let of = |payload: &[u8]| read(payload, [0; 4], [0; 4], Plain).unwrap().verdict;
    let area = |user: &[u8], area: &[u8]| {
        let mut bytes = payload(user, &[])[..8 + user.len()].to_vec();
        bytes.extend(area);
        bytes
    };
    for (payload, word) in [
        (area(b"ab", &[]), "none"),
        (area(b"ab", &[0]), "short"),
        (area(b"a", &[1, 0, 0]), "pad"),
        (area(&[], &[1, 1]), "badsum"),
        (payload(b"ab", &REQ), "read"),
        (payload(&[], &frag(20)), "piece"),
    ] {
        assert_eq!((of(&payload).word(), of(&payload).fault_at()), (word, None));
    }
}

#[test]
fn program() {
    assert_eq!(text(&[], &REQ), "verdict read\nkind 6 300 at 10\nfill 0\n");
    assert_eq!(
        text(b"a", &[&[1], &REQ[..], &[9, 2, 0, 0]].concat()),
        "verdict read\nkind 6 300 at 13\nkind 9 at 19\nfill 2\n"
    );
    // An extended option, and one behind it.
    let long = [&[10, 255, 0, 255][..], &[7; 251], &MDS].concat();
    let bytes = "07".repeat(251);
    assert_eq!(
        text(b"ab", &long),
        format!("verdict read\nkind 10 {bytes} at 12\nkind 4 1500 at 267\nfill 0\n")
    );
    assert_eq!(
        text(b"ab", &[&REQ[..], &[9]].concat()),
        "verdict malformed at 18\n"
    );
    assert_eq!(text(&[], &[1, 192]), "verdict unsafe at 11\n");
    assert_eq!(text(b"ab", &frag(22)), "verdict fragdata at 12\n");
    assert_eq!(text(&[], &[9, 2].repeat(33)), "verdict crowded at 74\n");
    assert_eq!(text(b"a", &[0, 0, 5]), "verdict tail at 14\n");
    assert_eq!(text(&[], &frag(20)), "verdict piece\n");
}

/// The options of a packet and of the same bytes as an original: the same
/// offsets, and bodies 8 apart.
#[test]
fn options_where_they_stand() {
    let list = [&[1, 1], &REQ[..], &MDS, &[1, 9, 2, 191, 3, 5], &[0, 0]].concat();
    for (user, start) in [(&b""[..], 10), (b"a", 12), (b"ab", 12), (b"abc", 14)] {
        let packet = payload(user, &list);
        let reading = read(&packet, [0; 4], [0; 4], Plain).unwrap();
        let offsets: Vec<usize> = reading.options(&packet).map(|o| o.offset.0).collect();
        assert_eq!(offsets, [2, 8, 13, 15].map(|at| start + at));
        let original = &packet[8..];
        let rereading = reread(original, user.len(), Plain).unwrap();
        assert!(rereading.options(original).eq(reading.options(&packet)));
        let mut rest = Range {
            from: reading.options_from,
            to: reading.options_to,
        };
        let mut places = Range {
            from: rereading.options_from,
            to: rereading.options_to,
        };
        for (kind, at, body) in [
            (6, 2, 4..8),
            (4, 8, 10..12),
            (9, 13, 15..15),
            (191, 15, 17..18),
        ] {
            let found = next_option(&packet, true, rest).unwrap();
            assert_eq!((found.kind, found.offset.0), (kind, start + at));
            assert_eq!(
                (found.body.from, found.body.to),
                (start + body.start, start + body.end)
            );
            let again = next_reread_option(original, true, places).unwrap();
            assert_eq!((again.kind, again.offset), (found.kind, found.offset));
            assert_eq!(
                (again.body.from + 8, again.body.to + 8),
                (found.body.from, found.body.to)
            );
            rest.from = found.body.to;
            places.from = again.body.to;
        }
        assert_eq!(next_option(&packet, true, rest), None);
        assert_eq!(next_reread_option(original, true, places), None);
    }
}

/// The step as it is defined: bytes are cut off the front one by one.
fn slow_step(bytes: &[u8], read: bool, rest: Range) -> Option<(u8, usize, Range)> {
    if !read || rest.from > rest.to || rest.to > bytes.len() {
        return None;
    }
    let mut at = rest.from;
    while at < rest.to && bytes[at] == 1 {
        at += 1;
    }
    let option = &bytes[at..rest.to];
    let kind = *option.first()?;
    let (header, whole) = match option.get(1)? {
        255 => (
            4,
            usize::from(*option.get(2)?) * 256 + usize::from(*option.get(3)?),
        ),
        length => (2, usize::from(*length)),
    };
    let sound = match kind {
        0 | 1 | 192..=255 => false,
        2 | 6 | 7 => whole == 6,
        3 => whole == 10 || whole == 12,
        4 => whole == 4,
        5 => whole == 5,
        8 => whole == 10,
        9..=191 if header == 2 => whole >= 2,
        9..=191 => whole >= 255,
    };
    // No fixed kind has a length that the extended form may have.
    let sound = sound && (header == 2 || whole >= 255) && whole <= option.len();
    let body = Range {
        from: at + header,
        to: at + whole,
    };
    sound.then_some((kind, at, body))
}

/// Both steps from here on, until there is no option.
fn compare_steps(bytes: &[u8], read: bool, mut rest: Range, seen: &mut [usize; 4]) {
    loop {
        let expected = slow_step(bytes, read, rest);
        let with = |origin: usize| {
            expected.map(|(kind, at, body)| Standing {
                kind,
                offset: PacketOffset(origin + at),
                body,
            })
        };
        assert_eq!(
            next_option(bytes, read, rest),
            with(0),
            "{rest:?} {bytes:02x?}"
        );
        assert_eq!(next_reread_option(bytes, read, rest), with(8), "{rest:?}");
        let Some((kind, at, body)) = expected else {
            seen[0] += 1;
            return;
        };
        seen[1] += 1;
        seen[2] += usize::from(kind == 3);
        seen[3] += usize::from(body.from - at == 4);
        rest.from = body.to;
    }
}

#[test]
fn steps_of_every_kind_and_length() {
    let mut seen = [0; 4];
    for kind in 0..=255 {
        for length in 0..=255 {
            for behind in [[0u8, 9, 1, 6], [1, 0, 6, 3], [0, 254, 9, 2], [255; 4]] {
                let mut bytes = vec![1, kind, length];
                bytes.extend(behind);
                bytes.extend([9, 2].repeat(126));
                for rest in [(0, bytes.len()), (1, bytes.len()), (1, 7), (1, 3), (2, 20)] {
                    let (from, to) = rest;
                    compare_steps(&bytes, true, Range { from, to }, &mut seen);
                }
            }
        }
    }
    assert!(seen.iter().all(|count| *count > 10), "{seen:?}");
}

/// From the front of lists, and from anywhere in payloads and originals.
#[test]
fn steps_from_anywhere() {
    let mut random = Random::new(7);
    let mut seen = [0; 4];
    for _ in 0..60_000 {
        let bytes = if random.one_in(2) {
            datagram(&mut random).payload
        } else {
            original(&mut random).0
        };
        let length = bytes.len();
        let (from, to) = match random.below(8) {
            0 => (random.below(length + 2), random.below(length + 2)),
            1 => (usize::MAX, random.pick(&[0, length, usize::MAX])),
            2 => (0, length + 1),
            _ => (random.below(length + 1).min(60), length),
        };
        let read = !random.one_in(20);
        compare_steps(&bytes, read, Range { from, to }, &mut seen);
    }
    assert!(seen.iter().all(|count| *count > 100), "{seen:?}");
}

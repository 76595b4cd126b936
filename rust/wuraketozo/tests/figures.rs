//! Document 01, "Figures to check by hand", and cases of document 02's requests,
//! on the proved library.

use wuraketozo::*;

const FLOW: Flow = Flow {
    source: [192, 0, 2, 1],
    destination: [198, 51, 100, 7],
    source_port: 4_660,
    destination_port: 53,
};

/// The surplus area that the writer makes.
fn area(user: &[u8], list: &[u8], fill: u8) -> Vec<u8> {
    let mut buffer = [0xEE; 400];
    let length = write(&FLOW, user, list, fill, &mut buffer).unwrap();
    assert!(buffer[length..].iter().all(|&byte| byte == 0xEE));
    buffer[8 + user.len()..length].to_vec()
}

/// The verdict on an area behind user data, with UDP checksum 0.
fn verdict(user: &[u8], area: &[u8]) -> Verdict {
    verdicts(user, area).0
}

/// The verdict in plain and in strict reading. A strict one but `Padded` is the
/// plain one.
fn verdicts(user: &[u8], area: &[u8]) -> (Verdict, Verdict) {
    let length = (8 + user.len()) as u16;
    let mut payload = vec![0, 1, 0, 2];
    payload.extend(length.to_be_bytes());
    payload.extend([0, 0]);
    payload.extend(user);
    payload.extend(area);
    let read = |strictness| read(&payload, FLOW.source, FLOW.destination, strictness).unwrap();
    let (plain, strict) = (read(Strictness::Plain), read(Strictness::Strict));
    assert!(strict == plain || matches!(strict.verdict, Verdict::Padded(_)));
    (plain.verdict, strict.verdict)
}

/// Faults with the offset where they are met.
fn malformed(at: usize) -> Verdict {
    Verdict::Malformed(PacketOffset(at))
}

fn unsafe_kind(at: usize) -> Verdict {
    Verdict::Unsafe(PacketOffset(at))
}

fn fragdata(at: usize) -> Verdict {
    Verdict::FragData(PacketOffset(at))
}

fn crowded(at: usize) -> Verdict {
    Verdict::Crowded(PacketOffset(at))
}

fn tail(at: usize) -> Verdict {
    Verdict::Tail(PacketOffset(at))
}

fn padded(at: usize) -> Verdict {
    Verdict::Padded(PacketOffset(at))
}

/// The plan for so many originals at once.
fn plan(originals: u64) -> Plan {
    Plan::new(originals).unwrap()
}

/// A table of one client, and calls with fewer words.
struct One {
    records: Vec<Client>,
    store: Vec<u8>,
    out: Vec<u8>,
}

impl One {
    /// With a plan of four.
    fn new() -> One {
        One::with(plan(4))
    }

    fn with(plan: Plan) -> One {
        let mut one = One {
            records: vec![Client::new(plan)],
            store: vec![0x5A; plan.share()],
            out: vec![0xEE; ORIGINAL_LIMIT],
        };
        one.table().reset().unwrap();
        one
    }

    fn table(&mut self) -> Table<'_> {
        Table::new(&mut self.records, &mut self.store)
    }

    fn offer(
        &mut self,
        time: u64,
        identification: u32,
        place: usize,
        bytes: &[u8],
        last: bool,
    ) -> Result<Answer, Refusal> {
        let arrival = Arrival {
            time,
            flow: FLOW,
            identification,
            place: Place(place),
            last,
            option_start: Place(0),
        };
        let mut table = Table::new(&mut self.records, &mut self.store);
        table.offer(0, &arrival, bytes, &mut self.out)
    }

    fn account(&mut self) -> Account {
        self.table().account(0).unwrap()
    }
}

#[test]
fn figures_1_to_4_areas_written() {
    let token = [1, 6, 0xAC, 2];
    assert_eq!(area(&[], &token, 0), [0xF8, 0xC5, 6, 6, 0, 0, 1, 0x2C]);
    assert_eq!(area(&[7], &token, 0), [0, 0xF8, 0xC4, 6, 6, 0, 0, 1, 0x2C]);
    assert_eq!(area(&[], &[0], 0), [0xFF, 0xFD]);
    // 63,985 as a seven-bit number is F1 F3 03.
    let area = area(&[], &[1, 6, 0xF1, 0xF3, 3], 0);
    assert_eq!(area[..2], [0xFF, 0xFF]);
    assert_eq!(verdict(&[], &area), Verdict::Read);
}

#[test]
fn figures_5_to_7_verdicts() {
    assert_eq!(verdict(&[], &[0]), Verdict::Short);
    assert_eq!(verdict(&[7], &[1, 0xFF, 0xFD]), Verdict::Pad);
    assert_eq!(verdict(&[], &[0, 0, 6, 5, 0, 0, 0]), malformed(10));
}

/// Document 02, R-2: bytes behind EOL.
#[test]
fn tails() {
    assert_eq!(verdict(&[], &[0, 0, 0]), Verdict::Read);
    assert_eq!(verdict(&[7], &[0, 0, 0, 0, 0, 0]), Verdict::Read);
    assert_eq!(verdict(&[], &[0, 0, 0, 1]), tail(11));
    assert_eq!(verdict(&[7], &[0, 0, 0, 0, 0, 1, 1]), tail(14));
    // A fault in front of EOL is met first; one behind it is none.
    assert_eq!(verdict(&[], &[0, 0, 192, 0, 1]), unsafe_kind(10));
    assert_eq!(verdict(&[], &[0, 0, 0, 192]), tail(11));
    // User data and REQ 300, a byte of fill and a bad one: no option is listed.
    let payload = [
        0, 1, 0, 2, 0, 10, 0, 0, b'o', b'k', 0, 0, 6, 6, 0, 0, 1, 0x2C, 0, 0, 5,
    ];
    delivers_alone(&payload, Strictness::Plain, tail(20));
}

/// A payload with L = 10 whose two bytes of user data are delivered with a
/// fault, and as an original too, where the fault has the same offset: nothing is
/// reported, and no option is listed or walked.
fn delivers_alone(payload: &[u8], strictness: Strictness, verdict: Verdict) {
    let reading = read(payload, FLOW.source, FLOW.destination, strictness).unwrap();
    assert_eq!(reading.user_data(payload), b"ok");
    assert_eq!(reading.verdict, verdict);
    assert_eq!(reading.options, 0..0);
    assert_eq!((reading.count, reading.fill), (0, 0));
    assert_eq!(reading.apc, Apc::None);
    let mut buffer = [0xEE; 8];
    let listing = list(payload, &reading, &mut buffer).unwrap();
    assert_eq!((listing.size, listing.fill, buffer[0]), (1, 0, 0));
    assert_eq!(walk(payload, &reading).next(), None);
    // The same as an original: delivered, and no refusal.
    let original = &payload[8..];
    let rereading = reread(original, Place(2), strictness).unwrap();
    assert_eq!(rereading.user_data(original), b"ok");
    assert_eq!(rereading.verdict, verdict);
    assert_eq!(rereading.options, Place(0)..Place(0));
    assert_eq!((rereading.count, rereading.fill), (0, 0));
    let mut buffer = [0xEE; 8];
    let listing = relist(original, &rereading, &mut buffer).unwrap();
    assert_eq!((listing.size, listing.fill, buffer[0]), (1, 0, 0));
    assert_eq!(rewalk(original, &rereading).next(), None);
}

/// Document 02, R-6: more than seven NOPs in a row.
#[test]
fn runs_of_nops() {
    let with = |parts: &[&[u8]]| verdicts(&[], &[&[0, 0], &parts.concat()[..]].concat());
    for count in 0..20 {
        let run = [1].repeat(count);
        // Of a run from `at` on.
        let strict = |at: usize, plain: Verdict| if count < 8 { plain } else { padded(at + 7) };
        for (list, at) in [
            (with(&[&run]), 10),
            (with(&[&run, &[9, 2]]), 10),
            (with(&[&[9, 2], &run, &[9, 2]]), 12),
            (with(&[&[9, 2], &run, &[0, 0]]), 12),
        ] {
            assert_eq!(list, (Verdict::Read, strict(at, Verdict::Read)));
        }
        // What stands in front is met first.
        let run_first = with(&[&run, &[192]]);
        let found = unsafe_kind(10 + count);
        assert_eq!(run_first, (found.clone(), strict(10, found)));
        let fault_first = with(&[&[192], &run]);
        assert_eq!(fault_first, (unsafe_kind(10), unsafe_kind(10)));
        // Before a fragment's option, with user data.
        let start = 22 + count as u8;
        let area = [&[0, 0], &run[..], &[3, 10, 0, start, 0, 0, 0, 7, 0, 8]].concat();
        let found = fragdata(12 + count);
        assert_eq!(verdicts(b"ok", &area), (found.clone(), strict(12, found)));
    }
    let seven = [1; 7];
    let around = with(&[&seven, &[9, 2], &seven]);
    assert_eq!(around, (Verdict::Read, Verdict::Read));
    // A body of ones, and ones behind EOL.
    let body = with(&[&[9, 12], &[1; 10]]);
    assert_eq!(body, (Verdict::Read, Verdict::Read));
    let behind_eol = with(&[&[0], &[1; 10]]);
    assert_eq!(behind_eol, (tail(11), tail(11)));
}

#[test]
fn padded_reports_nothing() {
    // User data and REQ 300, then eight NOPs.
    let mut payload = vec![0, 1, 0, 2, 0, 10, 0, 0, b'o', b'k', 0, 0];
    payload.extend([6, 6, 0, 0, 1, 0x2C, 1, 1, 1, 1, 1, 1, 1, 1]);
    delivers_alone(&payload, Strictness::Strict, padded(25));
    // Plain reading reads and lists it.
    let original = &payload[8..];
    let mut buffer = [0xEE; 8];
    let rereading = reread(original, Place(2), Strictness::Plain).unwrap();
    assert_eq!(rereading.verdict, Verdict::Read);
    let listing = relist(original, &rereading, &mut buffer).unwrap();
    assert_eq!(buffer[..listing.size], [1, 6, 0xAC, 2]);
}

/// A fragment with eight NOPs before or behind its option is none in strict
/// reading, and touches nothing.
#[test]
fn padded_fragments() {
    let head = [0x12, 0x34, 0, 53, 0, 8, 0, 0, 0, 0];
    let mut one = One::new();
    let mut out = [0; ORIGINAL_LIMIT];
    let mut receive = |before: usize, behind: usize, identification: u8, strictness| {
        let start = (20 + before + behind) as u8;
        let frag = [3, 10, 0, start, 0, 0, 0, identification, 0, 8];
        let payload = [
            &head[..],
            &[1].repeat(before),
            &frag,
            &[1].repeat(behind),
            b"ab",
        ]
        .concat();
        one.table().receive(
            0,
            5,
            FLOW.source,
            FLOW.destination,
            strictness,
            &payload,
            &mut out,
        )
    };
    for (before, behind, eighth) in [(8, 0, 17), (0, 8, 27), (7, 8, 34), (20, 20, 17)] {
        let Received::Datagram(reading) = receive(before, behind, 1, Strictness::Strict) else {
            panic!("no datagram");
        };
        assert_eq!((reading.verdict, reading.user), (padded(eighth), 8..8));
    }
    let stored = Received::Fragment(Ok(Answer::Stored));
    assert_eq!(receive(7, 7, 1, Strictness::Strict), stored);
    assert_eq!(receive(8, 8, 2, Strictness::Plain), stored);
    let account = one.account();
    assert_eq!((account.offered, account.held), (4, 4));
}

#[test]
fn figure_8_list_not_in_shortest_form() {
    let mut buffer = [0xEE; 64];
    let refused = write(&FLOW, &[], &[1, 6, 0x80, 0], 0, &mut buffer);
    assert_eq!(refused, Err(Refusal::UnreadableList));
    assert_eq!(refused.unwrap_err().number(), 7);
    assert_eq!(buffer, [0xEE; 64]);
}

#[test]
fn figure_9_either_order() {
    let delivered = Ok(Answer::Delivered {
        length: 12,
        option_start: Place(0),
    });
    let mut one = One::new();
    assert_eq!(one.offer(0, 7, 0, b"01234567", false), Ok(Answer::Stored));
    assert_eq!(one.offer(0, 7, 8, b"89ab", true), delivered);
    assert_eq!(&one.out[..12], b"0123456789ab");
    assert!(one.out[12..].iter().all(|&byte| byte == 0xEE));
    let mut one = One::new();
    assert_eq!(one.offer(0, 7, 8, b"89ab", true), Ok(Answer::Stored));
    assert_eq!(one.offer(0, 7, 0, b"01234567", false), delivered);
    assert_eq!(&one.out[..12], b"0123456789ab");
    assert_eq!(one.account().delivered, 12);
}

#[test]
fn figure_10_conflict() {
    let mut one = One::new();
    assert_eq!(one.offer(0, 7, 0, b"01234567", false), Ok(Answer::Stored));
    assert_eq!(one.offer(0, 7, 7, b"78", false), Ok(Answer::Conflict));
    let account = one.account();
    assert_eq!((account.offered, account.conflicted), (10, 10));
}

#[test]
fn figure_11_expiry() {
    let mut one = One::new();
    assert_eq!(one.offer(0, 7, 0, b"01234567", false), Ok(Answer::Stored));
    assert_eq!(one.table().advance(0, 119_999), Ok(()));
    assert_eq!(one.account().held, 8);
    assert_eq!(one.table().advance(0, 120_000), Ok(()));
    let account = one.account();
    assert_eq!((account.held, account.expired), (0, 8));
    assert_eq!(
        one.table().advance(0, 119_999),
        Err(Refusal::TimeBeforeLast)
    );
}

/// As document 02 has it: of a plan of four.
#[test]
fn figure_12_fifth_key() {
    let mut one = One::new();
    assert_eq!(one.offer(0, 0, 0, b"x", false), Ok(Answer::Stored));
    for identification in 1..4 {
        let answer = one.offer(10, identification, 0, b"x", false);
        assert_eq!(answer, Ok(Answer::Stored));
    }
    assert_eq!(
        one.offer(11, 4, 0, b"x", false),
        Err(Refusal::NoFreeAssembly)
    );
    assert_eq!(one.offer(120_000, 4, 0, b"x", false), Ok(Answer::Stored));
    let account = one.account();
    assert_eq!((account.rejected, account.expired), (1, 1));
}

/// As document 02 has it.
#[test]
fn figure_13_limits() {
    assert_eq!((ORIGINAL_LIMIT, FRAGMENT_LIMIT), (8_192, 64));
    let mut one = One::new();
    let end = ORIGINAL_LIMIT - 1;
    assert_eq!(one.offer(0, 1, end, b"x", false), Ok(Answer::Stored));
    let past = Err(Refusal::EndPastLimit);
    assert_eq!(one.offer(0, 1, ORIGINAL_LIMIT, b"x", false), past);
    let delivered = Ok(Answer::Delivered {
        length: ORIGINAL_LIMIT,
        option_start: Place(0),
    });
    assert_eq!(one.offer(0, 3, 0, &[7; ORIGINAL_LIMIT], true), delivered);
    assert_eq!(one.offer(0, 3, 0, &[7; ORIGINAL_LIMIT + 1], true), past);
    for number in 0..FRAGMENT_LIMIT {
        assert_eq!(one.offer(0, 2, 2 * number, b"x", false), Ok(Answer::Stored));
    }
    let full = Err(Refusal::AssemblyFull);
    assert_eq!(one.offer(0, 2, 2 * FRAGMENT_LIMIT, b"x", false), full);
    let mut one = One::new();
    one.out.pop();
    assert_eq!(one.offer(0, 1, 0, b"x", true), Err(Refusal::OutTooShort));
    one.store.pop();
    assert_eq!(one.table().reset(), Err(Refusal::TableMisfit));
    let mut options = vec![0, 0];
    options.extend([9, 2].repeat(32));
    assert_eq!(verdict(&[], &options), Verdict::Read);
    options.extend([9, 2]);
    assert_eq!(verdict(&[], &options), crowded(74));
}

/// A number as the texts of refusals have it.
fn grouped(number: usize) -> String {
    match number / 1_000 {
        0 => number.to_string(),
        thousands => format!("{thousands},{:03}", number % 1_000),
    }
}

/// The texts of refusals name the limits.
#[test]
fn texts_have_the_limits() {
    for (refusal, limit) in [
        (Refusal::TableMisfit, CLIENT_LIMIT),
        (Refusal::PlanOutOfRange, ASSEMBLY_LIMIT),
        (Refusal::OutTooShort, ORIGINAL_LIMIT),
        (Refusal::EndPastLimit, ORIGINAL_LIMIT),
        (Refusal::AssemblyFull, FRAGMENT_LIMIT),
    ] {
        let (text, number) = (refusal.to_string(), grouped(limit));
        let mut words = text.split([' ', ':']);
        assert!(words.any(|word| word == number), "{text}: {number}");
    }
}

/// As many fragments as an original may have, of the longest one, in four
/// orders: nothing is handed out before the last of them.
#[test]
fn the_most_fragments_of_the_longest_original() {
    const MOST: usize = FRAGMENT_LIMIT;
    let step = ORIGINAL_LIMIT / MOST;
    let orders: [fn(usize) -> usize; 4] = [
        |at| at,
        |at| MOST - 1 - at,
        |at| at * 27 % MOST,
        |at| {
            if at % 2 == 0 {
                at / 2
            } else {
                MOST - 1 - at / 2
            }
        },
    ];
    for order in orders {
        let mut one = One::new();
        for number in 0..MOST {
            let at = order(number);
            let answer = one.offer(0, 1, at * step, &vec![at as u8; step], at + 1 == MOST);
            if number + 1 < MOST {
                assert_eq!(answer, Ok(Answer::Stored));
                assert!(one.out.iter().all(|&byte| byte == 0xEE));
                assert_eq!(one.account().held, ((number + 1) * step) as u64);
            } else {
                let delivered = Answer::Delivered {
                    length: ORIGINAL_LIMIT,
                    option_start: Place(0),
                };
                assert_eq!(answer, Ok(delivered));
            }
        }
        let wanted: Vec<u8> = (0..ORIGINAL_LIMIT).map(|at| (at / step) as u8).collect();
        assert!(one.out == wanted);
        assert_eq!(one.account().held, 0);
    }
}

/// Document 02, R-7: the offset where a fault was met, behind other options and
/// NOPs, at an odd and an even UDP length, in a fragment's list.
#[test]
fn faults_where_they_were_met() {
    const REQ: [u8; 6] = [6, 6, 0, 0, 1, 44];
    let frag = |start: u8| [3, 10, 0, start, 0, 0, 0, 7, 0, 8];
    // Behind no data the list starts at 10, behind one byte at 12.
    let even = |parts: &[&[u8]]| verdict(&[], &[&[0, 0], &parts.concat()[..]].concat());
    let odd = |parts: &[&[u8]]| verdict(&[7], &[&[0, 0, 0], &parts.concat()[..]].concat());
    assert_eq!(even(&[&REQ, &[9, 1]]), malformed(16));
    assert_eq!(odd(&[&[1, 1], &REQ, &[1], &[9]]), malformed(21));
    // A fragment's option in a wrong place: its own kind byte.
    assert_eq!(even(&[&REQ, &frag(26)]), malformed(16));
    assert_eq!(odd(&[&[9, 2, 1], &frag(25)]), malformed(15));
    // With a bad field, and a second one in the first one's list.
    assert_eq!(even(&[&[1], &frag(20)]), malformed(11));
    assert_eq!(even(&[&frag(31), &[1], &frag(31)]), malformed(21));
    assert_eq!(even(&[&frag(24), &[9, 2, 9, 3], b"xy"]), malformed(22));
    assert_eq!(even(&[&REQ, &[1, 1], &[192]]), unsafe_kind(18));
    assert_eq!(odd(&[&REQ, &[200, 2]]), unsafe_kind(18));
    assert_eq!(even(&[&frag(22), &[1, 192], b"xy"]), unsafe_kind(21));
    assert_eq!(odd(&[&[1, 1, 1], &frag(25)]), fragdata(15));
    assert_eq!(odd(&[&[9, 2].repeat(33)]), crowded(76));
    let others = [&REQ, &[9, 2].repeat(31)[..]].concat();
    assert_eq!(even(&[&others, &[1, 1], &REQ, &REQ]), crowded(80));
    // The fragment's option is the first of 33.
    assert_eq!(even(&[&frag(88), &REQ, &[9, 2].repeat(31)]), crowded(86));
    assert_eq!(odd(&[&REQ, &[0, 0, 0, 5, 5]]), tail(21));
    assert_eq!(even(&[&frag(25), &[9, 2, 0, 0, 8], b"xy"]), tail(24));
}

/// Where the options of a payload and of the same bytes as an original stand.
#[test]
fn options_where_they_stand() {
    // Two NOPs, REQ 300, kind 9 without a body, an extended option of 255
    // bytes, MDS, and a fill of two.
    let mut area = vec![0, 0, 1, 1, 6, 6, 0, 0, 1, 44, 9, 2, 10, 255, 0, 255];
    area.extend([192; 251]);
    area.extend([4, 4, 5, 220, 0, 0]);
    for user in [&b"ok"[..], b"odd"] {
        let odd = user.len() % 2;
        let mut payload = vec![0, 1, 0, 2, 0, 8 + user.len() as u8, 0, 0];
        payload.extend(user);
        payload.extend(vec![0; odd]);
        payload.extend(&area);
        // The list starts at 12, or behind the pad at 14.
        let start = 12 + 2 * odd;
        let at = |place: usize| PacketOffset(start + place);
        let expected = [
            (6, at(2), &[0, 0, 1, 44][..]),
            (9, at(8), &[]),
            (10, at(10), &[192; 251]),
            (4, at(265), &[5, 220]),
        ];
        let expected = expected.map(|(kind, offset, body)| Located { kind, offset, body });
        for strictness in [Strictness::Plain, Strictness::Strict] {
            let reading = read(&payload, FLOW.source, FLOW.destination, strictness).unwrap();
            let options: Vec<Located> = walk(&payload, &reading).collect();
            assert_eq!(options, expected);
            let original = &payload[8..];
            let rereading = reread(original, Place(user.len()), strictness).unwrap();
            let options: Vec<Located> = rewalk(original, &rereading).collect();
            assert_eq!(options, expected);
            // The listing has the same kinds.
            let mut buffer = [0; 300];
            let listing = list(&payload, &reading, &mut buffer).unwrap();
            let kinds: Vec<u8> = entries(&buffer[..listing.size]).map(|e| e.kind).collect();
            assert_eq!(kinds, [6, 9, 10, 4]);
        }
    }
}

/// A walk over a reading that was made up: what has the form of an option.
#[test]
fn made_up_walks() {
    let payload = [
        0x12, 0x34, 0, 53, 0, 8, 0, 0, 0, 0, //
        3, 10, 0, 20, 0, 0, 0, 7, 0, 8, 9, 3, 200, 192,
    ];
    let plain = Strictness::Plain;
    let piece = read(&payload, FLOW.source, FLOW.destination, plain).unwrap();
    assert_eq!(piece.verdict.number(), 10);
    assert_eq!(walk(&payload, &piece).next(), None);
    let over = |options, verdict| Reading {
        options,
        verdict,
        ..piece.clone()
    };
    let kinds = |reading: &Reading| -> Vec<(u8, usize)> {
        walk(&payload, reading)
            .map(|option| (option.kind, option.offset.0))
            .collect()
    };
    // FRAG too; the walk ends before the unsafe kind.
    assert_eq!(kinds(&over(10..24, Verdict::Read)), [(3, 10), (9, 20)]);
    assert_eq!(kinds(&over(20..24, Verdict::Read)), [(9, 20)]);
    assert_eq!(kinds(&over(20..24, malformed(20))), []);
    assert_eq!(kinds(&over(20..22, Verdict::Read)), []);
    assert_eq!(kinds(&over(20..25, Verdict::Read)), []);
    assert_eq!(kinds(&over(usize::MAX..usize::MAX, Verdict::Read)), []);
    let turned = core::ops::Range { start: 24, end: 20 };
    assert_eq!(kinds(&over(turned, Verdict::Read)), []);
    // A walk that has ended stays so.
    let reading = over(20..24, Verdict::Read);
    let mut options = walk(&payload, &reading);
    assert_eq!((&mut options).count(), 1);
    assert_eq!((options.next(), options.next()), (None, None));
}

#[test]
fn written_read_and_listed() {
    let list_in = [3, 2, 6, 0xAC, 2, 9, 2, 0xCA, 0xFE];
    let mut payload = [0xEE; 64];
    let length = write(&FLOW, b"level 412 cm", &list_in, 1, &mut payload).unwrap();
    let payload = &payload[..length];
    let read = |strictness| read(payload, FLOW.source, FLOW.destination, strictness);
    let reading = read(Strictness::Plain).unwrap();
    assert_eq!(read(Strictness::Strict).as_ref(), Ok(&reading));
    assert_eq!(reading.user_data(payload), b"level 412 cm");
    assert_eq!(reading.verdict, Verdict::Read);
    assert_eq!((reading.count, reading.fill), (3, 1));
    assert_eq!(reading.apc, Apc::Right);
    let mut buffer = [0xEE; 20];
    let listing = list(payload, &reading, &mut buffer).unwrap();
    assert_eq!(buffer[..listing.size], list_in);
    assert_eq!(listing.fill, 1);
    let short = list(payload, &reading, &mut buffer[..8]);
    assert_eq!(short, Err(Refusal::TooLarge));
    let kinds: Vec<u8> = entries(&list_in).map(|entry| entry.kind).collect();
    assert_eq!(kinds, [2, 6, 9]);
}

#[test]
fn one_call_for_each_datagram() {
    // Two fragments of "level 412 cm", made by hand, both without sums.
    let head = [0x12, 0x34, 0, 53, 0, 8, 0, 0, 0, 0];
    let first = [&head[..], &[3, 10, 0, 20, 0, 0, 0, 7, 0, 8], b"level "].concat();
    let last = [
        &head[..],
        &[3, 12, 0, 22, 0, 0, 0, 7, 0, 14, 0, 20],
        b"412 cm",
    ]
    .concat();
    let mut one = One::new();
    let mut out = [0; ORIGINAL_LIMIT];
    let mut table = one.table();
    let (source, destination, plain) = (FLOW.source, FLOW.destination, Strictness::Plain);
    let mut receive =
        |payload: &[u8]| table.receive(0, 5, source, destination, plain, payload, &mut out);
    assert_eq!(receive(&last), Received::Fragment(Ok(Answer::Stored)));
    assert_eq!(receive(&last), Received::Fragment(Ok(Answer::Repeated)));
    let delivered = Answer::Delivered {
        length: 12,
        option_start: Place(12),
    };
    assert_eq!(receive(&first), Received::Fragment(Ok(delivered)));
    assert_eq!(
        receive(&first[..7]),
        Received::Unread(Refusal::PayloadTooShort)
    );
    let Received::Datagram(reading) = receive(&head[..8]) else {
        panic!("no datagram");
    };
    assert_eq!(reading.verdict, Verdict::Bare);
    // FRAG, EOL and another byte before the part, which starts at 22: no
    // fragment. With the part right behind EOL, at 21, it is one.
    let mut behind_eol = [&head[..], &[3, 10, 0, 22, 0, 0, 0, 8, 0, 8], &[0, 5, 6]].concat();
    let Received::Datagram(reading) = receive(&behind_eol) else {
        panic!("no datagram");
    };
    assert_eq!(reading.verdict, tail(21));
    assert_eq!(reading.user, 8..8);
    behind_eol[13] = 21;
    assert_eq!(receive(&behind_eol), Received::Fragment(Ok(Answer::Stored)));
    assert_eq!(&out[..12], b"level 412 cm");
    let account = one.account();
    assert_eq!((account.offered, account.held), (20, 2));
}

#[test]
fn empty_slices_and_misfits_are_refused() {
    assert_eq!(
        read(&[], FLOW.source, FLOW.destination, Strictness::Strict),
        Err(Refusal::PayloadTooShort)
    );
    let rereading = reread(&[], Place(0), Strictness::Strict).unwrap();
    assert_eq!(rereading.verdict, Verdict::Bare);
    assert_eq!(rewalk(&[], &rereading).next(), None);
    let empty = write(&FLOW, &[], &[], 0, &mut []);
    assert_eq!(empty, Err(Refusal::UnreadableList));
    let mut table = Table::new(&mut [], &mut []);
    assert_eq!(table.reset(), Err(Refusal::TableMisfit));
    assert_eq!(table.account(0), Err(Refusal::TableMisfit));
    let mut one = One::new();
    assert_eq!(one.offer(0, 1, 0, &[], false), Err(Refusal::EmptyFragment));
    assert_eq!(one.table().account(1), Err(Refusal::NoSuchClient));
}

#[test]
fn forged_records_are_refused() {
    let mut one = One::new();
    one.records[0].held = 1;
    assert_eq!(one.table().account(0), Err(Refusal::UnsoundRecord));
    one.records[0] = Client::new(plan(4));
    assert_eq!(one.account(), Account::default());
}

#[test]
fn plans() {
    assert_eq!(ASSEMBLY_LIMIT, 8);
    for originals in 1..=8 {
        let plan = plan(originals);
        assert_eq!(plan.get(), originals);
        assert_eq!(plan.share(), originals as usize * 8_192);
        let record = Client::new(plan);
        assert_eq!(record.plan, originals);
        // All zeros but the plan, which comes first.
        let mut bytes = [0; Client::SIZE];
        bytes[..8].copy_from_slice(&originals.to_ne_bytes());
        assert_eq!(record.to_bytes(), bytes);
    }
    assert_eq!((plan(1), plan(8)), (Plan::SMALLEST, Plan::LARGEST));
    for number in NO_PLANS {
        assert_eq!(Plan::new(number), None);
    }
    let mut records = [3, 8, 1].map(|originals| Client::new(plan(originals)));
    assert_eq!(store_length(&records), 12 * 8_192);
    assert_eq!(store_length(&[]), 0);
    records[1].plan = u64::MAX;
    assert_eq!(store_length(&records), 4 * 8_192);
}

/// Numbers that are no plan.
const NO_PLANS: [u64; 7] = [0, 9, 10, 256, 257, 1 << 32 | 1, u64::MAX];

/// Document 02, R-8: a client has as many places as its plan says.
#[test]
fn as_many_originals_as_the_plan_allows() {
    for originals in 1..=8 {
        let mut one = One::with(plan(originals));
        for identification in 0..originals as u32 {
            let answer = one.offer(0, identification, 0, b"x", false);
            assert_eq!(answer, Ok(Answer::Stored));
        }
        let more = one.offer(0, 99, 0, b"x", false);
        assert_eq!(more, Err(Refusal::NoFreeAssembly));
        let account = one.account();
        assert_eq!((account.held, account.rejected), (originals, 1));
        assert_eq!(one.records[0].plan, originals);
        // The set-up keeps the plan and makes all else fresh.
        one.table().reset().unwrap();
        assert_eq!(one.records, [Client::new(plan(originals))]);
        // A live place past the plan, the only thing that is wrong.
        let mut one = One::with(plan(originals));
        assert_eq!(one.offer(0, 1, 0, b"x", false), Ok(Answer::Stored));
        let held = one.records[0];
        for place in 0..ASSEMBLY_LIMIT {
            one.records[0] = held;
            one.records[0].assemblies.swap(0, place);
            let sound = (place as u64) < originals;
            let answer = one.table().account(0).map(|account| account.held);
            let unsound = Err(Refusal::UnsoundRecord);
            assert_eq!(answer, if sound { Ok(1) } else { unsound });
        }
    }
}

/// Three records with any numbers as plans.
fn three(plans: [u64; 3]) -> Vec<Client> {
    let with = |number| Client {
        plan: number,
        ..Client::new(Plan::SMALLEST)
    };
    plans.map(with).to_vec()
}

/// Every call on a table is refused with this, and changes nothing.
fn refused(records: &[Client], length: usize, refusal: Refusal) {
    let (mut records, before) = (records.to_vec(), records);
    let mut store = vec![0x5A; length];
    let mut out = [0xEE; ORIGINAL_LIMIT];
    let mut table = Table::new(&mut records, &mut store);
    assert_eq!(table.reset(), Err(refusal));
    let arrival = Arrival {
        time: 5,
        flow: FLOW,
        identification: 7,
        place: Place(0),
        last: true,
        option_start: Place(0),
    };
    let mut fragment = vec![0x12, 0x34, 0, 53, 0, 8, 0, 0, 0, 0];
    fragment.extend([3, 12, 0, 22, 0, 0, 0, 7, 0, 8, 0, 10, b'o', b'k']);
    for client in 0..=before.len() {
        assert_eq!(table.account(client), Err(refusal));
        assert_eq!(table.advance(client, 5), Err(refusal));
        let offered = table.offer(client, &arrival, b"ok", &mut out);
        assert_eq!(offered, Err(refusal));
        let (source, destination, plain) = (FLOW.source, FLOW.destination, Strictness::Plain);
        let mut receive =
            |payload| table.receive(client, 5, source, destination, plain, payload, &mut out);
        assert_eq!(receive(&fragment), Received::Fragment(Err(refusal)));
        // What is no fragment does not meet the table.
        assert!(matches!(receive(&fragment[..8]), Received::Datagram(_)));
    }
    assert!(records == before);
    assert!(store.iter().all(|&byte| byte == 0x5A));
    assert_eq!(out, [0xEE; ORIGINAL_LIMIT]);
}

/// Document 02, R-8: the record count, then the plans, then the store's length.
#[test]
fn plans_out_of_range_are_refused() {
    let sum = 11 * 8_192;
    for none in NO_PLANS {
        for plans in [[none, 8, 2], [1, none, 2], [1, 8, none]] {
            for length in [sum, sum - 1, 0, store_length(&three(plans))] {
                refused(&three(plans), length, Refusal::PlanOutOfRange);
            }
        }
    }
    let zeros = [Client::from_bytes([0; Client::SIZE]); 2];
    refused(&zeros, 0, Refusal::PlanOutOfRange);
    refused(&zeros, 2 * 8_192, Refusal::PlanOutOfRange);
    // 13 records.
    let many = three([9, 9, 9]).repeat(5);
    refused(&many[..13], 13 * 9 * 8_192, Refusal::TableMisfit);
    refused(&many[..12], 0, Refusal::PlanOutOfRange);
    let many = three([1, 8, 2]).repeat(5);
    refused(&many[..13], store_length(&many[..13]), Refusal::TableMisfit);
    refused(&[], 0, Refusal::TableMisfit);
    for length in [0, 8_192, sum - 8_192, sum - 1, sum + 1, 24 * 8_192] {
        refused(&three([1, 8, 2]), length, Refusal::TableMisfit);
    }
}

/// Each client's share stands directly behind those of the clients before it.
#[test]
fn shares_one_behind_another() {
    let plans = [3, 1, 8, 2];
    let mut records = plans.map(|originals| Client::new(plan(originals))).to_vec();
    let mut store = vec![0x5A; store_length(&records)];
    let mut wanted = store.clone();
    let mut out = [0xEE; ORIGINAL_LIMIT];
    let mut table = Table::new(&mut records, &mut store);
    table.reset().unwrap();
    let mut place = 0;
    for (client, originals) in plans.into_iter().enumerate() {
        for identification in 0..originals as u32 {
            let arrival = Arrival {
                time: 0,
                flow: FLOW,
                identification,
                place: Place(1),
                last: false,
                option_start: Place(0),
            };
            let bytes = [client as u8, identification as u8];
            let answer = table.offer(client, &arrival, &bytes, &mut out);
            assert_eq!(answer, Ok(Answer::Stored));
            wanted[place + 1..place + 3].copy_from_slice(&bytes);
            assert!(table.store() == wanted);
            place += ORIGINAL_LIMIT;
        }
    }
    assert_eq!(place, store.len());
}

/// A client that fills its places takes none from another.
#[test]
fn a_small_plan_beside_a_large_one() {
    let mut records = [Plan::LARGEST, Plan::SMALLEST].map(Client::new);
    let mut store = vec![0; store_length(&records)];
    let mut out = [0; ORIGINAL_LIMIT];
    let mut table = Table::new(&mut records, &mut store);
    table.reset().unwrap();
    let mut offer = |client, identification, place, bytes: &[u8], last| {
        let arrival = Arrival {
            time: 0,
            flow: FLOW,
            identification,
            place: Place(place),
            last,
            option_start: Place(0),
        };
        table.offer(client, &arrival, bytes, &mut out)
    };
    for identification in 0..8 {
        assert_eq!(
            offer(0, identification, 0, b"loop", false),
            Ok(Answer::Stored)
        );
    }
    let none = Err(Refusal::NoFreeAssembly);
    assert_eq!(offer(0, 8, 0, b"loop", false), none);
    assert_eq!(offer(1, 0, 6, b"412 cm", true), Ok(Answer::Stored));
    assert_eq!(offer(1, 1, 0, b"next", false), none);
    assert_eq!(offer(0, 9, 0, b"loop", false), none);
    let delivered = Answer::Delivered {
        length: 12,
        option_start: Place(0),
    };
    assert_eq!(offer(1, 0, 0, b"level ", false), Ok(delivered));
    assert_eq!(&out[..12], b"level 412 cm");
    let rejected = [0, 1].map(|client| table.account(client).unwrap().rejected);
    assert_eq!(rejected, [8, 4]);
}

#[test]
fn numbers_of_refusals() {
    let numbers: Vec<u32> = Refusal::ALL
        .iter()
        .map(|refusal| refusal.number())
        .collect();
    let expected: Vec<u32> = (1..=9).chain(20..=30).chain([32]).collect();
    assert_eq!(numbers, expected);
    assert_eq!(
        Refusal::ChecksumWrong.to_string(),
        "refused 4: the UDP checksum is wrong"
    );
}

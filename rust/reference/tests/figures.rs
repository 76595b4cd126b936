//! Document 01, "Figures to check by hand", 1 to 13.

use reference::table::{ASSEMBLIES, PIECES, PLACE};
use reference::*;

const SOURCE: [u8; 4] = [192, 0, 2, 1];
const DESTINATION: [u8; 4] = [192, 0, 2, 2];

/// The area that the writer makes.
fn area(user: &[u8], docket: &[u8], fill: u8) -> Vec<u8> {
    let mut buffer = [0xEE; 400];
    let length = write(SOURCE, DESTINATION, 1, 2, user, docket, fill, &mut buffer).unwrap();
    assert!(buffer[length..].iter().all(|&byte| byte == 0xEE));
    buffer[8 + user.len()..length].to_vec()
}

/// A payload with UDP checksum 0.
fn payload(user: &[u8], area: &[u8]) -> Vec<u8> {
    let length = (8 + user.len()) as u16;
    let mut payload = vec![0, 1, 0, 2];
    payload.extend(length.to_be_bytes());
    payload.extend([0, 0]);
    payload.extend(user);
    payload.extend(area);
    payload
}

fn verdict(user: &[u8], area: &[u8]) -> Verdict {
    let payload = payload(user, area);
    read(&payload, SOURCE, DESTINATION, Strictness::Plain)
        .unwrap()
        .verdict
}

struct One {
    records: Vec<Record>,
    store: Vec<u8>,
    out: Vec<u8>,
}

impl One {
    fn new() -> One {
        One::of(4)
    }

    fn of(plan: u64) -> One {
        let mut one = One {
            records: vec![fresh(plan); 1],
            store: vec![0; share(plan)],
            out: vec![0xEE; PLACE],
        };
        assert_eq!(set_up(&mut one.records, &one.store), Answer::SetUp);
        one
    }

    fn piece(&mut self, time: u64, id: u32, place: usize, bytes: &[u8], last: bool) -> Answer {
        let call = PieceCall {
            client: 0,
            time,
            flow: Flow::default(),
            identification: id,
            place,
            bytes,
            last,
            r: 0,
        };
        piece(&mut self.records, &mut self.store, &call, &mut self.out)
    }

    fn account(&self) -> Account {
        match bill(&self.records, &self.store, 0) {
            Answer::Billed(account) => account,
            other => panic!("{other:?}"),
        }
    }
}

#[test]
fn figure_01_token_300() {
    let expected = [0xF8, 0xC5, 6, 6, 0, 0, 1, 0x2C];
    assert_eq!(area(&[], &[1, 6, 0xAC, 2], 0), expected);
}

#[test]
fn figure_01_program_text() {
    let mut input = [SOURCE, DESTINATION].concat();
    let mut buffer = [0; 100];
    let docket = [1, 6, 0xAC, 2];
    let length = write(SOURCE, DESTINATION, 1, 2, &[], &docket, 0, &mut buffer).unwrap();
    input.extend(&buffer[..length]);
    // As document 02 has it.
    let text = "user 0\nverdict read\nkind 6 300 at 10\nfill 0\n";
    assert_eq!(report(&input), text);
}

#[test]
fn figure_02_after_one_data_byte() {
    let expected = [0, 0xF8, 0xC4, 6, 6, 0, 0, 1, 0x2C];
    assert_eq!(area(&[0x55], &[1, 6, 0xAC, 2], 0), expected);
}

#[test]
fn figure_03_empty_docket() {
    assert_eq!(area(&[], &[0], 0), [0xFF, 0xFD]);
}

#[test]
fn figure_04_sum_sent_as_ffff() {
    let docket = encode(&[ReadOption {
        kind: 6,
        fields: Fields::One(63_985),
    }]);
    let area = area(&[], &docket, 0);
    assert_eq!(area[..2], [0xFF, 0xFF]);
    assert_eq!(verdict(&[], &area), Verdict::Read);
}

#[test]
fn figure_05_short() {
    assert_eq!(verdict(&[], &[0]), Verdict::Short);
}

#[test]
fn figure_06_pad() {
    assert_eq!(verdict(&[7], &[1, 0xFF, 0xFD]), Verdict::Pad);
}

#[test]
fn figure_07_malformed() {
    let malformed = Verdict::Malformed(PacketOffset(10));
    assert_eq!(verdict(&[], &[0, 0, 6, 5, 0, 0, 0]), malformed);
}

#[test]
fn figure_08_not_shortest() {
    let mut buffer = [0xEE; 100];
    let docket = [1, 6, 0x80, 0];
    let answer = write(SOURCE, DESTINATION, 1, 2, &[], &docket, 0, &mut buffer);
    assert_eq!(answer, Err(7));
    assert_eq!(buffer, [0xEE; 100]);
}

#[test]
fn figure_09_either_order() {
    let whole = Answer::Delivered { t: 12, r: 0 };
    let mut one = One::new();
    assert_eq!(one.piece(0, 1, 0, &[1; 8], false), Answer::Stored);
    assert_eq!(one.piece(0, 1, 8, &[2; 4], true), whole);
    assert_eq!(one.out[..12], [1, 1, 1, 1, 1, 1, 1, 1, 2, 2, 2, 2]);
    assert!(one.out[12..].iter().all(|&byte| byte == 0xEE));
    let mut one = One::new();
    assert_eq!(one.piece(0, 1, 8, &[2; 4], true), Answer::Stored);
    assert_eq!(one.piece(0, 1, 0, &[1; 8], false), whole);
    assert_eq!(one.out[..12], [1, 1, 1, 1, 1, 1, 1, 1, 2, 2, 2, 2]);
    assert_eq!(one.account().delivered, 12);
}

#[test]
fn figure_10_clash() {
    let mut one = One::new();
    assert_eq!(one.piece(0, 1, 0, &[1; 8], false), Answer::Stored);
    assert_eq!(one.piece(0, 1, 7, &[1; 2], false), Answer::Clash);
    assert_eq!(one.account().clashed, 10);
    assert_eq!(one.account().held, 0);
}

#[test]
fn figure_11_expiry() {
    let mut one = One::new();
    assert_eq!(one.piece(0, 1, 0, &[1; 8], false), Answer::Stored);
    assert_eq!(
        clock(&mut one.records, &one.store, 0, 119_999),
        Answer::Clocked
    );
    assert_eq!((one.account().held, one.account().expired), (8, 0));
    assert_eq!(
        clock(&mut one.records, &one.store, 0, 120_000),
        Answer::Clocked
    );
    assert_eq!((one.account().held, one.account().expired), (0, 8));
    assert_eq!(
        one.records[0],
        Record {
            time: 120_000,
            offered: 8,
            expired: 8,
            ..fresh(4)
        }
    );
}

/// As document 02 has it: a plan of 4.
#[test]
fn figure_12_fifth_key() {
    one_key_too_many(4);
}

#[test]
fn figure_12_for_every_plan() {
    for plan in 1..=ASSEMBLIES as u32 {
        one_key_too_many(plan);
    }
}

/// As many keys as the plan allows, and one more: 29; after one expiry: taken.
fn one_key_too_many(plan: u32) {
    let mut one = One::of(plan.into());
    for id in 0..plan {
        assert_eq!(one.piece(id.into(), id, 0, &[1; 8], false), Answer::Stored);
        assert_eq!(one.records[0].assemblies[id as usize].identification, id);
    }
    assert_eq!(
        one.piece(119_999, plan, 0, &[1; 8], false),
        Answer::Refused(29)
    );
    assert_eq!(one.account().turned_away, 8);
    // Of a key that is there a piece is taken.
    let known = one.piece(119_999, plan - 1, 8, &[1; 8], false);
    assert_eq!(known, Answer::Stored);
    assert_eq!(one.piece(120_000, plan, 0, &[1; 8], false), Answer::Stored);
    assert_eq!(one.account().expired, if plan == 1 { 16 } else { 8 });
    // The lowest free place.
    assert_eq!(one.records[0].assemblies[0].identification, plan);
}

/// As document 02 has it.
#[test]
fn figure_13_limits() {
    assert_eq!((PLACE, PIECES), (8_192, 64));
    let mut one = One::new();
    let end = PLACE - 6;
    assert_eq!(one.piece(0, 1, end, &[1; 6], false), Answer::Stored);
    assert_eq!(one.piece(0, 1, end, &[1; 7], false), Answer::Refused(25));
    assert_eq!(one.piece(0, 1, PLACE, &[1], false), Answer::Refused(25));
    let whole = Answer::Delivered { t: PLACE, r: 0 };
    assert_eq!(one.piece(0, 2, 0, &[1; PLACE], true), whole);
    let long = one.piece(0, 2, 0, &[1; PLACE + 1], true);
    assert_eq!(long, Answer::Refused(25));
    let mut one = One::new();
    for place in 0..PIECES {
        assert_eq!(one.piece(0, 1, place, &[1], false), Answer::Stored);
    }
    assert_eq!(one.piece(0, 1, PIECES, &[1], true), Answer::Refused(30));
    let last = PIECES - 1;
    assert_eq!(one.piece(0, 1, last, &[1], false), Answer::Repeated);
    assert_eq!(one.piece(0, 1, last, &[2], false), Answer::Clash);
    let mut area = vec![0, 0];
    area.extend([9, 2].repeat(32));
    assert_eq!(verdict(&[], &area), Verdict::Read);
    area.extend([9, 2]);
    let crowded = Verdict::Crowded(PacketOffset(10 + 2 * 32));
    assert_eq!(verdict(&[], &area), crowded);
}

/// The longest original in as many pieces as there may be, in four orders:
/// nothing goes out before the last of them.
#[test]
fn the_most_pieces_of_the_longest_original() {
    let step = PLACE / PIECES;
    let rising: Vec<usize> = (0..PIECES).collect();
    let falling: Vec<usize> = (0..PIECES).rev().collect();
    let inwards = (0..PIECES / 2).flat_map(|at| [at, PIECES - 1 - at]);
    let mixed = (0..PIECES).map(|at| at * 27 % PIECES);
    for order in [rising, falling, inwards.collect(), mixed.collect()] {
        let mut one = One::new();
        for (number, &at) in order.iter().enumerate() {
            let bytes = vec![at as u8; step];
            let answer = one.piece(0, 1, at * step, &bytes, at + 1 == PIECES);
            if number + 1 == PIECES {
                assert_eq!(answer, Answer::Delivered { t: PLACE, r: 0 });
            } else {
                assert_eq!(answer, Answer::Stored);
                assert!(one.out.iter().all(|&byte| byte == 0xEE));
                assert!(record_test(&one.records[0]));
            }
        }
        let wanted: Vec<u8> = (0..PLACE).map(|place| (place / step) as u8).collect();
        assert!(one.out == wanted);
    }
}

/// Document 02: 1 to 8 places of 8,192 bytes, behind the shares before.
#[test]
fn shares() {
    assert_eq!(ASSEMBLIES, 8);
    assert_eq!([1, 4, 8].map(share), [8_192, 32_768, 65_536]);
    assert_eq!([0, 9, 1 << 51, u64::MAX].map(share), [0; 4]);
    let records = [1, 8, 4, 1].map(fresh);
    assert_eq!(store_length(&records), 14 * 8_192);
    let starts = [0, 1, 2, 3].map(|client| share_start(&records, client));
    assert_eq!(starts, [0, 8_192, 73_728, 106_496]);
}

/// Clients with plans of 1, 8 and 4: each byte stands in its own share.
#[test]
fn share_places() {
    let mut records = [1, 8, 4].map(fresh);
    let mut store = vec![0xA5; store_length(&records)];
    let mut out = vec![0xEE; PLACE];
    assert_eq!(set_up(&mut records, &store), Answer::SetUp);
    let mut expected = store.clone();
    for (client, plan) in [1, 8, 4].into_iter().enumerate() {
        let start = share_start(&records, client);
        for id in 0..=plan {
            let bytes = [(16 * client) as u8 + id as u8; 8];
            let call = PieceCall {
                client,
                time: 0,
                flow: Flow::default(),
                identification: id,
                place: PLACE - 8,
                bytes: &bytes,
                last: false,
                r: 0,
            };
            let answer = piece(&mut records, &mut store, &call, &mut out);
            if id == plan {
                assert_eq!(answer, Answer::Refused(29));
            } else {
                assert_eq!(answer, Answer::Stored);
                let end = start + PLACE * (id as usize + 1);
                expected[end - 8..end].copy_from_slice(&bytes);
            }
        }
    }
    assert!(store == expected);
}

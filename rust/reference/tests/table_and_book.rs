//! The table against each client's plain book, call by call.

use reference::generate::{
    book_of, call_on, calls, forged_world, misfit, sound_record, Call, Lent, Random, World,
};
use reference::generate::{full_plan, held_before, limit_sorts, LIMIT_SORTS, TABLE_FAULTS};
use reference::table::{ASSEMBLIES, OFFERED_MOST, PLACE};
use reference::*;
use std::collections::BTreeMap;

/// A call that 20 or 32 refuses: nothing changes in the table lent to it, nor
/// in any book.
fn refused(world: &World, books: &BTreeMap<usize, Book>, call: &Call, number: u32) -> Answer {
    let before = world.resized(&call.lent);
    let mut lent = before.clone();
    let mut out = vec![0xEE; call.out_length()];
    let answer = call.on_table(&mut lent.records, &mut lent.store, &mut out);
    assert_eq!(answer, Answer::Refused(number), "{call:?}");
    assert!(lent == before);
    assert!(out.iter().all(|&byte| byte == 0xEE));
    for book in books.values() {
        let mut after = book.clone();
        assert_eq!(call.on_book(&mut after, &mut out), answer, "{call:?}");
        assert_eq!(after, *book);
    }
    answer
}

/// A set-up that is taken: all records are fresh but their plans, which are
/// those lent, and the store stays.
fn set_up_taken(world: &mut World, books: &mut BTreeMap<usize, Book>, call: &Call) -> Answer {
    let store = world.resized(&call.lent).store;
    let answer = world.run(call, &mut []);
    assert_eq!(answer, Answer::SetUp);
    assert_eq!(
        *world,
        World {
            store,
            ..World::new(&call.lent)
        }
    );
    for book in books.values_mut() {
        assert_eq!(call.on_book(book, &mut []), answer);
    }
    answer
}

/// Runs one call on both sides and compares the answer, every out byte, the
/// figures, and what may not change.
fn step(world: &mut World, books: &mut BTreeMap<usize, Book>, call: &Call) -> Answer {
    if let Some(number) = call.lent.refusal() {
        return refused(world, books, call, number);
    }
    let Some(client) = call.client() else {
        return set_up_taken(world, books, call);
    };
    let before = world.clone();
    let mut out = vec![0xEE; call.out_length()];
    let mut book_out = out.clone();
    let answer = world.run(call, &mut out);
    let plan = world.records.get(client).map_or(0, |record| record.plan);
    let book = books
        .entry(client)
        .or_insert_with(|| Book::new(client, plan));
    let book_answer = call.on_book(book, &mut book_out);
    assert_eq!(answer, book_answer, "{call:?}");
    assert!(out == book_out, "{call:?}");
    assert_eq!(world.lent(), before.lent());

    // Refusals 20 to 28 and bills change nothing.
    let still = matches!(answer, Answer::Refused(20..=28) | Answer::Billed(_));
    let same = |k: usize| world.records[k] == before.records[k];
    assert!((0..world.records.len()).all(|k| same(k) || (k == client && !still)));
    // Only a piece taken writes to the store, and only to its own share.
    let taken = matches!(answer, Answer::Stored | Answer::Delivered { .. });
    if taken {
        let from = share_start(&world.records, client);
        let to = from + share(plan);
        assert!(world.store[..from] == before.store[..from]);
        assert!(world.store[to..] == before.store[to..]);
    } else {
        assert!(world.store == before.store);
    }
    // Out is touched only by a delivery, and only its first T bytes.
    let t = match answer {
        Answer::Delivered { t, .. } => t,
        _ => 0,
    };
    assert!(out[t..].iter().all(|&byte| byte == 0xEE));

    if let Some(record) = world.records.get(client) {
        let figures = book.account();
        assert_eq!(
            bill(&world.records, &world.store, client),
            Answer::Billed(figures)
        );
        assert_eq!((record.plan, record.time), (book.plan, book.time));
        // The sum law.
        let sum = figures.held
            + figures.delivered
            + figures.expired
            + figures.clashed
            + figures.repeated
            + figures.turned_away;
        assert_eq!(sum, figures.offered);
        assert!(record_test(record));
        same_assemblies(world, client, book);
    }
    answer
}

/// The record's assemblies hold the book's open pieces, with their bytes.
fn same_assemblies(world: &World, client: usize, book: &Book) {
    let held = book_of(world, client);
    assert_eq!(held.open.len(), book.open.len());
    for piece in &held.open {
        let mut same = book.open.iter().filter(|open| {
            open.key == piece.key
                && open.place == piece.place
                && open.bytes == piece.bytes
                && open.last == piece.last
                && (!open.last || open.r == piece.r)
        });
        assert!(same.next().is_some());
        let first = book.open.iter().find(|open| open.key == piece.key);
        assert_eq!(first.map(|open| open.time), Some(piece.time));
    }
}

fn run(seed: u64, lists: usize, clients: usize, length: usize) -> BTreeMap<String, u64> {
    let mut random = Random::new(seed);
    let mut answers = BTreeMap::new();
    for _ in 0..lists {
        let mut world = World::new(&Lent::of(&[1]));
        let mut books = BTreeMap::new();
        for call in calls(&mut random, clients, length) {
            let held = call.piece_call().map(|piece| held_before(&world, &piece));
            let answer = step(&mut world, &mut books, &call);
            for name in limit_sorts(held.unwrap_or(0), &answer) {
                *answers.entry(name.into()).or_insert(0) += 1;
            }
            let fault = call.lent.fault(call.client()).map(String::from);
            for name in fault.into_iter().chain(full_plan(&call, &answer)) {
                *answers.entry(name).or_insert(0) += 1;
            }
            let name = match answer {
                Answer::Billed(_) => "Billed".into(),
                Answer::Delivered { .. } => "Delivered".into(),
                other => format!("{other:?}"),
            };
            *answers.entry(name).or_insert(0) += 1;
        }
    }
    println!("{answers:?}");
    for number in [20, 32, 21, 23, 24, 25, 26, 27, 29, 30] {
        let count = answers.get(&format!("Refused({number})"));
        assert!(count.is_some_and(|&count| count > 20), "{number}");
    }
    for plan in 1..=ASSEMBLIES {
        let name = format!("a key too many for a plan of {plan}");
        assert!(answers.contains_key(&name), "{name}");
    }
    for name in TABLE_FAULTS {
        assert!(answers.contains_key(name), "{name}");
    }
    for name in [
        "Stored",
        "Repeated",
        "Clash",
        "Delivered",
        "SetUp",
        "Clocked",
    ] {
        assert!(answers.contains_key(name), "{name}");
    }
    for name in LIMIT_SORTS {
        let count = answers.get(name);
        assert!(count.is_some_and(|&count| count > 10), "{name}");
    }
    answers
}

#[test]
fn one_client() {
    run(7, 150, 1, 600);
}

#[test]
fn several_clients() {
    run(8, 100, 12, 600);
}

#[test]
fn two_clients() {
    run(9, 80, 2, 600);
}

/// From records that no history made: sound ones answer as a book that
/// stands at the same place, damaged ones are refused with 22.
#[test]
fn forged_records() {
    let mut random = Random::new(10);
    let mut limits = 0;
    let mut damaged = 0;
    for _ in 0..1_500 {
        let mut world = forged_world(&mut random, 2);
        let sound: Vec<bool> = world.records.iter().map(record_test).collect();
        let mut books = BTreeMap::new();
        for (client, &sound) in sound.iter().enumerate() {
            if sound {
                books.insert(client, book_of(&world, client));
            }
        }
        let mut other = world.clone();
        misfit(&mut random, &mut other);
        let call = call_on(&mut random, &other);
        let answer = step(&mut world, &mut books, &call);
        assert!(matches!(answer, Answer::Refused(20 | 32)));
        for _ in 0..20 {
            let call = call_on(&mut random, &world);
            let client = call.client().unwrap();
            if sound[client] {
                let answer = step(&mut world, &mut books, &call);
                limits += u32::from(answer == Answer::Refused(28));
            } else {
                let before = world.clone();
                let mut out = vec![0xEE; call.out_length()];
                assert_eq!(world.run(&call, &mut out), Answer::Refused(22));
                assert_eq!(world.records, before.records);
                assert!(world.store == before.store);
                damaged += 1;
            }
        }
    }
    println!("28: {limits}, 22: {damaged}");
    assert!(limits > 100 && damaged > 1_000);
}

/// 28 is exact: offered may reach 10^15.
#[test]
fn offered_reaches_its_limit() {
    let mut random = Random::new(11);
    let mut world = World::new(&Lent::of(&[1]));
    let mut record = sound_record(&mut random);
    record.plan = 1;
    record.assemblies = fresh(1).assemblies;
    (record.held, record.expired, record.clashed) = (0, 0, 0);
    (record.repeated, record.turned_away) = (0, 0);
    record.delivered = OFFERED_MOST - 8;
    record.offered = record.delivered;
    record.time = 5;
    world.records[0] = record;
    let mut call = |bytes: &[u8], time| {
        let call = PieceCall {
            client: 0,
            time,
            flow: Flow::default(),
            identification: 1,
            place: 0,
            bytes,
            last: true,
            r: 0,
        };
        let mut out = [0; PLACE];
        let answer = piece(&mut world.records, &mut world.store, &call, &mut out);
        (answer, world.records[0].time, world.records[0].offered)
    };
    let at_limit = OFFERED_MOST;
    let refused = Answer::Refused(28);
    assert_eq!(call(&[1; 9], 9), (refused, 5, at_limit - 8));
    // 27 before 28.
    assert_eq!(call(&[1; 9], 4), (Answer::Refused(27), 5, at_limit - 8));
    let whole = Answer::Delivered { t: 8, r: 0 };
    assert_eq!(call(&[1; 8], 9), (whole, 9, at_limit));
    assert_eq!(call(&[1], 10), (refused, 9, at_limit));
}

/// The order of the checks: with every cause there, one is mended at a time.
#[test]
fn checks_in_order() {
    // Client 1's plan is wrong, and its record.
    let mut records = vec![fresh(2); 13];
    records[1].plan = 9;
    records[1].time = 5;
    records[1].delivered = OFFERED_MOST;
    records[1].offered = OFFERED_MOST + 1;
    let mut store = vec![0; 3 * share(2)];
    let mut out = vec![0; PLACE];
    let bytes = vec![1; PLACE + 1];
    let mut at = |records: &mut [Record], shares: usize, client, room: usize, call: PieceCall| {
        let call = PieceCall { client, ..call };
        let store = &mut store[..shares * share(2)];
        piece(records, store, &call, &mut out[..room])
    };
    let none = PieceCall {
        client: 0,
        time: 4,
        flow: Flow::default(),
        identification: 1,
        place: PLACE - 96,
        bytes: &[],
        last: true,
        r: PLACE + 1,
    };
    assert_eq!(at(&mut records, 3, 2, PLACE - 1, none), Answer::Refused(20));
    records.truncate(2);
    assert_eq!(at(&mut records, 3, 2, PLACE - 1, none), Answer::Refused(32));
    records[1].plan = 2;
    assert_eq!(at(&mut records, 3, 2, PLACE - 1, none), Answer::Refused(20));
    assert_eq!(at(&mut records, 2, 2, PLACE - 1, none), Answer::Refused(21));
    assert_eq!(at(&mut records, 2, 1, PLACE - 1, none), Answer::Refused(22));
    records[1].offered = OFFERED_MOST;
    assert_eq!(at(&mut records, 2, 1, PLACE - 1, none), Answer::Refused(23));
    assert_eq!(at(&mut records, 2, 1, PLACE, none), Answer::Refused(24));
    let long = PieceCall {
        bytes: &bytes,
        ..none
    };
    assert_eq!(at(&mut records, 2, 1, PLACE, long), Answer::Refused(25));
    let end = PieceCall {
        bytes: &bytes[..96],
        ..none
    };
    assert_eq!(at(&mut records, 2, 1, PLACE, end), Answer::Refused(26));
    let end = PieceCall { r: PLACE, ..end };
    assert_eq!(at(&mut records, 2, 1, PLACE, end), Answer::Refused(27));
    let end = PieceCall { time: 5, ..end };
    assert_eq!(at(&mut records, 2, 1, PLACE, end), Answer::Refused(28));
    records[1].offered -= 96;
    records[1].delivered -= 96;
    assert_eq!(at(&mut records, 2, 1, PLACE, end), Answer::Stored);
}

/// 20 (both causes), 32, 21 and 22 against each other, in every call: of those
/// that are there the first in the order answers.
#[test]
fn table_checks_in_order() {
    for causes in 0..32 {
        let has = |cause: usize| causes >> cause & 1 == 1;
        // 13 records or 3; a wrong plan of the first; a byte too many; client
        // 13, which is none; a damaged record.
        let plans = vec![2; if has(0) { 13 } else { 3 }];
        let mut world = World::new(&Lent::of(&plans));
        world.records[0].plan = if has(1) { 9 } else { 2 };
        if has(2) {
            world.store.push(0);
        }
        let client = if has(3) { 13 } else { 1 };
        world.records[1].offered = u64::from(has(4));
        let numbers = [20, 32, 20, 21, 22];
        let first = (0..5).find(|&cause| has(cause)).map(|cause| numbers[cause]);
        let before = world.clone();
        let (records, store) = (&mut world.records, &mut world.store);
        let call = PieceCall {
            client,
            time: 1,
            flow: Flow::default(),
            identification: 1,
            place: 0,
            bytes: &[7; 8],
            last: false,
            r: 0,
        };
        let refused = |number: u32| Answer::Refused(number);
        let billed = Answer::Billed(Account::default());
        let wanted = first.map_or(billed, refused);
        assert_eq!(bill(records, store, client), wanted, "{causes}");
        let wanted = first.map_or(Answer::Clocked, refused);
        assert_eq!(clock(records, store, client, 0), wanted, "{causes}");
        let wanted = first.map_or(Answer::Stored, refused);
        let answer = piece(records, store, &call, &mut [0; PLACE]);
        assert_eq!(answer, wanted, "{causes}");
        if first.is_some() {
            assert!(world == before, "{causes}");
        }
        let first = first.filter(|number| [20, 32].contains(number));
        let wanted = first.map_or(Answer::SetUp, refused);
        let mut world = before.clone();
        let answer = set_up(&mut world.records, &world.store);
        assert_eq!(answer, wanted, "{causes}");
        if first.is_some() {
            assert!(world == before, "{causes}");
        } else {
            assert_eq!(world.records, vec![fresh(2); 3]);
        }
    }
}

/// Plans at and past both ends, each of the first, a middle and the last of
/// the clients; the sums of some fit modulo 2^64.
#[test]
fn plans_out_of_range() {
    let most = ASSEMBLIES as u64;
    for wrong in [
        0,
        most + 1,
        16,
        256 + 4,
        1 << 32 | 4,
        1 << 51 | 4,
        1 << 63,
        u64::MAX - 3,
        u64::MAX,
    ] {
        for at in [0, 1, 2] {
            let mut plans = [4, 8, 1];
            plans[at] = wrong;
            let bytes = plans.iter().fold(0u64, |sum, &plan| {
                sum.wrapping_add(plan.wrapping_mul(PLACE as u64))
            });
            for store in [bytes.min(1 << 20) as usize, 13 * PLACE, 0] {
                let mut world = World::new(&Lent {
                    plans: plans.to_vec(),
                    store,
                });
                let before = world.clone();
                for client in [0, 1, 2, 3] {
                    let answer = bill(&world.records, &world.store, client);
                    assert_eq!(answer, Answer::Refused(32));
                }
                let answer = set_up(&mut world.records, &world.store);
                assert_eq!(answer, Answer::Refused(32));
                assert!(world == before);
                let mut book = Book::new(0, 4);
                assert_eq!(book.set_up(&plans, store), Answer::Refused(32));
            }
        }
    }
}

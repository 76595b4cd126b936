//! The swift table against the plain one: answers, records, store and out.

use reference::generate::{
    call_on, calls, damage, forged_world, full_plan, misfit, sound_record, summed, Ask, Call, Lent,
    Random, World, DAMAGES,
};
use reference::table::{ASSEMBLIES, PIECES, PLACE};
use reference::*;
use std::collections::BTreeMap;

/// The call on a table lent, by the swift functions.
fn on_swift(call: &Call, world: &mut World, out: &mut [u8]) -> Answer {
    let (records, store) = (&mut world.records, &mut world.store);
    match call.ask {
        Ask::SetUp => set_up(records, store),
        Ask::Clock { client, time } => swift::clock(records, store, client, time),
        Ask::Bill { client } => swift::bill(records, store, client),
        Ask::Piece { .. } => swift::piece(records, store, &call.piece_call().unwrap(), out),
    }
}

/// Runs one call on both tables, which are the same before and after.
fn step(plain: &mut World, swift: &mut World, call: &Call) -> Answer {
    let mut plain_out = vec![0xEE; call.out_length()];
    let mut swift_out = plain_out.clone();
    if call.lent != plain.lent() {
        // As `World::run` has it: another table, kept after a set-up taken.
        let mut one = plain.resized(&call.lent);
        let mut two = one.clone();
        let answer = call.on_table(&mut one.records, &mut one.store, &mut plain_out);
        assert_eq!(on_swift(call, &mut two, &mut swift_out), answer, "{call:?}");
        assert!(one == two && swift_out == plain_out, "{call:?}");
        if answer == Answer::SetUp {
            (*plain, *swift) = (one, two);
        }
        return answer;
    }
    let answer = plain.run(call, &mut plain_out);
    let swift_answer = on_swift(call, swift, &mut swift_out);
    assert_eq!(swift_answer, answer, "{call:?}");
    assert!(swift.records == plain.records, "{call:?}");
    assert!(swift.store == plain.store, "{call:?}");
    assert!(swift_out == plain_out, "{call:?}");
    answer
}

fn name(answer: &Answer) -> String {
    match answer {
        Answer::Billed(_) => "Billed".into(),
        Answer::Delivered { .. } => "Delivered".into(),
        other => format!("{other:?}"),
    }
}

#[test]
fn lists_of_calls() {
    let mut random = Random::new(21);
    let mut answers = BTreeMap::new();
    for round in 0..300 {
        let mut plain = World::new(&Lent::of(&[1]));
        let mut swift = plain.clone();
        let clients = [1, 2, 12][round % 3];
        for call in calls(&mut random, clients, 400) {
            let answer = step(&mut plain, &mut swift, &call);
            *answers.entry(name(&answer)).or_insert(0) += 1;
            if let Some(name) = full_plan(&call, &answer) {
                *answers.entry(name).or_insert(0) += 1;
            }
        }
    }
    println!("{answers:?}");
    for plan in 1..=ASSEMBLIES {
        let name = format!("a key too many for a plan of {plan}");
        assert!(answers.contains_key(&name), "{name}");
    }
    let refused = [20, 32, 21, 23, 24, 25, 26, 27, 29].map(|number| format!("Refused({number})"));
    let taken = [
        "Stored",
        "Repeated",
        "Clash",
        "Delivered",
        "SetUp",
        "Clocked",
        "Billed",
    ];
    for name in refused.iter().map(String::as_str).chain(taken) {
        assert!(answers.get(name).is_some_and(|&count| count > 20), "{name}");
    }
}

/// From records that no history made, damaged ones among them, now and then in
/// a table that does not fit.
#[test]
fn forged_records() {
    let mut random = Random::new(22);
    let mut answers = BTreeMap::new();
    for round in 0..1_500 {
        let mut plain = forged_world(&mut random, 1 + round % 3);
        if random.one_in(8) {
            misfit(&mut random, &mut plain);
        }
        let mut swift = plain.clone();
        for _ in 0..20 {
            let call = call_on(&mut random, &plain);
            let answer = step(&mut plain, &mut swift, &call);
            *answers.entry(name(&answer)).or_insert(0) += 1;
        }
    }
    println!("{answers:?}");
    for name in [
        "Refused(20)",
        "Refused(32)",
        "Refused(22)",
        "Refused(28)",
        "Refused(29)",
        "Stored",
        "Repeated",
        "Clash",
        "Delivered",
    ] {
        assert!(answers.get(name).is_some_and(|&count| count > 50), "{name}");
    }
}

/// The orders in which an original's pieces come.
#[derive(Clone, Copy, Debug)]
enum Order {
    Rising,
    Falling,
    Inwards,
    Mixed,
    /// Rising, but for two neighbours.
    Swapped,
}

const ORDERS: [Order; 5] = [
    Order::Rising,
    Order::Falling,
    Order::Inwards,
    Order::Mixed,
    Order::Swapped,
];

fn arrange(random: &mut Random, order: Order, rising: &[Slot]) -> Vec<Slot> {
    let mut slots = rising.to_vec();
    match order {
        Order::Rising => {}
        Order::Falling => slots.reverse(),
        Order::Inwards => {
            let ends = |n: usize| match n % 2 {
                0 => n / 2,
                _ => rising.len() - 1 - n / 2,
            };
            slots = (0..rising.len()).map(|n| rising[ends(n)]).collect();
        }
        Order::Mixed => {
            for at in (1..slots.len()).rev() {
                slots.swap(at, random.below(at + 1));
            }
        }
        Order::Swapped => {
            if slots.len() > 1 {
                let at = random.below(slots.len() - 1);
                slots.swap(at, at + 1);
            }
        }
    }
    slots
}

/// A cut's place: anywhere, or at or beside a multiple of 64.
fn cut(random: &mut Random, end: usize) -> usize {
    let at = random.below(end + 1);
    match random.below(3) {
        0 => at,
        1 => at / 64 * 64,
        _ => (at / 64 * 64 + 62 + random.below(4)).min(end),
    }
}

/// Up to 64 pieces of an original, in rising order, mostly with a gap.
fn pieces(random: &mut Random) -> Vec<Slot> {
    let end = random.pick(&[8, 64, 65, 130, 300, 1_000, PLACE - 1, PLACE, PLACE]);
    let most = random.pick(&[2, 3, 5, 17, PIECES, 2 * PIECES]);
    let mut cuts: Vec<usize> = (0..most).map(|_| cut(random, end)).collect();
    cuts.extend([0, end]);
    cuts.sort_unstable();
    cuts.dedup();
    let one = |pair: &[usize]| Slot {
        offset: pair[0] as u16,
        length: (pair[1] - pair[0]) as u16,
        ..Slot::default()
    };
    let mut slots: Vec<Slot> = cuts.windows(2).map(one).collect();
    if random.one_in(2) {
        let last = slots.len() - 1;
        slots[last].last = random.pick(&[1, 2, 256]);
        slots[last].option_start = random.below(end + 2) as u16;
    }
    // A piece that is taken out leaves a gap.
    if !random.one_in(4) && slots.len() > 1 {
        slots.remove(random.below(slots.len()));
    }
    while slots.len() > PIECES {
        slots.remove(random.below(slots.len()));
    }
    slots
}

/// Moves an edge of one piece by a byte or a few, or leaves all.
fn nudge(random: &mut Random, slots: &mut [Slot]) {
    let at = random.below(slots.len());
    let slot = &mut slots[at];
    let by = random.pick(&[1, 1, 1, 2, 63, 64, 65]);
    match random.below(8) {
        0 => slot.offset = slot.offset.wrapping_sub(by),
        1 => slot.offset = slot.offset.wrapping_add(by),
        2 => slot.length = slot.length.wrapping_add(by),
        3 => {
            slot.offset = slot.offset.saturating_sub(by);
            slot.length = slot.length.wrapping_add(by);
        }
        // Inside another one, or the same.
        4 => {
            let other = slots[random.below(slots.len())];
            let within = random.below(usize::from(other.length).max(1)) as u16;
            slots[at].offset = other.offset.wrapping_add(within);
            slots[at].length = 1;
        }
        _ => {}
    }
}

/// A record with pieces in some order; a nudged one mostly fails the test.
fn ordered_record(random: &mut Random, order: Order, nudged: bool) -> Record {
    let plan = 1 + random.below(ASSEMBLIES);
    let mut record = fresh(plan as u64);
    record.time = 500;
    let live = 1 + random.below(plan);
    for (number, assembly) in record.assemblies[..live].iter_mut().enumerate() {
        let mut slots = pieces(random);
        if nudged && random.one_in(live) {
            nudge(random, &mut slots);
        }
        let slots = arrange(random, order, &slots);
        assembly.identification = number as u32;
        assembly.opened = 500 - random.below(2) as u64;
        assembly.count = slots.len() as u64;
        assembly.pieces[..slots.len()].copy_from_slice(&slots);
        record.held += slots.iter().map(|slot| u64::from(slot.length)).sum::<u64>();
    }
    record.offered = record.held;
    record
}

/// Whether the record's pieces all rise.
fn rises(record: &Record) -> bool {
    record.assemblies.iter().all(|assembly| {
        let held = &assembly.pieces[..assembly.filled()];
        held.windows(2).all(|pair| pair[0].offset < pair[1].offset)
    })
}

#[test]
fn orders_and_overlaps() {
    let mut random = Random::new(23);
    for order in ORDERS {
        let (mut sound, mut damaged, mut fallen) = (0, 0, 0);
        for _ in 0..20_000 {
            let nudged = random.one_in(2);
            let record = ordered_record(&mut random, order, nudged);
            let passes = record_test(&record);
            assert_eq!(swift::record_test(&record), passes, "{order:?} {record:?}");
            sound += u32::from(passes);
            damaged += u32::from(!passes);
            fallen += u32::from(passes && !rises(&record));
        }
        println!("{order:?}: {sound} sound, {fallen} of them not rising, {damaged} damaged");
        assert!(sound > 2_000 && damaged > 2_000);
        assert!(matches!(order, Order::Rising) || fallen > 2_000);
    }
}

/// Calls on records with many pieces, up to refusal 30.
#[test]
fn calls_on_orders() {
    let mut random = Random::new(24);
    let mut answers = BTreeMap::new();
    for round in 0..1_500 {
        let order = ORDERS[round % ORDERS.len()];
        let nudged = random.one_in(8);
        let records = vec![ordered_record(&mut random, order, nudged)];
        let store = random.bytes(store_length(&records));
        let mut plain = World { records, store };
        let mut swift = plain.clone();
        for _ in 0..20 {
            let call = call_on(&mut random, &plain);
            let answer = step(&mut plain, &mut swift, &call);
            *answers.entry(name(&answer)).or_insert(0) += 1;
        }
    }
    println!("{answers:?}");
    for name in [
        "Refused(22)",
        "Refused(30)",
        "Stored",
        "Repeated",
        "Clash",
        "Delivered",
    ] {
        assert!(answers.get(name).is_some_and(|&count| count > 20), "{name}");
    }
}

/// The record test on the generator's records, sound, damaged, and with any
/// field set to another value.
#[test]
fn record_tests() {
    let mut random = Random::new(25);
    let (mut sound, mut damaged) = (0, 0);
    for round in 0..40_000 {
        let mut record = sound_record(&mut random);
        match round % 4 {
            0 => {
                damage(&mut random, &mut record, round / 4 % DAMAGES);
            }
            1 => {
                summed(&mut random, &mut record);
            }
            2 => change_field(&mut random, &mut record),
            _ => {}
        }
        let passes = record_test(&record);
        assert_eq!(swift::record_test(&record), passes, "{record:?}");
        sound += u32::from(passes);
        damaged += u32::from(!passes);
    }
    println!("{sound} sound, {damaged} damaged");
    assert!(sound > 10_000 && damaged > 10_000);
}

fn change_field(random: &mut Random, record: &mut Record) {
    let value = match random.below(5) {
        0 => 0,
        1 => random.below(70) as u64,
        2 => u64::MAX,
        3 => 1 << random.below(64),
        _ => random.draw(),
    };
    let assembly = &mut record.assemblies[random.below(ASSEMBLIES)];
    let slot = &mut assembly.pieces[random.below(PIECES)];
    match random.below(19) {
        0 => record.time = value,
        1 => record.offered = value,
        2 => record.held = value,
        3 => record.delivered = value,
        4 => record.expired = value,
        5 => record.clashed = value,
        6 => record.repeated = value,
        7 => record.turned_away = value,
        8 => assembly.flow.source = (value as u32).to_be_bytes(),
        9 => assembly.flow.destination_port = value as u16,
        10 => assembly.identification = value as u32,
        11 => assembly.opened = value,
        12 => assembly.count = value,
        13 => slot.offset = value as u16,
        14 => slot.length = value as u16,
        15 => slot.option_start = value as u16,
        16 => record.plan = value,
        17 => record.plan = random.below(ASSEMBLIES + 2) as u64,
        _ => slot.last = value as u16,
    }
}

/// A table as it is lent, and one thing asked of it: all that 20, 32, 21 and 22
/// look at, every mix of it.
#[test]
fn tables_lent() {
    let mut random = Random::new(26);
    let mut answers = BTreeMap::new();
    for _ in 0..20_000 {
        let count = random.pick(&[0, 1, 2, 3, 12, 13]);
        let plans: Vec<u64> = (0..count)
            .map(|_| match random.below(count.max(6)) {
                0 => generate::wrong_plan(&mut random),
                _ => generate::plan(&mut random),
            })
            .collect();
        let mut lent = Lent::of(&plans);
        match random.below(6) {
            0 => lent.store += 1,
            1 => lent.store = lent.store.saturating_sub(1),
            2 => lent.store = random.below(14) * share(8),
            _ => {}
        }
        let mut plain = World::new(&lent);
        for record in &mut plain.records {
            record.offered = u64::from(random.one_in(4));
        }
        let client = random.pick(&[0, 1, count, usize::MAX]);
        let ask = match random.below(4) {
            0 => Ask::SetUp,
            1 => Ask::Bill { client },
            2 => Ask::Clock { client, time: 1 },
            _ => Ask::Piece {
                client,
                time: 1,
                flow: Flow::default(),
                identification: 1,
                place: 0,
                bytes: vec![7; 8],
                last: random.one_in(2),
                r: 0,
                out: PLACE - usize::from(random.one_in(8)),
            },
        };
        let call = Call { lent, ask };
        let mut swift = plain.clone();
        let answer = step(&mut plain, &mut swift, &call);
        if let Some(number) = call.lent.refusal() {
            assert_eq!(answer, Answer::Refused(number), "{call:?}");
        } else {
            assert!(!matches!(answer, Answer::Refused(20 | 32)), "{call:?}");
        }
        *answers.entry(name(&answer)).or_insert(0) += 1;
    }
    println!("{answers:?}");
    for number in [20, 32, 21, 22] {
        let count = answers.get(&format!("Refused({number})"));
        assert!(count.is_some_and(|&count| count > 100), "{number}");
    }
}

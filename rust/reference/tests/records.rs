//! The record test against a second one that paints bytes, and on records
//! with one damaged field.

use reference::generate::{crossed, damage, list_sorts, sound_record, summed};
use reference::generate::{Random, DAMAGES, LIST_SORTS};
use reference::table::{ASSEMBLIES, LIFE, OFFERED_MOST, PIECES, PLACE};
use reference::*;
use std::collections::BTreeMap;

/// The record test, spelled over painted bytes and sets.
fn second_test(record: &Record) -> bool {
    let mut held = 0u128;
    let mut keys = Vec::new();
    let mut live = Vec::new();
    for (place, assembly) in record.assemblies.iter().enumerate() {
        if assembly.count == 0 {
            if *assembly != fresh(1).assemblies[0] {
                return false;
            }
            continue;
        }
        live.push(place);
        if assembly.count > PIECES as u64 {
            return false;
        }
        let key = (assembly.flow, assembly.identification);
        if keys.contains(&key) {
            return false;
        }
        keys.push(key);
        let age = i128::from(record.time) - i128::from(assembly.opened);
        if !(0..i128::from(LIFE)).contains(&age) {
            return false;
        }
        // Any 16-bit place and length.
        let mut painted = vec![0u8; 1 << 17];
        let mut lasts = Vec::new();
        for (index, slot) in assembly.pieces.iter().enumerate() {
            if index as u64 >= assembly.count {
                if *slot != fresh(1).assemblies[0].pieces[0] {
                    return false;
                }
                continue;
            }
            if slot.length == 0 {
                return false;
            }
            let from = usize::from(slot.offset);
            let to = from + usize::from(slot.length);
            for byte in &mut painted[from..to] {
                *byte = byte.saturating_add(1);
            }
            held += u128::from(slot.length);
            if slot.is_last() {
                lasts.push((to, usize::from(slot.option_start)));
            }
        }
        if painted.iter().any(|&times| times > 1) || painted[PLACE..].contains(&1) {
            return false;
        }
        match lasts[..] {
            [] => {}
            [(end, r)] => {
                let whole = painted[..end].iter().all(|&times| times == 1);
                if r > end || whole || painted[end..].contains(&1) {
                    return false;
                }
            }
            _ => return false,
        }
    }
    let others = [
        record.delivered,
        record.expired,
        record.clashed,
        record.repeated,
        record.turned_away,
    ];
    let sum: u128 = others.iter().map(|&figure| u128::from(figure)).sum();
    let highest = live.last().map_or(0, |&place| place as u64 + 1);
    highest <= record.plan
        && held == u128::from(record.held)
        && sum + held == u128::from(record.offered)
        && record.offered <= OFFERED_MOST
}

#[test]
fn sound_and_damaged() {
    let mut random = Random::new(12);
    let mut reached = [0; DAMAGES];
    for round in 0..4_000 {
        let mut record = sound_record(&mut random);
        assert!(record_test(&record) && second_test(&record), "{record:?}");
        let way = round % DAMAGES;
        if damage(&mut random, &mut record, way) {
            assert!(!record_test(&record), "{way}: {record:?}");
            assert!(!second_test(&record), "{way}: {record:?}");
            reached[way] += 1;
        }
    }
    assert!(reached.iter().all(|&count| count > 5), "{reached:?}");
}

/// One field set to another value, which may be sound or not.
#[test]
fn one_field_changed() {
    let mut random = Random::new(13);
    let mut sound = 0;
    let mut damaged = 0;
    for _ in 0..8_000 {
        let mut record = sound_record(&mut random);
        let value = match random.below(4) {
            0 => 0,
            1 => random.below(20) as u64,
            2 => u64::MAX,
            _ => random.draw(),
        };
        let near = random.pick(&[value, record.time, record.time.wrapping_sub(LIFE - 1)]);
        let a = random.below(ASSEMBLIES);
        let s = random.below(PIECES);
        let assembly = &mut record.assemblies[a];
        let slot = &mut assembly.pieces[s];
        match random.below(20) {
            0 => record.time = near,
            1 => record.offered = value,
            2 => record.held = value,
            3 => record.delivered = value,
            4 => record.expired = value,
            5 => record.clashed = value,
            6 => record.repeated = value,
            7 => record.turned_away = value,
            8 => assembly.flow.source = (value as u32).to_be_bytes(),
            9 => assembly.flow.destination = (value as u32).to_be_bytes(),
            10 => assembly.flow.source_port = value as u16,
            11 => assembly.flow.destination_port = value as u16,
            12 => assembly.identification = value as u32,
            13 => assembly.opened = near,
            14 => slot.offset = value as u16,
            15 => slot.length = value as u16,
            16 => slot.option_start = value as u16,
            17 => record.plan = value,
            18 => record.plan = random.below(ASSEMBLIES + 2) as u64,
            _ => slot.last ^= random.pick(&[1, 2, 255]),
        }
        assert_eq!(record_test(&record), second_test(&record), "{record:?}");
        if record_test(&record) {
            sound += 1;
        } else {
            damaged += 1;
        }
    }
    assert!(sound > 500 && damaged > 500, "{sound} {damaged}");
}

/// Small geometry, where pieces often touch, overlap or make a whole.
#[test]
fn small_assemblies() {
    let mut random = Random::new(14);
    let mut sound = 0;
    for _ in 0..10_000 {
        let mut record = fresh(1);
        let count = 1 + random.below(4);
        record.assemblies[0].count = count as u64;
        for slot in &mut record.assemblies[0].pieces[..count] {
            slot.offset = random.below(8) as u16;
            slot.length = random.below(4) as u16;
            slot.option_start = random.below(10) as u16;
            slot.last = random.pick(&[0, 0, 0, 0, 0, 0, 1, 2]);
            if random.one_in(40) {
                slot.offset += PLACE as u16 - 6;
            }
            record.held += u64::from(slot.length);
        }
        record.offered = record.held;
        assert_eq!(record_test(&record), second_test(&record), "{record:?}");
        sound += u32::from(record_test(&record));
    }
    assert!(sound > 1_000, "{sound}");
}

/// Lengths that sum to the last one's end: a whole one, or an overlap or a
/// piece past the end beside a gap.
#[test]
fn summed_assemblies() {
    let mut random = Random::new(15);
    let mut sound = 0;
    let mut damaged = 0;
    for _ in 0..4_000 {
        let mut record = sound_record(&mut random);
        if !summed(&mut random, &mut record) {
            continue;
        }
        assert_eq!(record_test(&record), second_test(&record), "{record:?}");
        if record_test(&record) {
            sound += 1;
        } else {
            damaged += 1;
        }
    }
    assert!(sound > 500 && damaged > 2_000, "{sound} {damaged}");
}

/// The record test against the second one, and whether it passes. The record
/// has this list in its first assembly, and figures that fit.
fn passes(slots: &[Slot]) -> bool {
    let mut record = fresh(1);
    record.assemblies[0].count = slots.len() as u64;
    record.assemblies[0].pieces[..slots.len()].copy_from_slice(slots);
    record.held = slots.iter().map(|slot| u64::from(slot.length)).sum();
    record.offered = record.held;
    assert_eq!(record_test(&record), second_test(&record), "{record:?}");
    record_test(&record)
}

fn slot(start: usize, end: usize) -> Slot {
    Slot {
        offset: start as u16,
        length: (end - start) as u16,
        ..Slot::default()
    }
}

/// Lists of up to the limit in any order, most with one small overlap.
#[test]
fn crossed_assemblies() {
    let mut random = Random::new(16);
    let mut seen = BTreeMap::new();
    let mut sound = 0;
    let mut damaged = 0;
    for _ in 0..4_000 {
        let mut record = sound_record(&mut random);
        if !crossed(&mut random, &mut record) {
            continue;
        }
        assert_eq!(record_test(&record), second_test(&record), "{record:?}");
        if record_test(&record) {
            sound += 1;
        } else {
            damaged += 1;
        }
        for assembly in record.assemblies.iter().filter(|a| a.count != 0) {
            for name in list_sorts(&assembly.pieces[..assembly.filled()]) {
                *seen.entry(name).or_insert(0) += 1;
            }
        }
    }
    println!("{seen:?}");
    assert!(sound > 500 && damaged > 500, "{sound} {damaged}");
    for name in LIST_SORTS {
        assert!(seen.get(name).is_some_and(|&count| count > 20), "{name}");
    }
}

/// The order of a list does not count: gaps are sound in every order, and one
/// byte in two pieces never is.
#[test]
fn any_order() {
    let step = PLACE / PIECES;
    let gaps: Vec<Slot> = (0..PIECES)
        .map(|at| slot(step * at, step * at + step - 1))
        .collect();
    // Each starts where the one before it ends, and none is last.
    let touching: Vec<Slot> = (0..PIECES)
        .map(|at| slot(step * at, step * at + step))
        .collect();
    let orders: [fn(usize) -> usize; 4] = [
        |at| at,
        |at| PIECES - 1 - at,
        |at| at * 27 % PIECES,
        |at| {
            if at % 2 == 0 {
                at / 2
            } else {
                PIECES - 1 - at / 2
            }
        },
    ];
    for order in orders {
        let put = |list: &[Slot]| -> Vec<Slot> { (0..PIECES).map(|at| list[order(at)]).collect() };
        assert!(passes(&put(&gaps)));
        assert!(passes(&put(&touching)));
        for at in 1..PIECES {
            let mut list = touching.clone();
            list[at].offset -= 1;
            assert!(!passes(&put(&list)), "{at}, a byte in front");
            list[at].length += 1;
            assert!(!passes(&put(&list)), "{at}, a byte more in front");
            let mut list = touching.clone();
            list[at - 1].length += 1;
            assert!(!passes(&put(&list)), "{at}, a byte behind");
            let mut list = touching.clone();
            list[at] = list[PIECES - 1 - at];
            assert!(!passes(&put(&list)), "{at}, a range twice");
        }
    }
}

/// One byte that two pieces share, at each place; beside it they touch.
#[test]
fn one_byte_at_each_place() {
    for place in 1..PLACE - 1 {
        let (low, high) = (slot(0, place + 1), slot(place, PLACE));
        for list in [[low, high], [high, low]] {
            assert!(!passes(&list), "{place}");
        }
        let (low, high) = (slot(0, place), slot(place, PLACE));
        for list in [[low, high], [high, low]] {
            assert!(passes(&list), "{place}");
        }
        let byte = slot(place, place + 1);
        assert!(!passes(&[byte, byte]), "{place}");
        assert!(passes(&[
            slot(place - 1, place),
            byte,
            slot(place + 1, place + 2)
        ]));
    }
}

/// The limits themselves.
#[test]
fn at_the_limits() {
    let most: Vec<Slot> = (0..PIECES).map(|at| slot(at, at + 1)).collect();
    assert!(passes(&most));
    let mut record = fresh(1);
    record.assemblies[0].pieces.copy_from_slice(&most);
    record.held = PIECES as u64;
    record.offered = record.held;
    for (count, sound) in [(PIECES, true), (PIECES + 1, false), (PIECES - 1, false)] {
        record.assemblies[0].count = count as u64;
        assert_eq!(record_test(&record), sound, "{count}");
        assert_eq!(second_test(&record), sound, "{count}");
    }
    assert!(passes(&[slot(PLACE - 1, PLACE)]));
    assert!(passes(&[slot(0, PLACE)]));
    assert!(!passes(&[slot(PLACE, PLACE + 1)]));
    assert!(!passes(&[slot(0, PLACE + 1)]));
    assert!(!passes(&[slot(1, PLACE + 1)]));
}

/// One live assembly, at each place and under each plan.
#[test]
fn live_places_and_plans() {
    for plan in 0..=ASSEMBLIES + 1 {
        for place in 0..ASSEMBLIES {
            let mut record = fresh(plan as u64);
            assert!(record_test(&record) && second_test(&record));
            record.assemblies[place].count = 1;
            record.assemblies[place].pieces[0] = slot(0, 8);
            (record.held, record.offered) = (8, 8);
            assert_eq!(record_test(&record), place < plan, "{place} of {plan}");
            assert_eq!(second_test(&record), place < plan, "{place} of {plan}");
            // As many as there may be, and this one.
            for other in 0..plan.min(ASSEMBLIES) {
                record.assemblies[other] = record.assemblies[place];
                record.assemblies[other].identification = other as u32 + 1;
            }
            let live = record.assemblies.iter().filter(|a| a.count != 0).count() as u64;
            (record.held, record.offered) = (8 * live, 8 * live);
            assert_eq!(record_test(&record), place < plan, "{place} of {plan}");
            assert_eq!(second_test(&record), place < plan, "{place} of {plan}");
        }
    }
}

/// An unused place that is not fresh fails, within the plan and past it.
#[test]
fn unused_places_past_the_plan() {
    let strays: [fn(&mut Assembly); 9] = [
        |unused| unused.flow.source[3] = 1,
        |unused| unused.flow.destination[0] = 1,
        |unused| unused.flow.source_port = 1,
        |unused| unused.flow.destination_port = 256,
        |unused| unused.identification = 1 << 31,
        |unused| unused.opened = 1,
        |unused| unused.pieces[0].length = 1,
        |unused| unused.pieces[PIECES - 1].last = 256,
        |unused| unused.pieces[PIECES / 2].option_start = 1,
    ];
    for plan in 1..=ASSEMBLIES as u64 {
        for place in 0..ASSEMBLIES {
            for stray in strays {
                let mut record = fresh(plan);
                record.time = 5;
                stray(&mut record.assemblies[place]);
                assert!(!record_test(&record) && !second_test(&record));
            }
        }
    }
}

//! Records as the header lays them out, byte for byte: a record has no
//! padding, so any bytes are one.

use crate::calls::{run, Pair, Way};
use crate::counts::Counts;
use reference as plain;
use reference::generate::{self, Ask, Call, Lent, Random, World};
use reference::table::{ASSEMBLIES, PIECES, PLACE};
use wuraketozo::Client;

/// How many records of each sort `lists` makes.
const LISTS: u64 = 10_000;

/// The bytes of a record.
pub type Bytes = [u8; Client::SIZE];

/// Goes through a record's bytes, field by field in the header's order.
struct Fields<'a> {
    bytes: &'a mut Bytes,
    at: usize,
    /// Whether fields are put into the bytes, or taken from them.
    put: bool,
}

impl Fields<'_> {
    fn octets<const N: usize>(&mut self, octets: &mut [u8; N]) {
        let place = &mut self.bytes[self.at..self.at + N];
        if self.put {
            place.copy_from_slice(octets);
        } else {
            octets.copy_from_slice(place);
        }
        self.at += N;
    }

    fn u16(&mut self, number: &mut u16) {
        let mut octets = number.to_ne_bytes();
        self.octets(&mut octets);
        *number = u16::from_ne_bytes(octets);
    }

    fn u32(&mut self, number: &mut u32) {
        let mut octets = number.to_ne_bytes();
        self.octets(&mut octets);
        *number = u32::from_ne_bytes(octets);
    }

    fn u64(&mut self, number: &mut u64) {
        let mut octets = number.to_ne_bytes();
        self.octets(&mut octets);
        *number = u64::from_ne_bytes(octets);
    }

    fn record(&mut self, record: &mut plain::Record) {
        self.u64(&mut record.plan);
        self.u64(&mut record.time);
        self.u64(&mut record.offered);
        self.u64(&mut record.held);
        self.u64(&mut record.delivered);
        self.u64(&mut record.expired);
        self.u64(&mut record.clashed);
        self.u64(&mut record.repeated);
        self.u64(&mut record.turned_away);
        for assembly in &mut record.assemblies {
            self.octets(&mut assembly.flow.source);
            self.octets(&mut assembly.flow.destination);
            self.u16(&mut assembly.flow.source_port);
            self.u16(&mut assembly.flow.destination_port);
            self.u32(&mut assembly.identification);
            self.u64(&mut assembly.opened);
            self.u64(&mut assembly.count);
            for slot in &mut assembly.pieces {
                self.u16(&mut slot.offset);
                self.u16(&mut slot.length);
                self.u16(&mut slot.option_start);
                self.u16(&mut slot.last);
            }
        }
        // Every byte belongs to a field.
        assert_eq!(self.at, Client::SIZE);
    }
}

/// The bytes of the reference's record.
pub fn bytes_of(record: &plain::Record) -> Bytes {
    let mut bytes = [0; Client::SIZE];
    let mut fields = Fields {
        bytes: &mut bytes,
        at: 0,
        put: true,
    };
    fields.record(&mut record.clone());
    bytes
}

/// The reference's record of any bytes.
pub fn record_of(mut bytes: Bytes) -> plain::Record {
    let mut record = plain::fresh(0);
    let mut fields = Fields {
        bytes: &mut bytes,
        at: 0,
        put: false,
    };
    fields.record(&mut record);
    record
}

/// A record of any bytes, or a sound one with some bytes changed. Mostly it
/// keeps the plan, so that the record test looks at it.
pub fn patterned(random: &mut Random, sound: &plain::Record) -> plain::Record {
    let mut bytes = bytes_of(sound);
    match random.below(3) {
        0 => {
            let any = random.bytes(Client::SIZE);
            bytes.copy_from_slice(&any);
        }
        1 => bytes.fill(random.pick(&[0x01, 0x02, 0x80, 0xA5, 0xFF])),
        _ => {
            for _ in 0..1 + random.below(4) {
                bytes[random.below(Client::SIZE)] = random.byte();
            }
        }
    }
    let mut record = record_of(bytes);
    if !random.one_in(4) {
        record.plan = sound.plan;
    }
    record
}

/// What the record test says of a record; whether it is the plan alone that
/// makes it fail.
pub fn sort(record: &plain::Record) -> &'static str {
    let largest = plain::Record {
        plan: ASSEMBLIES as u64,
        ..*record
    };
    if plain::record_test(record) {
        "sound"
    } else if plain::record_test(&largest) {
        "live past its plan"
    } else {
        "damaged"
    }
}

/// The end of the last one that is held, T.
fn known_end(held: &[plain::Slot]) -> Option<usize> {
    let last = held.iter().find(|slot| slot.is_last())?;
    Some(usize::from(last.offset) + usize::from(last.length))
}

/// Of each place before `end` whether it is held.
fn painted(held: &[plain::Slot], end: usize) -> Vec<bool> {
    let mut places = vec![false; end];
    for slot in held {
        let start = usize::from(slot.offset);
        let past = (start + usize::from(slot.length)).min(end);
        places[start.min(end)..past].fill(true);
    }
    places
}

fn sum(slots: &[plain::Slot]) -> usize {
    slots.iter().map(|slot| usize::from(slot.length)).sum()
}

/// How the lengths of a live assembly stand to T, and whether each place
/// before T is held.
fn completion(assembly: &plain::Assembly) -> &'static str {
    let (held, unused) = assembly.pieces.split_at(assembly.filled());
    let Some(end) = known_end(held) else {
        return "no last one";
    };
    let covered = painted(held, end).iter().all(|&held| held);
    match (sum(held) == end, covered) {
        (true, true) => "sum T, covered",
        (true, false) => "sum T, a gap",
        (false, true) => "other sum, covered",
        (false, false) if sum(held) + sum(unused) == end => "sum T with unused slots, a gap",
        (false, false) => "other sum, a gap",
    }
}

/// Counts the forged assemblies of a record.
pub fn count_assemblies(counts: &mut Counts, record: &plain::Record) {
    for assembly in &record.assemblies {
        if assembly.count != 0 {
            counts.add("forged assembly", completion(assembly));
            for name in generate::list_sorts(&assembly.pieces[..assembly.filled()]) {
                counts.add("forged list", name);
            }
        }
    }
}

/// Offers what is open first in a live assembly, now and then all but a byte
/// of it. None where nothing is open.
fn filling(random: &mut Random, record: &plain::Record) -> Option<Ask> {
    let live = record.assemblies.iter();
    let live: Vec<_> = live.filter(|assembly| assembly.count != 0).collect();
    let assembly = random.pick(&live);
    let held = &assembly.pieces[..assembly.filled()];
    let end = known_end(held).unwrap_or(PLACE);
    let places = painted(held, end);
    let place = places.iter().position(|&held| !held)?;
    let open = places[place..].iter().take_while(|&&held| !held);
    let length = open.count();
    let short = usize::from(length > 1 && random.one_in(4));
    Some(Ask::Piece {
        client: 0,
        time: record.time,
        flow: assembly.flow,
        identification: assembly.identification,
        place,
        bytes: random.bytes(length - short),
        last: false,
        r: 0,
        out: PLACE,
    })
}

/// A sound record that was given another list of fragments; false if there is
/// none to be replaced.
type Change = fn(&mut Random, &mut plain::Record) -> bool;

/// Calls on records with a list of fragments whose lengths sum to an end, or
/// nearly, and on records with a list in any order that may overlap: an
/// account, the clock, what fills a gap, and calls that look at what is held.
/// Returns the calls made.
pub fn lists(random: &mut Random, counts: &mut Counts) -> Result<u64, String> {
    let changes: [Change; 2] = [generate::summed, generate::crossed];
    let mut made = 0;
    for number in 0..2 * LISTS {
        let mut record = generate::sound_record(random);
        if !changes[(number % 2) as usize](random, &mut record) {
            continue;
        }
        count_assemblies(counts, &record);
        let mut asks = vec![Ask::Bill { client: 0 }];
        let time = record.time;
        asks.push(Ask::Clock { client: 0, time });
        asks.extend((0..3).filter_map(|_| filling(random, &record)));
        let records = vec![record];
        let store = random.bytes(plain::store_length(&records));
        let mut pair = Pair::of(World { records, store });
        asks.extend((0..2).map(|_| generate::call_on(random, &pair.plain).ask));
        let way = random.pick(&[Way::Offered, Way::Offered, Way::Received]);
        for ask in asks {
            let lent = pair.plain.lent();
            run(random, counts, way, &mut pair, &Call { lent, ask })
                .map_err(|text| format!("record {number}, {record:?}: {text}"))?;
            made += 1;
        }
    }
    Ok(made)
}

/// A fragment that is held.
fn slot(start: usize, end: usize) -> plain::Slot {
    plain::Slot {
        offset: start as u16,
        length: (end - start) as u16,
        ..plain::Slot::default()
    }
}

/// Asks for the account of a record with this list of fragments; it passes
/// exactly if `sound`.
fn asked(
    random: &mut Random,
    counts: &mut Counts,
    pair: &mut Pair,
    list: &[plain::Slot],
    sound: bool,
) -> Result<(), String> {
    let mut record = plain::fresh(1);
    record.assemblies[0].count = list.len() as u64;
    record.assemblies[0].pieces[..list.len()].copy_from_slice(list);
    record.held = sum(list) as u64;
    record.offered = record.held;
    let shown = |text: String| format!("fragments {list:?}: {text}");
    if plain::record_test(&record) != sound {
        return Err(shown(String::from("the reference's record test is wrong")));
    }
    pair.set_record(record);
    let call = Call {
        lent: pair.plain.lent(),
        ask: Ask::Bill { client: 0 },
    };
    run(random, counts, Way::Offered, pair, &call).map_err(shown)?;
    Ok(())
}

/// The orders of a full list: as it is, from behind, from both ends inwards,
/// and mixed.
const ORDERS: [fn(usize) -> usize; 4] = [
    |at| at,
    |at| PIECES - 1 - at,
    |at| {
        if at % 2 == 0 {
            at / 2
        } else {
            PIECES - 1 - at / 2
        }
    },
    |at| at * 27 % PIECES,
];

/// Two fragments that share one byte or touch, at every place and in either
/// order; every range in the first two blocks of 64 places, with a byte in it
/// or beside it; and full lists in every order, with a byte that two of them
/// share at every border, or a range twice. Returns the calls made.
pub fn overlaps(random: &mut Random, counts: &mut Counts) -> Result<u64, String> {
    let mut pair = Pair::of(World::new(&Lent::of(&[1])));
    let mut made = 0;
    let mut ask = |list: &[plain::Slot], sound| {
        made += 1;
        asked(random, counts, &mut pair, list, sound)
    };
    for place in 1..PLACE - 1 {
        let low = [slot(0, place), slot(0, place + 1)];
        let high = slot(place, PLACE);
        ask(&[low[0], high], true)?;
        ask(&[high, low[0]], true)?;
        ask(&[low[1], high], false)?;
        ask(&[high, low[1]], false)?;
        let byte = slot(place, place + 1);
        ask(&[slot(place + 1, PLACE), byte, low[0]], true)?;
        ask(&[slot(place + 1, PLACE), byte, low[1]], false)?;
    }
    for start in 0..2 * 64 {
        for end in start + 1..=2 * 64 {
            let range = slot(start, end);
            ask(&[slot(end, end + 1), range], true)?;
            ask(&[slot(end - 1, end), range], false)?;
            ask(&[range, slot(start, start + 1)], false)?;
            if start > 0 {
                ask(&[range, slot(start - 1, start)], true)?;
            }
        }
    }
    let step = PLACE / PIECES;
    let full: Vec<plain::Slot> = (0..PIECES)
        .map(|at| slot(step * at, step * at + step))
        .collect();
    for order in ORDERS {
        let put = |list: &[plain::Slot]| -> Vec<plain::Slot> {
            (0..PIECES).map(|at| list[order(at)]).collect()
        };
        ask(&put(&full), true)?;
        for at in 1..PIECES {
            let mut gap = full.clone();
            gap[at].length -= 1;
            ask(&put(&gap), true)?;
            let mut list = full.clone();
            list[at] = slot(step * at - 1, step * at + step);
            ask(&put(&list), false)?;
            let mut list = full.clone();
            list[at - 1].length += 1;
            ask(&put(&list), false)?;
            let mut list = full.clone();
            list[at] = list[PIECES - 1 - at];
            ask(&put(&list), false)?;
        }
    }
    Ok(made)
}

/// Each byte of a sound record set to every value, and a call made on it. Some
/// of its assemblies are live, some could be, and some stand past its plan.
/// Returns the calls made.
pub fn sweep(random: &mut Random, counts: &mut Counts) -> Result<u64, String> {
    let mut made = 0;
    let sound = loop {
        let world = generate::forged_world(random, 1);
        let live = world.records[0].assemblies.iter();
        let live = live.filter(|assembly| assembly.count != 0).count();
        let plan = world.records[0].plan as usize;
        if plain::record_test(&world.records[0]) && 0 < live && live < plan && plan < ASSEMBLIES {
            break world;
        }
    };
    let bytes = bytes_of(&sound.records[0]);
    let mut pair = Pair::of(sound);
    for at in 0..Client::SIZE {
        for value in 0..=u8::MAX {
            let mut changed = bytes;
            changed[at] = value;
            let record = record_of(changed);
            counts.add("record with one byte changed", sort(&record));
            pair.set_record(record);
            let ask = if value % 2 == 0 {
                Ask::Bill { client: 0 }
            } else {
                let time = record.time.saturating_add(1);
                Ask::Clock { client: 0, time }
            };
            let lent = pair.plain.lent();
            run(random, counts, Way::Offered, &mut pair, &Call { lent, ask })
                .map_err(|text| format!("byte {at} set to {value}: {text}"))?;
            made += 1;
        }
    }
    Ok(made)
}

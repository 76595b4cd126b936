//! Table calls: the library against the reference on lists of calls, on
//! forged records, and one call per datagram. After each call the answer,
//! every record, the whole store and the whole out buffer are compared.

use crate::convert::{
    answer, answer_word, flow, hex, reading, setting, setting_number, taken, Raw,
};
use crate::counts::Counts;
use crate::payloads::{same, same_bytes, Check};
use crate::records::{bytes_of, count_assemblies, patterned, sort};
use reference as plain;
use reference::checksum;
use reference::generate::{self, Ask, Call, Datagram, Lent, Random, World};
use reference::table::{ASSEMBLIES, PIECES, PLACE};
use reference::Strictness;
use wuraketozo::{raw, Arrival, Client, Place, Received, Table};

/// How a list's fragments reach the table.
#[derive(Clone, Copy, PartialEq, Eq)]
pub enum Way {
    /// Offered as they are.
    Offered,
    /// As payloads, with other datagrams and damaged ones between them.
    Received,
}

/// The reference's table, and the library's beside it.
#[derive(Clone)]
pub struct Pair {
    pub plain: World,
    records: Vec<Client>,
    store: Vec<u8>,
}

impl Pair {
    pub fn of(plain: World) -> Pair {
        let laid_out = |record| Client::from_bytes(bytes_of(record));
        let records = plain.records.iter().map(laid_out).collect();
        let store = plain.store.clone();
        Pair {
            plain,
            records,
            store,
        }
    }

    /// Puts a record in the place of the first one, on both sides.
    pub fn set_record(&mut self, record: plain::Record) {
        self.records[0] = Client::from_bytes(bytes_of(&record));
        self.plain.records[0] = record;
    }

    /// Takes back calls that changed only the first `reach` bytes of the store:
    /// the reference says so, and the library was compared with it.
    fn take_back(&mut self, before: &Pair, reach: usize) {
        self.plain.records.clone_from(&before.plain.records);
        self.records.clone_from(&before.records);
        self.plain.store[..reach].copy_from_slice(&before.plain.store[..reach]);
        self.store[..reach].copy_from_slice(&before.store[..reach]);
    }

    /// The table as it is, with other lengths or plans: what is refused with 20
    /// or 32 must leave live records alone.
    fn resized(&self, lent: &Lent) -> Pair {
        Pair::of(self.plain.resized(lent))
    }

    /// Compares every byte of every record, and the whole store.
    fn compare(&self, shown: &dyn Fn() -> String) -> Check {
        for (number, record) in self.plain.records.iter().enumerate() {
            let wanted = bytes_of(record);
            let found = self.records.get(number);
            if found.map(Client::to_bytes) != Some(wanted) {
                let shown = || format!("{}\n  record {number}", shown());
                same(&Some(&Client::from_bytes(wanted)), &found, &shown)?;
                return Err(shown());
            }
        }
        let shown = || format!("{}\n  store", shown());
        same_bytes(&self.plain.store, &self.store, &shown)
    }
}

/// One list of about `most` calls; returns how many were made.
pub fn list(random: &mut Random, counts: &mut Counts, most: usize) -> Result<u64, String> {
    let way = if random.one_in(3) {
        Way::Received
    } else {
        Way::Offered
    };
    if random.one_in(2) {
        let clients = random.pick(&[1, 2, 12]);
        history(random, counts, way, clients, most)
    } else {
        let mut made = 0;
        while made < most as u64 {
            made += forged(random, counts, way, 25)?;
        }
        Ok(made)
    }
}

/// A history of calls from a set-up on.
fn history(
    random: &mut Random,
    counts: &mut Counts,
    way: Way,
    clients: usize,
    most: usize,
) -> Result<u64, String> {
    let mut pair = Pair::of(World::new(&Lent::of(&[1])));
    let list = generate::calls(random, clients, most);
    for call in &list {
        if call.lent == pair.plain.lent() {
            run(random, counts, way, &mut pair, call)?;
            continue;
        }
        let mut other = pair.resized(&call.lent);
        let answer = run(random, counts, way, &mut other, call)?;
        if answer == Some(plain::Answer::SetUp) {
            pair = other;
        }
    }
    Ok(list.len() as u64)
}

/// Calls on a table of records that no history made, some of them damaged.
fn forged(random: &mut Random, counts: &mut Counts, way: Way, most: usize) -> Result<u64, String> {
    let clients = random.pick(&[1, 1, 2, 3, 12]);
    let mut world = generate::forged_world(random, clients);
    if random.one_in(4) {
        let number = random.below(clients);
        wild(random, &mut world.records[number]);
    }
    if random.one_in(8) {
        let number = random.below(clients);
        world.records[number] = patterned(random, &world.records[number]);
    }
    if random.one_in(8) {
        let number = random.below(clients);
        world.records[number] = generate::sound_record(random);
        generate::summed(random, &mut world.records[number]);
    }
    // A plan may be another one now.
    let length = plain::store_length(&world.records);
    world.store.resize(length, 0x5A);
    if random.one_in(8) {
        generate::misfit(random, &mut world);
    }
    for record in &world.records {
        count_assemblies(counts, record);
        counts.add("forged record", sort(record));
    }
    let mut pair = Pair::of(world);
    for _ in 0..most {
        let call = generate::call_on(random, &pair.plain);
        run(random, counts, way, &mut pair, &call)?;
    }
    Ok(most as u64)
}

/// How many originals `originals` sends, and how often it sends a fragment that
/// is not taken.
const ORIGINALS: u64 = 200;
const TRIES: usize = 20;

/// Whole originals, many of them in as many fragments as there may be, in any
/// order and by either way: each fragment is sent until it was taken. Returns
/// the calls made.
pub fn originals(random: &mut Random, counts: &mut Counts) -> Result<u64, String> {
    let mut made = 0;
    for number in 0..ORIGINALS {
        let way = [Way::Offered, Way::Received][(number % 2) as usize];
        let mut pair = Pair::of(World::new(&Lent::of(&[1])));
        for call in &generate::original_calls(random) {
            for _ in 0..TRIES {
                let before = standing(&pair.plain, call);
                run(random, counts, way, &mut pair, call)
                    .map_err(|text| format!("original {number}: {text}"))?;
                made += 1;
                if standing(&pair.plain, call) != before {
                    break;
                }
            }
        }
    }
    Ok(made)
}

/// How many fragments of a call's original are held, and what was delivered.
fn standing(world: &World, call: &Call) -> (usize, u64) {
    let piece = call.piece_call();
    let held = piece.map_or(0, |piece| generate::held_before(world, &piece));
    (held, world.records[0].delivered)
}

/// The store's bytes that the fragments of `sweep` reach.
const REACH: usize = 8;

/// Every list of four fragments of one original from a small set: places 0
/// to 3, one or two bytes, last or not, option start 0 or 1, two with other
/// bytes. Returns the calls made.
pub fn sweep(random: &mut Random, counts: &mut Counts) -> Result<u64, String> {
    let mut calls = Vec::new();
    for place in 0..4 {
        for length in 1..=2 {
            for (last, r) in [(false, 0), (true, 0), (true, 1)] {
                calls.push(small(place, length, last, r, 0));
            }
        }
    }
    calls.push(small(0, 1, false, 0, 1));
    calls.push(small(1, 2, false, 0, 1));
    let mut made = 0;
    let pair = Pair::of(World::new(&Lent::of(&[1])));
    sweep_from(random, counts, &calls, &pair, 4, &mut made)?;
    Ok(made)
}

/// Every list of `left` more calls behind those that made this table.
fn sweep_from(
    random: &mut Random,
    counts: &mut Counts,
    calls: &[Call],
    pair: &Pair,
    left: usize,
    made: &mut u64,
) -> Check {
    if left == 0 {
        return Ok(());
    }
    let mut next = pair.clone();
    for call in calls {
        next.take_back(pair, REACH);
        run(random, counts, Way::Offered, &mut next, call)?;
        *made += 1;
        sweep_from(random, counts, calls, &next, left - 1, made)?;
    }
    Ok(())
}

/// A short fragment; its bytes are its places, changed by `other`.
fn small(place: usize, length: usize, last: bool, r: usize, other: u8) -> Call {
    let bytes = (place..place + length).map(|at| at as u8 ^ other).collect();
    Call {
        lent: Lent::of(&[1]),
        ask: Ask::Piece {
            client: 0,
            time: 5,
            flow: plain::Flow::default(),
            identification: 7,
            place,
            bytes,
            last,
            r,
            out: PLACE,
        },
    }
}

/// Sets a few fields of a record to anything.
fn wild(random: &mut Random, record: &mut plain::Record) {
    for _ in 0..1 + random.below(3) {
        let number = random.draw() >> random.below(64);
        let assembly = &mut record.assemblies[random.below(ASSEMBLIES)];
        let slot = &mut assembly.pieces[random.below(PIECES)];
        match random.below(17) {
            0 => record.time = number,
            1 => record.offered = number,
            2 => record.held = number,
            3 => record.delivered = number,
            4 => record.expired = number,
            5 => record.clashed = number,
            6 => record.repeated = number,
            7 => record.turned_away = number,
            8 => assembly.opened = number,
            9 => assembly.count = number,
            10 => assembly.identification = number as u32,
            11 => assembly.flow.source_port = number as u16,
            12 => slot.offset = number as u16,
            13 => slot.length = number as u16,
            14 => slot.option_start = number as u16,
            15 => slot.last = number as u16,
            _ => record.plan = random.pick(&[number, number % 10]),
        }
    }
}

/// Runs a call on both tables. The reference's answer, if it was a table
/// call's.
pub fn run(
    random: &mut Random,
    counts: &mut Counts,
    way: Way,
    pair: &mut Pair,
    call: &Call,
) -> Result<Option<plain::Answer>, String> {
    if way == Way::Received {
        if let Some((datagram, client, time)) = as_datagram(random, call) {
            receive(
                random,
                counts,
                pair,
                &datagram,
                client,
                time,
                call.out_length(),
            )?;
            return Ok(None);
        }
    }
    let before = random.byte();
    let mut left = vec![before; call.out_length()];
    let mut right = left.clone();
    let held = call.piece_call();
    let held = held.map(|piece| generate::held_before(&pair.plain, &piece));
    let expected = call.on_table(&mut pair.plain.records, &mut pair.plain.store, &mut left);
    let word = match call.ask {
        Ask::SetUp => "reset",
        Ask::Piece { .. } => "offer",
        Ask::Clock { .. } => "advance",
        Ask::Bill { .. } => "account",
    };
    count_answer(
        counts,
        word,
        &call.lent,
        call.client(),
        held.unwrap_or(0),
        &expected,
    );
    let found = if random.one_in(2) {
        by_c(random, pair, call, &mut right)
    } else {
        by_wrapper(pair, call, &mut right)
    };
    let shown = || format!("{word}, out filled with {before:02x}, {}", show_call(call));
    same(&answer(&expected), &found, &shown)?;
    pair.compare(&shown)?;
    same_bytes(&left, &right, &|| format!("{}\n  out", shown()))?;
    Ok(Some(expected))
}

/// Counts an answer: to which call, on which table, for which client, and how
/// many fragments of its original were held.
fn count_answer(
    counts: &mut Counts,
    word: &str,
    lent: &Lent,
    client: Option<usize>,
    held: usize,
    answer: &plain::Answer,
) {
    counts.add(word, &answer_word(answer));
    for name in generate::limit_sorts(held, answer) {
        counts.add(word, name);
    }
    // Of a set-up no plan is its own.
    match lent.fault(client) {
        Some(name) if client.is_some() || lent.refusal() == Some(20) => counts.add(word, name),
        _ => {}
    }
    let plan = client.and_then(|client| lent.plans.get(client));
    if let (plain::Answer::Refused(29), Some(plan)) = (answer, plan) {
        counts.add(word, &format!("29 at a plan of {plan}"));
    }
}

/// A call in words, its bytes in hex.
fn show_call(call: &Call) -> String {
    let Lent { plans, store } = &call.lent;
    let table = format!("plans {plans:?}, store of {store} bytes");
    match &call.ask {
        Ask::Piece {
            client,
            time,
            flow,
            identification,
            place,
            bytes,
            last,
            r,
            out,
        } => format!(
            "{table}, client {client}, time {time}, {flow:?}, identification {identification}, \
             place {place}, last {last}, option start {r}, out of {out} bytes, bytes {}",
            hex(bytes)
        ),
        other => format!("{table}, {other:?}"),
    }
}

/// The call by the C surface.
fn by_c(random: &mut Random, pair: &mut Pair, call: &Call, out: &mut [u8]) -> raw::Answer {
    let (records, store) = (&mut pair.records, &mut pair.store);
    match &call.ask {
        Ask::SetUp => raw::reset(records, store),
        Ask::Clock { client, time } => raw::advance(records, store, *client, *time),
        Ask::Bill { client } => raw::account(records, store, *client),
        Ask::Piece {
            client,
            time,
            flow: key,
            identification,
            place,
            bytes,
            last,
            r,
            ..
        } => {
            // Anything but 0 marks the last one.
            let mark = if *last {
                random.pick(&[1, 2, 256, u32::MAX])
            } else {
                0
            };
            let fragment = raw::Fragment {
                time: *time,
                flow: flow(key),
                identification: *identification,
                place: Place(*place),
                option_start: Place(*r),
                last: mark,
            };
            raw::offer(records, store, *client, fragment, bytes, out)
        }
    }
}

/// The call by the wrapper.
fn by_wrapper(pair: &mut Pair, call: &Call, out: &mut [u8]) -> raw::Answer {
    let mut table = Table::new(&mut pair.records, &mut pair.store);
    match &call.ask {
        Ask::SetUp => taken(table.reset(), 1),
        Ask::Clock { client, time } => taken(table.advance(*client, *time), 6),
        Ask::Bill { client } => table.account(*client).raw(),
        Ask::Piece {
            client,
            time,
            flow: key,
            identification,
            place,
            bytes,
            last,
            r,
            ..
        } => {
            let arrival = Arrival {
                time: *time,
                flow: flow(key),
                identification: *identification,
                place: Place(*place),
                last: *last,
                option_start: Place(*r),
            };
            table.offer(*client, &arrival, bytes, out).raw()
        }
    }
}

/// The datagram of a fragment's call, its client and its time; now and then
/// another datagram or a damaged one. None where the call is no fragment's or
/// its numbers do not fit a datagram.
fn as_datagram(random: &mut Random, call: &Call) -> Option<(Datagram, usize, u64)> {
    let Ask::Piece {
        client,
        time,
        flow,
        identification,
        place,
        bytes,
        last,
        r,
        ..
    } = &call.ask
    else {
        return None;
    };
    if random.one_in(8) {
        return Some((generate::datagram(random), *client, *time));
    }
    let offset = u16::try_from(place.checked_add(8)?).ok()?;
    let option_start = if *last {
        Some(u16::try_from(r.checked_add(8)?).ok()?)
    } else {
        None
    };
    // What may stand between FRAG and its bytes, and before FRAG.
    let nops = if random.one_in(8) {
        random.pick(&[6, 7, 8, 9])
    } else {
        random.pick(&[0, 0, 0, 1, 2])
    };
    let others: &[u8] = match random.below(24) {
        0 => &[0, 200],
        1 => &[6, 6, 1, 2, 3, 4, 0, 0, 0, 1],
        2 => &[1; 7],
        3 => &[1; 8],
        4 => &[9, 2, 1, 1, 1, 1, 1, 1, 1, 1, 1, 0],
        _ => random.pick(&[&[], &[], &[6, 6, 1, 2, 3, 4], &[9, 3, 7, 1, 0], &[0, 0, 0]]),
    };
    let mut payload = Vec::new();
    payload.extend(flow.source_port.to_be_bytes());
    payload.extend(flow.destination_port.to_be_bytes());
    payload.extend([0, 8, 0, 0, 0, 0]);
    payload.extend([1u8].repeat(nops));
    let length: u8 = if *last { 12 } else { 10 };
    let start = payload.len() + usize::from(length) + others.len();
    payload.extend([3, length]);
    payload.extend((start as u16).to_be_bytes());
    payload.extend(identification.to_be_bytes());
    payload.extend(offset.to_be_bytes());
    payload.extend(option_start.iter().flat_map(|start| start.to_be_bytes()));
    payload.extend(others);
    payload.extend(bytes);
    if random.one_in(2) {
        let sum = checksum::sent(checksum::area_sum(&payload[8..], false));
        payload[8..10].copy_from_slice(&sum.to_be_bytes());
        let sum = checksum::udp_sum(flow.source, flow.destination, &payload[..8]);
        payload[6..8].copy_from_slice(&checksum::sent(sum).to_be_bytes());
    }
    if random.one_in(30) {
        let at = random.below(payload.len());
        payload[at] ^= 1 << random.below(8);
    }
    let datagram = Datagram {
        source: flow.source,
        destination: flow.destination,
        payload,
    };
    Some((datagram, *client, *time))
}

/// One call per datagram, in either setting, against the reference's reader
/// and table.
fn receive(
    random: &mut Random,
    counts: &mut Counts,
    pair: &mut Pair,
    datagram: &Datagram,
    client: usize,
    time: u64,
    room: usize,
) -> Check {
    let Datagram {
        source,
        destination,
        payload,
    } = datagram;
    let before = random.byte();
    let mut left = vec![before; room];
    let mut right = left.clone();
    let strictness = random.pick(&[Strictness::Plain, Strictness::Strict]);
    let read = plain::read(payload, *source, *destination, strictness);
    let expected = match &read {
        Ok(plain::Reading {
            verdict: plain::Verdict::Piece(fragment),
            ..
        }) => {
            let port = |at: usize| u16::from_be_bytes([payload[at], payload[at + 1]]);
            let call = plain::PieceCall {
                client,
                time,
                flow: plain::Flow {
                    source: *source,
                    destination: *destination,
                    source_port: port(0),
                    destination_port: port(2),
                },
                identification: fragment.identification,
                place: fragment.place,
                bytes: &payload[fragment.from..fragment.to],
                last: fragment.last,
                r: fragment.option_start,
            };
            let world = &mut pair.plain;
            let held = generate::held_before(world, &call);
            let came = plain::piece(&mut world.records, &mut world.store, &call, &mut left);
            count_answer(counts, "receive", &world.lent(), Some(client), held, &came);
            raw::Received {
                what: 2,
                answer: answer(&came),
                ..raw::Received::default()
            }
        }
        other => {
            match other {
                Ok(reading) => count_datagram(counts, payload, reading),
                Err(number) => counts.add("receive", &number.to_string()),
            }
            raw::Received {
                what: u32::from(other.is_ok()),
                reading: reading(other),
                ..raw::Received::default()
            }
        }
    };
    let number = setting_number(random, strictness);
    let shown = || {
        format!(
            "receive, client {client}, time {time}, out {room} bytes of {before:02x}, source {}, destination {}, strictness {number}, payload {}",
            hex(source),
            hex(destination),
            hex(payload)
        )
    };
    if random.one_in(2) {
        let found = raw::receive(
            &mut pair.records,
            &mut pair.store,
            client,
            time,
            *source,
            *destination,
            number,
            payload,
            &mut right,
        );
        same(&expected, &found, &shown)?;
    } else {
        let mut table = Table::new(&mut pair.records, &mut pair.store);
        let strictness = setting(strictness);
        match table.receive(
            client,
            time,
            *source,
            *destination,
            strictness,
            payload,
            &mut right,
        ) {
            Received::Unread(refusal) => {
                same(
                    &(0, expected.reading.refusal),
                    &(expected.what, refusal.number()),
                    &shown,
                )?;
            }
            Received::Datagram(found) => {
                let wanted = read.map(|reading| crate::convert::wrapped(&reading));
                same(&(1, wanted), &(expected.what, Ok(found)), &shown)?;
            }
            Received::Fragment(found) => {
                same(&(2, expected.answer), &(expected.what, found.raw()), &shown)?;
            }
        }
    }
    pair.compare(&shown)?;
    same_bytes(&left, &right, &|| format!("{}\n  out", shown()))
}

/// Counts a payload that is no fragment.
fn count_datagram(counts: &mut Counts, payload: &[u8], reading: &plain::Reading) {
    counts.add("receive", "datagram");
    if reading.verdict.fault_at().is_some() {
        counts.add("receive", reading.verdict.word());
    }
    if let Some(word) = generate::fault_led_by_frag(payload, reading) {
        counts.add("receive", word);
    }
}

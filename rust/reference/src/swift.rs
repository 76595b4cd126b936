//! The table again, written for speed: the same answers, records and bytes as
//! `table`, in place, with a record test that is linear in the held pieces.
//! The library is measured against it. It shares the types with `table`, no
//! logic.

use crate::table::{
    Account, Answer, Assembly, Flow, PieceCall, Record, Slot, ASSEMBLIES, CLIENTS_MOST, LIFE,
    OFFERED_MOST, PIECES, PLACE,
};

/// One bit for each byte of an original.
type Occupancy = [u64; PLACE / 64];

const EMPTY: Slot = Slot {
    offset: 0,
    length: 0,
    option_start: 0,
    last: 0,
};

/// The record test (refusal 22), for records with any values.
pub fn record_test(record: &Record) -> bool {
    if !figures_test(record) {
        return false;
    }
    let mut held = 0;
    for (index, assembly) in record.assemblies.iter().enumerate() {
        if assembly.count == 0 {
            if !is_fresh(assembly) {
                return false;
            }
            continue;
        }
        let earlier = &record.assemblies[..index];
        if earlier
            .iter()
            .any(|other| has_key(other, &assembly.flow, assembly.identification))
            || index as u64 >= record.plan
            || assembly.opened > record.time
            || record.time - assembly.opened >= LIFE
        {
            return false;
        }
        match sound_bytes(assembly) {
            Some(bytes) => held += bytes,
            None => return false,
        }
    }
    held == record.held
}

/// Whether the six figures sum to offered, which is within its limit. A figure
/// of 2^60 or more is over it; the sum of smaller ones fits in 64 bits.
fn figures_test(record: &Record) -> bool {
    let figures = [
        record.held,
        record.delivered,
        record.expired,
        record.clashed,
        record.repeated,
        record.turned_away,
    ];
    let all = figures.iter().fold(0, |all, figure| all | figure);
    let sum = figures.iter().fold(0u64, |sum, &f| sum.wrapping_add(f));
    record.offered <= OFFERED_MOST && all >> 60 == 0 && sum == record.offered
}

/// Whether an assembly is as in a fresh record; its count is 0.
fn is_fresh(assembly: &Assembly) -> bool {
    assembly.opened == 0
        && assembly.identification == 0
        && assembly.flow == Flow::default()
        && are_spare(&assembly.pieces)
}

/// Whether all slots are as in a fresh record.
fn are_spare(slots: &[Slot]) -> bool {
    let or = |all, slot: &Slot| all | word(slot);
    slots.iter().fold(0, or) == 0
}

/// A slot's fields in one number.
fn word(slot: &Slot) -> u64 {
    u64::from(slot.offset)
        | u64::from(slot.length) << 16
        | u64::from(slot.option_start) << 32
        | u64::from(slot.last) << 48
}

/// What one pass over an assembly's held pieces gathers. It has no branch, so
/// that the compiler takes several pieces at a time: a test is the sign of a
/// difference, and the differences are or-ed.
#[derive(Default)]
struct Pass {
    /// Below 0 if a piece is empty or ends past 8,192.
    wrong: i32,
    /// Below 0 if a piece starts before the one in front of it ends.
    falls: i32,
    /// The sum of the lengths, and the highest end.
    total: i32,
    high: i32,
    /// How many are last; the sums of those ones' ends and option starts.
    lasts: i32,
    end: i32,
    option_start: i32,
}

impl Pass {
    fn over(held: &[Slot]) -> Pass {
        let mut pass = Pass::default();
        let mut before = 0;
        for piece in held {
            let (start, length) = (i32::from(piece.offset), i32::from(piece.length));
            let end = start + length;
            let mask = last_mask(piece);
            pass.wrong |= (length - 1) | (PLACE as i32 - end);
            pass.falls |= start - before;
            pass.total += length;
            pass.high = pass.high.max(end);
            pass.lasts -= mask;
            pass.end += end & mask;
            pass.option_start += i32::from(piece.option_start) & mask;
            before = end;
        }
        pass
    }
}

/// All bits of a piece that is last, else none.
fn last_mask(piece: &Slot) -> i32 {
    -((i32::from(piece.last) + 0xFFFF) >> 16)
}

/// The bytes of a live assembly, if its pieces pass the record test.
fn sound_bytes(assembly: &Assembly) -> Option<u64> {
    if assembly.count > PIECES as u64 {
        return None;
    }
    let (held, spare) = assembly.pieces.split_at(assembly.count as usize);
    let pass = Pass::over(held);
    if pass.wrong < 0 || pass.lasts > 1 || !are_spare(spare) {
        return None;
    }
    // None past the end, r not over it, not yet whole: pieces without overlap
    // in 0 to T cover it exactly if they have T bytes.
    if pass.lasts == 1
        && (pass.high > pass.end || pass.option_start > pass.end || pass.total == pass.end)
    {
        return None;
    }
    // Pieces that rise don't overlap.
    if pass.falls < 0 && !are_apart(held) {
        return None;
    }
    Some(pass.total as u64)
}

/// Whether pieces, none empty and each within an original, don't overlap.
fn are_apart(held: &[Slot]) -> bool {
    let mut taken: Occupancy = [0; PLACE / 64];
    held.iter().all(|piece| occupy(&mut taken, piece))
}

/// Takes a piece's bytes, word by word; false if one was taken before. The
/// remainders change nothing and spare the tests of the index.
fn occupy(taken: &mut Occupancy, piece: &Slot) -> bool {
    let (first, last) = (start(piece), end(piece) - 1);
    let (mut at, to) = (first / 64 % taken.len(), last / 64 % taken.len());
    let mut mask = u64::MAX << (first % 64);
    let mut met = 0;
    while at < to {
        met |= taken[at] & mask;
        taken[at] |= mask;
        mask = u64::MAX;
        at += 1;
    }
    mask &= u64::MAX >> (63 - last % 64);
    met |= taken[to] & mask;
    taken[to] |= mask;
    met == 0
}

fn start(piece: &Slot) -> usize {
    usize::from(piece.offset)
}

fn end(piece: &Slot) -> usize {
    usize::from(piece.offset) + usize::from(piece.length)
}

/// Whether an assembly is live and has this key.
fn has_key(assembly: &Assembly, flow: &Flow, identification: u32) -> bool {
    assembly.identification == identification && assembly.count != 0 && assembly.flow == *flow
}

/// Refusals 20, 32, 21 and 22, in their order; else where the client's share
/// starts.
fn client_share(records: &[Record], store: usize, client: usize) -> Result<usize, u32> {
    if records.is_empty() || records.len() > CLIENTS_MOST {
        return Err(20);
    }
    // One pass over the plans; a sum counts only if all are in range.
    let (mut wrong, mut sum, mut before) = (false, 0u64, 0);
    for (number, record) in records.iter().enumerate() {
        if number == client {
            before = sum;
        }
        wrong |= record.plan.wrapping_sub(1) >= ASSEMBLIES as u64;
        sum = sum.wrapping_add(record.plan);
    }
    if wrong {
        return Err(32);
    }
    if store != PLACE * sum as usize {
        return Err(20);
    }
    match records.get(client) {
        None => Err(21),
        Some(record) if record_test(record) => Ok(PLACE * before as usize),
        Some(_) => Err(22),
    }
}

/// The client's account; refusals 20, 32, 21, 22; changes nothing.
pub fn bill(records: &[Record], store: &[u8], client: usize) -> Answer {
    if let Err(number) = client_share(records, store.len(), client) {
        return Answer::Refused(number);
    }
    let record = &records[client];
    Answer::Billed(Account {
        offered: record.offered,
        held: record.held,
        delivered: record.delivered,
        expired: record.expired,
        clashed: record.clashed,
        repeated: record.repeated,
        turned_away: record.turned_away,
    })
}

/// Sets the client's time and expires; refusals 20, 32, 21, 22, 27.
pub fn clock(records: &mut [Record], store: &[u8], client: usize, time: u64) -> Answer {
    if let Err(number) = client_share(records, store.len(), client) {
        return Answer::Refused(number);
    }
    let record = &mut records[client];
    if time < record.time {
        return Answer::Refused(27);
    }
    advance(record, time);
    Answer::Clocked
}

/// Sets the time and frees every assembly opened 120,000 ms ago or more.
fn advance(record: &mut Record, time: u64) {
    record.time = time;
    for assembly in &mut record.assemblies {
        if assembly.count != 0 && time - assembly.opened >= LIFE {
            let bytes = free(assembly);
            record.held -= bytes;
            record.expired += bytes;
        }
    }
}

/// Makes an assembly fresh, whose spare slots are; returns its bytes.
fn free(assembly: &mut Assembly) -> u64 {
    let held = &mut assembly.pieces[..assembly.count as usize];
    let bytes = held.iter().map(|piece| u64::from(piece.length)).sum();
    held.fill(EMPTY);
    assembly.flow = Flow::default();
    assembly.identification = 0;
    assembly.opened = 0;
    assembly.count = 0;
    bytes
}

/// What a piece is to the pieces held of its original.
enum Joining {
    Repeats,
    Clashes,
    /// The original's bytes with it, and its end and option start if known.
    Fits(usize, Option<(usize, usize)>),
}

/// Takes one piece of a client; refusals 20 to 30, and 32.
pub fn piece(records: &mut [Record], store: &mut [u8], call: &PieceCall, out: &mut [u8]) -> Answer {
    let share = match client_share(records, store.len(), call.client) {
        Ok(share) => share,
        Err(number) => return Answer::Refused(number),
    };
    let record = &mut records[call.client];
    let room = call.place.saturating_add(call.bytes.len());
    let length = call.bytes.len() as u64;
    if out.len() < PLACE {
        return Answer::Refused(23);
    }
    if call.bytes.is_empty() {
        return Answer::Refused(24);
    }
    if room > PLACE {
        return Answer::Refused(25);
    }
    if call.last && call.r > room {
        return Answer::Refused(26);
    }
    if call.time < record.time {
        return Answer::Refused(27);
    }
    if record.offered + length > OFFERED_MOST {
        return Answer::Refused(28);
    }
    // From here on time and expiry stand, and the length is offered.
    advance(record, call.time);
    record.offered += length;
    let Some(index) = place_of(record, call) else {
        record.turned_away += length;
        return Answer::Refused(29);
    };
    let from = share + PLACE * index;
    let bytes = &mut store[from..from + PLACE];
    let assembly = &mut record.assemblies[index];
    let (total, known) = match joining(assembly, call, bytes) {
        Joining::Repeats => {
            record.repeated += length;
            return Answer::Repeated;
        }
        Joining::Clashes => {
            let held = free(assembly);
            record.held -= held;
            record.clashed += held + length;
            return Answer::Clash;
        }
        Joining::Fits(total, known) => (total, known),
    };
    let count = assembly.count as usize;
    if count == PIECES {
        record.turned_away += length;
        return Answer::Refused(30);
    }
    bytes[call.place..room].copy_from_slice(call.bytes);
    match known {
        // No overlap and none past T: whole if T bytes are there.
        Some((t, r)) if t == total => {
            out[..t].copy_from_slice(&bytes[..t]);
            record.held -= free(assembly);
            record.delivered += t as u64;
            Answer::Delivered { t, r }
        }
        _ => {
            if count == 0 {
                assembly.flow = call.flow;
                assembly.identification = call.identification;
                assembly.opened = call.time;
            }
            assembly.pieces[count] = Slot {
                offset: call.place as u16,
                length: length as u16,
                option_start: if call.last { call.r as u16 } else { 0 },
                last: u16::from(call.last),
            };
            assembly.count += 1;
            record.held += length;
            Answer::Stored
        }
    }
}

/// The assembly with the call's key, else the lowest free place, if any. None
/// is live past the plan.
fn place_of(record: &Record, call: &PieceCall) -> Option<usize> {
    let assemblies = &record.assemblies[..record.plan as usize];
    assemblies
        .iter()
        .position(|assembly| has_key(assembly, &call.flow, call.identification))
        .or_else(|| assemblies.iter().position(|assembly| assembly.count == 0))
}

/// One pass over what is held. Pieces that passed the record test don't clash
/// with each other: if the call repeats one, that is the only one it meets.
fn joining(assembly: &Assembly, call: &PieceCall, bytes: &[u8]) -> Joining {
    let (from, to) = (call.place, call.place + call.bytes.len());
    let mut total = call.bytes.len();
    let mut known = if call.last { Some((to, call.r)) } else { None };
    for held in &assembly.pieces[..assembly.count as usize] {
        let (start, end) = (start(held), end(held));
        let last = held.last != 0;
        if (from < end && start < to)
            || (last && (call.last || to > end))
            || (call.last && to < end)
        {
            let r = usize::from(held.option_start);
            let same = (start, end, last) == (from, to, call.last) && (!last || r == call.r);
            return match same && bytes[from..to] == *call.bytes {
                true => Joining::Repeats,
                false => Joining::Clashes,
            };
        }
        total += end - start;
        if last {
            known = Some((end, usize::from(held.option_start)));
        }
    }
    Joining::Fits(total, known)
}

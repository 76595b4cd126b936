//! "The table": a lent slice of client records beside a lent store.

/// The most clients (refusal 20).
pub const CLIENTS_MOST: usize = 12;
/// Assemblies in a record: the largest plan (refusal 32).
pub const ASSEMBLIES: usize = 8;
/// The most pieces of one assembly (refusal 30).
pub const PIECES: usize = 64;
/// Store bytes of one assembly, the longest original (refusal 25) and the
/// smallest out buffer (refusal 23).
pub const PLACE: usize = 8_192;
/// An assembly expires when it was opened this many ms ago or more.
pub const LIFE: u64 = 120_000;
/// The most bytes that a client may offer (refusal 28).
pub const OFFERED_MOST: u64 = 1_000_000_000_000_000;

/// Both addresses and both ports.
#[derive(Clone, Copy, Debug, PartialEq, Eq, Default)]
pub struct Flow {
    pub source: [u8; 4],
    pub destination: [u8; 4],
    pub source_port: u16,
    pub destination_port: u16,
}

/// One held piece. It is last unless `last` is 0; the option start counts
/// only in a last piece.
#[derive(Clone, Copy, Debug, PartialEq, Eq, Default)]
pub struct Slot {
    pub offset: u16,
    pub length: u16,
    pub option_start: u16,
    pub last: u16,
}

/// One assembly; it is live if its count is not 0.
#[derive(Clone, Copy, Debug, PartialEq, Eq)]
pub struct Assembly {
    pub flow: Flow,
    pub identification: u32,
    pub opened: u64,
    pub count: u64,
    pub pieces: [Slot; PIECES],
}

impl Default for Assembly {
    /// As in a fresh record.
    fn default() -> Assembly {
        Assembly {
            flow: Flow::default(),
            identification: 0,
            opened: 0,
            count: 0,
            pieces: [Slot::default(); PIECES],
        }
    }
}

/// One client's record. The plan says how many assemblies the client may have
/// at once, 1 to 8.
#[derive(Clone, Copy, Debug, PartialEq, Eq)]
pub struct Record {
    pub plan: u64,
    pub time: u64,
    pub offered: u64,
    pub held: u64,
    pub delivered: u64,
    pub expired: u64,
    pub clashed: u64,
    pub repeated: u64,
    pub turned_away: u64,
    pub assemblies: [Assembly; ASSEMBLIES],
}

/// The answer of a bill: offered and the six figures.
#[derive(Clone, Copy, Debug, PartialEq, Eq, Default)]
pub struct Account {
    pub offered: u64,
    pub held: u64,
    pub delivered: u64,
    pub expired: u64,
    pub clashed: u64,
    pub repeated: u64,
    pub turned_away: u64,
}

/// The answer of a call.
#[derive(Clone, Copy, Debug, PartialEq, Eq)]
pub enum Answer {
    /// 20 to 30, and 32.
    Refused(u32),
    Stored,
    Repeated,
    Clash,
    Delivered {
        t: usize,
        r: usize,
    },
    /// A set-up that was taken.
    SetUp,
    /// A clock call that was taken.
    Clocked,
    Billed(Account),
}

/// The arguments of a piece call, besides the table and the out buffer.
#[derive(Clone, Copy, Debug)]
pub struct PieceCall<'a> {
    pub client: usize,
    pub time: u64,
    pub flow: Flow,
    pub identification: u32,
    pub place: usize,
    pub bytes: &'a [u8],
    pub last: bool,
    /// The option start, ignored unless `last`.
    pub r: usize,
}

/// A fresh record of this plan: last time 0, no assembly, all figures 0.
pub fn fresh(plan: u64) -> Record {
    Record {
        plan,
        time: 0,
        offered: 0,
        held: 0,
        delivered: 0,
        expired: 0,
        clashed: 0,
        repeated: 0,
        turned_away: 0,
        assemblies: [Assembly::default(); ASSEMBLIES],
    }
}

/// Whether a plan is 1 to 8.
pub fn in_range(plan: u64) -> bool {
    (1..=ASSEMBLIES as u64).contains(&plan)
}

/// Store bytes of a client with this plan; 0 for a plan out of range.
pub fn share(plan: u64) -> usize {
    if in_range(plan) {
        plan as usize * PLACE
    } else {
        0
    }
}

/// Store bytes of all these clients: each share follows those before it.
pub fn store_length(records: &[Record]) -> usize {
    records.iter().map(|record| share(record.plan)).sum()
}

/// Where a client's share starts in the store.
pub fn share_start(records: &[Record], client: usize) -> usize {
    store_length(&records[..client])
}

impl Slot {
    pub fn is_last(&self) -> bool {
        self.last != 0
    }

    fn start(&self) -> usize {
        usize::from(self.offset)
    }

    fn end(&self) -> usize {
        usize::from(self.offset) + usize::from(self.length)
    }
}

impl Record {
    /// How many assemblies are live.
    fn live(&self) -> u64 {
        self.assemblies.iter().filter(|a| a.is_live()).count() as u64
    }
}

impl Assembly {
    fn is_live(&self) -> bool {
        self.count != 0
    }

    /// How many pieces are held; all slots where a forged count is past
    /// them.
    pub fn filled(&self) -> usize {
        usize::try_from(self.count).unwrap_or(PIECES).min(PIECES)
    }

    /// The held pieces.
    fn held(&self) -> &[Slot] {
        &self.pieces[..self.filled()]
    }

    fn bytes(&self) -> u64 {
        self.held()
            .iter()
            .map(|piece| u64::from(piece.length))
            .sum()
    }

    fn last(&self) -> Option<&Slot> {
        self.held().iter().find(|piece| piece.is_last())
    }

    fn has_key(&self, flow: &Flow, identification: u32) -> bool {
        self.is_live() && self.identification == identification && self.flow == *flow
    }
}

/// The record test (refusal 22), for records with any values. It says nothing
/// of the plan's range (refusal 32).
pub fn record_test(record: &Record) -> bool {
    let figures = [
        record.held,
        record.delivered,
        record.expired,
        record.clashed,
        record.repeated,
        record.turned_away,
    ];
    let sum: u128 = figures.iter().map(|&figure| u128::from(figure)).sum();
    if record.offered > OFFERED_MOST || sum != u128::from(record.offered) {
        return false;
    }
    let mut held = 0;
    for (index, assembly) in record.assemblies.iter().enumerate() {
        if !assembly.is_live() {
            // An unused assembly is as in a fresh record.
            if *assembly != Assembly::default() {
                return false;
            }
            continue;
        }
        // A live one at or past the plan.
        if index as u64 >= record.plan {
            return false;
        }
        let earlier = &record.assemblies[..index];
        if earlier
            .iter()
            .any(|other| other.has_key(&assembly.flow, assembly.identification))
            || assembly.opened > record.time
            || record.time - assembly.opened >= LIFE
            || !pieces_test(assembly)
        {
            return false;
        }
        held += assembly.bytes();
    }
    held == record.held
}

/// The record test's part on one live assembly's pieces.
fn pieces_test(assembly: &Assembly) -> bool {
    if assembly.count > PIECES as u64 {
        return false;
    }
    let (held, unused) = assembly.pieces.split_at(assembly.filled());
    let mut total = 0;
    let mut furthest = 0;
    let mut last: Option<&Slot> = None;
    for (index, piece) in held.iter().enumerate() {
        if piece.length == 0 || piece.end() > PLACE {
            return false;
        }
        if held[..index]
            .iter()
            .any(|other| piece.start() < other.end() && other.start() < piece.end())
        {
            return false;
        }
        total += usize::from(piece.length);
        furthest = furthest.max(piece.end());
        if piece.is_last() {
            if last.is_some() {
                return false;
            }
            last = Some(piece);
        }
    }
    if let Some(last) = last {
        // None past its end, r not over it, not yet whole: pieces that don't
        // overlap and end by T cover 0 to T if they have T bytes.
        if furthest > last.end()
            || usize::from(last.option_start) > last.end()
            || total == last.end()
        {
            return false;
        }
    }
    unused.iter().all(|slot| *slot == Slot::default())
}

/// Refusals 20 and 32: the record count, every plan, the store's length.
fn table_refusal(records: &[Record], store: &[u8]) -> Option<u32> {
    if records.is_empty() || records.len() > CLIENTS_MOST {
        Some(20)
    } else if records.iter().any(|record| !in_range(record.plan)) {
        Some(32)
    } else if store.len() != store_length(records) {
        Some(20)
    } else {
        None
    }
}

/// Makes all records fresh but their plans, and leaves the store; refusals 20
/// and 32.
pub fn set_up(records: &mut [Record], store: &[u8]) -> Answer {
    if let Some(number) = table_refusal(records, store) {
        return Answer::Refused(number);
    }
    for record in records {
        *record = fresh(record.plan);
    }
    Answer::SetUp
}

/// Sets the client's time and expires; refusals 20, 32, 21, 22, 27.
pub fn clock(records: &mut [Record], store: &[u8], client: usize, time: u64) -> Answer {
    if let Some(number) = table_refusal(records, store) {
        return Answer::Refused(number);
    }
    let Some(record) = records.get_mut(client) else {
        return Answer::Refused(21);
    };
    if !record_test(record) {
        return Answer::Refused(22);
    }
    if time < record.time {
        return Answer::Refused(27);
    }
    advance(record, time);
    Answer::Clocked
}

/// The client's account; refusals 20, 32, 21, 22; changes nothing.
pub fn bill(records: &[Record], store: &[u8], client: usize) -> Answer {
    if let Some(number) = table_refusal(records, store) {
        return Answer::Refused(number);
    }
    let Some(record) = records.get(client) else {
        return Answer::Refused(21);
    };
    if !record_test(record) {
        return Answer::Refused(22);
    }
    Answer::Billed(Account {
        offered: record.offered,
        held: record.held,
        delivered: record.delivered,
        expired: record.expired,
        clashed: record.clashed,
        repeated: record.repeated,
        turned_away: record.turned_away,
    })
}

/// Sets the time and frees every assembly opened 120,000 ms ago or more.
fn advance(record: &mut Record, time: u64) {
    record.time = time;
    for assembly in &mut record.assemblies {
        if assembly.is_live() && time - assembly.opened >= LIFE {
            let bytes = assembly.bytes();
            record.held -= bytes;
            record.expired += bytes;
            *assembly = Assembly::default();
        }
    }
}

/// Takes one piece of a client; refusals 20 to 30, and 32.
pub fn piece(records: &mut [Record], store: &mut [u8], call: &PieceCall, out: &mut [u8]) -> Answer {
    if let Some(number) = table_refusal(records, store) {
        return Answer::Refused(number);
    }
    if call.client >= records.len() {
        return Answer::Refused(21);
    }
    let start = share_start(records, call.client);
    let record = &mut records[call.client];
    if !record_test(record) {
        return Answer::Refused(22);
    }
    if out.len() < PLACE {
        return Answer::Refused(23);
    }
    if call.bytes.is_empty() {
        return Answer::Refused(24);
    }
    let end = match call.place.checked_add(call.bytes.len()) {
        Some(end) if end <= PLACE => end,
        _ => return Answer::Refused(25),
    };
    if call.last && call.r > end {
        return Answer::Refused(26);
    }
    if call.time < record.time {
        return Answer::Refused(27);
    }
    let length = call.bytes.len() as u64;
    if record.offered + length > OFFERED_MOST {
        return Answer::Refused(28);
    }
    // From here on time and expiry stand, and the length is offered.
    advance(record, call.time);
    record.offered += length;

    let share = &mut store[start..start + share(record.plan)];
    let known = record
        .assemblies
        .iter()
        .position(|assembly| assembly.has_key(&call.flow, call.identification));
    let index = match known {
        Some(index) => index,
        // A new assembly takes the lowest free place.
        None => match record.assemblies.iter().position(|a| !a.is_live()) {
            Some(index) if record.live() < record.plan => index,
            _ => {
                record.turned_away += length;
                return Answer::Refused(29);
            }
        },
    };
    let assembly = &mut record.assemblies[index];
    let bytes = &mut share[PLACE * index..PLACE * (index + 1)];
    if known.is_some() {
        if repeats(assembly, call, end, bytes) {
            record.repeated += length;
            return Answer::Repeated;
        }
        if clashes(assembly, call, end) {
            let held = assembly.bytes();
            record.held -= held;
            record.clashed += held + length;
            *assembly = Assembly::default();
            return Answer::Clash;
        }
        if assembly.filled() == PIECES {
            record.turned_away += length;
            return Answer::Refused(30);
        }
    } else {
        assembly.flow = call.flow;
        assembly.identification = call.identification;
        assembly.opened = call.time;
    }

    // The piece is stored, listed after the earlier ones.
    assembly.pieces[assembly.filled()] = Slot {
        offset: call.place as u16,
        length: call.bytes.len() as u16,
        option_start: if call.last { call.r as u16 } else { 0 },
        last: u16::from(call.last),
    };
    assembly.count += 1;
    bytes[call.place..end].copy_from_slice(call.bytes);
    let total = assembly.bytes();
    match assembly.last() {
        // No overlap and none past T: whole if T bytes are there.
        Some(last) if last.end() as u64 == total => {
            let t = last.end();
            let r = usize::from(last.option_start);
            out[..t].copy_from_slice(&bytes[..t]);
            record.held -= total - length;
            record.delivered += total;
            *assembly = Assembly::default();
            Answer::Delivered { t, r }
        }
        _ => {
            record.held += length;
            Answer::Stored
        }
    }
}

/// Same range, same last mark, same r and same bytes as a held piece.
fn repeats(assembly: &Assembly, call: &PieceCall, end: usize, bytes: &[u8]) -> bool {
    assembly.held().iter().any(|held| {
        held.start() == call.place
            && held.end() == end
            && held.is_last() == call.last
            && (!call.last || usize::from(held.option_start) == call.r)
            && bytes[call.place..end] == *call.bytes
    })
}

/// Overlap, a second last piece, an end past the known end, or a last piece
/// that ends before a held one's end.
fn clashes(assembly: &Assembly, call: &PieceCall, end: usize) -> bool {
    assembly.held().iter().any(|held| {
        (call.place < held.end() && held.start() < end)
            || (held.is_last() && (call.last || end > held.end()))
            || (call.last && end < held.end())
    })
}

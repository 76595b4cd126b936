//! "A client's plain book" (section "The table", last paragraph): the same
//! answers and figures from a flat list of open pieces. It follows one
//! client's calls, sees of each call's table only the plans, one for each
//! record, and the store's length, and shares no code with the table, only the
//! limits and the types of arguments and answers.

use crate::table::{Account, Answer, Flow, PieceCall};
use crate::table::{ASSEMBLIES, CLIENTS_MOST, LIFE, OFFERED_MOST, PIECES, PLACE};

/// An open piece.
#[derive(Clone, Debug, PartialEq, Eq)]
pub struct OpenPiece {
    pub key: (Flow, u32),
    pub time: u64,
    pub place: usize,
    pub bytes: Vec<u8>,
    pub last: bool,
    pub r: usize,
}

/// The plain book of one client, at first all 0 and empty. Its plan is that of
/// the last set-up taken.
#[derive(Clone, Debug, Default, PartialEq, Eq)]
pub struct Book {
    pub client: usize,
    pub plan: u64,
    pub time: u64,
    pub offered: u64,
    pub delivered: u64,
    pub expired: u64,
    pub clashed: u64,
    pub repeated: u64,
    pub turned_away: u64,
    pub open: Vec<OpenPiece>,
}

/// Refusals 20 and 32, of the plans and the store's length.
fn table_refused(plans: &[u64], store: usize) -> Result<(), Answer> {
    if !(1..=CLIENTS_MOST).contains(&plans.len()) {
        return Err(Answer::Refused(20));
    }
    let mut bytes = 0;
    for &plan in plans {
        if plan == 0 || plan > ASSEMBLIES as u64 {
            return Err(Answer::Refused(32));
        }
        bytes += PLACE as u64 * plan;
    }
    if store as u64 != bytes {
        return Err(Answer::Refused(20));
    }
    Ok(())
}

impl Book {
    /// The book of a client whose last set-up taken had this plan.
    pub fn new(client: usize, plan: u64) -> Book {
        Book {
            client,
            plan,
            ..Book::default()
        }
    }

    /// A set-up taken starts the history anew.
    pub fn set_up(&mut self, plans: &[u64], store: usize) -> Answer {
        if let Err(refused) = table_refused(plans, store) {
            return refused;
        }
        // A client that this table has not gets 21 till the next one.
        let plan = plans.get(self.client).copied().unwrap_or(0);
        *self = Book::new(self.client, plan);
        Answer::SetUp
    }

    /// Refusals 20, 32 and 21.
    fn client_refused(&self, plans: &[u64], store: usize) -> Result<(), Answer> {
        table_refused(plans, store)?;
        if self.client >= plans.len() {
            return Err(Answer::Refused(21));
        }
        Ok(())
    }

    pub fn clock(&mut self, plans: &[u64], store: usize, time: u64) -> Answer {
        if let Err(refused) = self.client_refused(plans, store) {
            return refused;
        }
        if time < self.time {
            return Answer::Refused(27);
        }
        self.pass_time(time);
        Answer::Clocked
    }

    pub fn bill(&self, plans: &[u64], store: usize) -> Answer {
        if let Err(refused) = self.client_refused(plans, store) {
            return refused;
        }
        Answer::Billed(self.account())
    }

    /// The figures; held is the open pieces' bytes.
    pub fn account(&self) -> Account {
        Account {
            offered: self.offered,
            held: self.open.iter().map(|piece| piece.bytes.len() as u64).sum(),
            delivered: self.delivered,
            expired: self.expired,
            clashed: self.clashed,
            repeated: self.repeated,
            turned_away: self.turned_away,
        }
    }

    /// A piece call on this client; `call.client` is taken to be its number.
    pub fn piece(
        &mut self,
        plans: &[u64],
        store: usize,
        call: &PieceCall,
        out: &mut [u8],
    ) -> Answer {
        let length = call.bytes.len();
        if let Err(refused) = self.client_refused(plans, store) {
            return refused;
        }
        if out.len() < PLACE {
            return Answer::Refused(23);
        }
        if length == 0 {
            return Answer::Refused(24);
        }
        if length > PLACE || call.place > PLACE - length {
            return Answer::Refused(25);
        }
        if call.last && call.r > call.place + length {
            return Answer::Refused(26);
        }
        if call.time < self.time {
            return Answer::Refused(27);
        }
        if u128::from(self.offered) + length as u128 > u128::from(OFFERED_MOST) {
            return Answer::Refused(28);
        }
        self.pass_time(call.time);
        self.offered += length as u64;

        let key = (call.flow, call.identification);
        let mine: Vec<&OpenPiece> = self.open.iter().filter(|open| open.key == key).collect();
        if mine.is_empty() && self.live_keys() >= self.plan {
            self.turned_away += length as u64;
            return Answer::Refused(29);
        }
        if mine.iter().any(|open| same(open, call)) {
            self.repeated += length as u64;
            return Answer::Repeated;
        }
        if mine.iter().any(|open| against(open, call)) {
            self.clashed += self.close(key) + length as u64;
            return Answer::Clash;
        }
        if mine.len() >= PIECES {
            self.turned_away += length as u64;
            return Answer::Refused(30);
        }
        self.open.push(OpenPiece {
            key,
            time: call.time,
            place: call.place,
            bytes: call.bytes.to_vec(),
            last: call.last,
            r: call.r,
        });
        let Some((whole, r)) = self.whole(key) else {
            return Answer::Stored;
        };
        let t = whole.len();
        out[..t].copy_from_slice(&whole);
        self.delivered += self.close(key);
        Answer::Delivered { t, r }
    }

    /// Sets the time; assemblies opened 120,000 ms ago or more leave.
    fn pass_time(&mut self, time: u64) {
        self.time = time;
        let keys: Vec<(Flow, u32)> = self.open.iter().map(|open| open.key).collect();
        for key in keys {
            let opened = self.open.iter().find(|open| open.key == key);
            let old = opened.is_some_and(|first| time.saturating_sub(first.time) >= LIFE);
            if old {
                self.expired += self.close(key);
            }
        }
    }

    /// How many keys have open pieces.
    fn live_keys(&self) -> u64 {
        let first = |(index, piece): &(usize, &OpenPiece)| {
            self.open[..*index].iter().all(|open| open.key != piece.key)
        };
        self.open.iter().enumerate().filter(first).count() as u64
    }

    /// The pieces of a key leave the list; returns their bytes.
    fn close(&mut self, key: (Flow, u32)) -> u64 {
        let mut bytes = 0;
        self.open.retain(|open| {
            if open.key == key {
                bytes += open.bytes.len() as u64;
            }
            open.key != key
        });
        bytes
    }

    /// The original of a key and its r, if its last piece is open and every
    /// byte from 0 to T is in an open piece.
    fn whole(&self, key: (Flow, u32)) -> Option<(Vec<u8>, usize)> {
        let mut mine = self.open.iter().filter(|open| open.key == key);
        let last = mine.find(|open| open.last)?;
        let mut bytes = Vec::new();
        for place in 0..last.place + last.bytes.len() {
            let holder = self.open.iter().find(|open| {
                open.key == key && open.place <= place && place < open.place + open.bytes.len()
            })?;
            bytes.push(holder.bytes[place - holder.place]);
        }
        Some((bytes, last.r))
    }
}

/// Same range, same last mark, same r (of a last piece) and same bytes.
fn same(open: &OpenPiece, call: &PieceCall) -> bool {
    open.place == call.place
        && open.bytes == call.bytes
        && open.last == call.last
        && (!call.last || open.r == call.r)
}

/// The causes of a clash.
fn against(open: &OpenPiece, call: &PieceCall) -> bool {
    let open_end = open.place + open.bytes.len();
    let call_end = call.place + call.bytes.len();
    let overlap = (call.place..call_end).any(|place| open.place <= place && place < open_end);
    let second_last = open.last && call.last;
    let past_known_end = open.last && call_end > open_end;
    let last_too_early = call.last && call_end < open_end;
    overlap || second_last || past_known_end || last_too_early
}

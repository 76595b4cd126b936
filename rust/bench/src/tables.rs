//! The table's cases: the same calls on the library's table and on the
//! reference's two, the plain one and the good one, on each of 12 clients or on
//! one of them.

use crate::cases::{bytes, Case, Make, Side, FLOW, PLAIN, PLAIN_FLOW};
use reference as plain;
use reference::generate::Random;
use reference::{swift, Answer};
use std::hint::black_box;
use std::ops::Range;
use std::rc::Rc;
use wuraketozo::{Arrival, Client, Place, Plan, Received, Refusal, CLIENT_LIMIT, ORIGINAL_LIMIT};

/// When every call comes, in ms.
const TIME: u64 = 1_000;

/// A fragment's numbers.
#[derive(Clone, Copy)]
struct Piece {
    identification: u32,
    place: usize,
    length: usize,
    last: bool,
}

/// What a case times, on each client.
#[derive(Clone)]
enum Work {
    /// Offers these.
    Offer(Vec<Piece>),
    /// Hands these over as payloads.
    Receive(Vec<Vec<u8>>),
    Clock,
    Account,
}

impl Work {
    /// The calls on one client in a turn.
    fn calls(&self) -> usize {
        match self {
            Work::Offer(pieces) => pieces.len(),
            Work::Receive(payloads) => payloads.len(),
            Work::Clock | Work::Account => 1,
        }
    }
}

/// A table, what each of its clients holds when the time starts, and what is
/// timed.
#[derive(Clone)]
struct Task {
    /// The plan of every client.
    plan: Plan,
    clients: usize,
    /// The clients that the work is done on.
    busy: Range<usize>,
    before: Vec<Piece>,
    work: Work,
}

impl Task {
    fn calls(&self) -> usize {
        self.turns().count() * self.work.calls()
    }

    /// The busy clients in turn: where the work changes nothing as often as
    /// there are 96 calls, so that short calls make a long batch.
    fn turns(&self) -> impl Iterator<Item = usize> {
        let busy = self.busy.clone();
        let rounds = match self.work {
            Work::Offer(_) | Work::Receive(_) => 1,
            Work::Clock | Work::Account => 96 / busy.len(),
        };
        (0..rounds).flat_map(move |_| busy.clone())
    }

    /// The same on every client.
    fn on_all(&self, work: Work) -> Task {
        Task {
            busy: 0..self.clients,
            work,
            ..self.clone()
        }
    }
}

/// A side's table, and the calls on it; `start` is what the records are put
/// back to.
struct Host<T: Table> {
    start: Vec<T::Record>,
    records: Vec<T::Record>,
    store: Vec<u8>,
    out: Vec<u8>,
    bytes: Vec<u8>,
    task: Task,
}

/// The answer to a payload that is no fragment.
const NO_FRAGMENT: Answer = Answer::Refused(0);

/// A side's table.
trait Table: Sized + 'static {
    type Record: Copy + 'static;

    fn fresh(plan: Plan) -> Self::Record;

    /// Does the host's work. `note` may ask for each answer, in the
    /// reference's words; it is not worked out unless asked for.
    fn run(host: &mut Host<Self>, note: impl FnMut(&dyn Fn() -> Answer));
}

impl<T: Table> Host<T> {
    fn new(task: &Task) -> Host<T> {
        let mut host = Host {
            start: vec![],
            records: vec![T::fresh(task.plan); task.clients],
            store: vec![0; task.clients * task.plan.share()],
            out: vec![0; ORIGINAL_LIMIT],
            bytes: bytes(ORIGINAL_LIMIT),
            task: task.on_all(Work::Offer(task.before.clone())),
        };
        T::run(&mut host, |answer| assert_eq!(answer(), Answer::Stored));
        host.start = host.records.clone();
        host.task = task.clone();
        host
    }

    /// The answers of one run, and the accounts, the store and the out buffer
    /// after it.
    fn outcome(mut self) -> (Vec<Answer>, Vec<Answer>, Vec<u8>, Vec<u8>) {
        let (mut answers, mut accounts) = (Vec::new(), Vec::new());
        T::run(&mut self, |answer| answers.push(answer()));
        self.task = self.task.on_all(Work::Account);
        T::run(&mut self, |answer| accounts.push(answer()));
        (answers, accounts, self.store, self.out)
    }
}

impl<T: Table> Side for Host<T> {
    /// Puts back the records that the work may change, and touches no other.
    fn prepare(&mut self) {
        let busy = self.task.busy.clone();
        self.records[busy.clone()].copy_from_slice(&self.start[busy]);
    }

    fn run(&mut self) {
        T::run(self, |_| ());
    }
}

/// The library's answer to a fragment, in the reference's words.
fn told(answer: &Result<wuraketozo::Answer, Refusal>) -> Answer {
    match *answer {
        Ok(wuraketozo::Answer::Stored) => Answer::Stored,
        Ok(wuraketozo::Answer::Repeated) => Answer::Repeated,
        Ok(wuraketozo::Answer::Conflict) => Answer::Clash,
        Ok(wuraketozo::Answer::Delivered {
            length,
            option_start,
        }) => Answer::Delivered {
            t: length,
            r: option_start.0,
        },
        Err(refusal) => Answer::Refused(refusal.number()),
    }
}

/// The library's account, in the reference's words.
fn billed(answer: &Result<wuraketozo::Account, Refusal>) -> Answer {
    match answer {
        Ok(account) => Answer::Billed(plain::Account {
            offered: account.offered,
            held: account.held,
            delivered: account.delivered,
            expired: account.expired,
            clashed: account.conflicted,
            repeated: account.repeated,
            turned_away: account.rejected,
        }),
        Err(refusal) => Answer::Refused(refusal.number()),
    }
}

struct Library;

impl Table for Library {
    type Record = Client;

    fn fresh(plan: Plan) -> Client {
        Client::new(plan)
    }

    fn run(host: &mut Host<Library>, mut note: impl FnMut(&dyn Fn() -> Answer)) {
        let mut table = wuraketozo::Table::new(&mut host.records, &mut host.store);
        for client in host.task.turns() {
            match &host.task.work {
                Work::Offer(pieces) => {
                    for piece in pieces {
                        let arrival = Arrival {
                            time: TIME,
                            flow: FLOW,
                            identification: piece.identification,
                            place: Place(piece.place),
                            last: piece.last,
                            option_start: Place(0),
                        };
                        let bytes = &host.bytes[piece.place..piece.place + piece.length];
                        let answer = table.offer(client, black_box(&arrival), bytes, &mut host.out);
                        let answer = black_box(answer);
                        note(&|| told(&answer));
                    }
                }
                Work::Receive(payloads) => {
                    for payload in payloads {
                        let (from, to, plain) = (FLOW.source, FLOW.destination, PLAIN.library);
                        let payload = black_box(payload);
                        let received =
                            table.receive(client, TIME, from, to, plain, payload, &mut host.out);
                        let received = black_box(received);
                        note(&|| match &received {
                            Received::Fragment(answer) => told(answer),
                            _ => NO_FRAGMENT,
                        });
                    }
                }
                Work::Clock => {
                    let answer = black_box(table.advance(black_box(client), TIME));
                    note(&|| match answer {
                        Ok(()) => Answer::Clocked,
                        Err(refusal) => Answer::Refused(refusal.number()),
                    });
                }
                Work::Account => {
                    let answer = black_box(table.account(black_box(client)));
                    note(&|| billed(&answer));
                }
            }
        }
    }
}

/// One of the reference's two tables.
trait Reference: 'static {
    fn piece(
        records: &mut [plain::Record],
        store: &mut [u8],
        call: &plain::PieceCall,
        out: &mut [u8],
    ) -> Answer;
    fn clock(records: &mut [plain::Record], store: &[u8], client: usize, time: u64) -> Answer;
    fn bill(records: &[plain::Record], store: &[u8], client: usize) -> Answer;
}

/// Names the functions of a reference's table.
macro_rules! reference {
    ($name:ident, $table:ident) => {
        struct $name;

        impl Reference for $name {
            #[inline]
            fn piece(
                records: &mut [plain::Record],
                store: &mut [u8],
                call: &plain::PieceCall,
                out: &mut [u8],
            ) -> Answer {
                $table::piece(records, store, call, out)
            }

            #[inline]
            fn clock(
                records: &mut [plain::Record],
                store: &[u8],
                client: usize,
                time: u64,
            ) -> Answer {
                $table::clock(records, store, client, time)
            }

            #[inline]
            fn bill(records: &[plain::Record], store: &[u8], client: usize) -> Answer {
                $table::bill(records, store, client)
            }
        }
    };
}

reference!(Plain, plain);
reference!(Good, swift);

impl<T: Reference> Table for T {
    type Record = plain::Record;

    fn fresh(plan: Plan) -> plain::Record {
        plain::fresh(plan.get())
    }

    fn run(host: &mut Host<T>, mut note: impl FnMut(&dyn Fn() -> Answer)) {
        let (records, store) = (&mut host.records, &mut host.store);
        for client in host.task.turns() {
            match &host.task.work {
                Work::Offer(pieces) => {
                    for piece in pieces {
                        let call = plain::PieceCall {
                            client,
                            time: TIME,
                            flow: PLAIN_FLOW,
                            identification: piece.identification,
                            place: piece.place,
                            bytes: &host.bytes[piece.place..piece.place + piece.length],
                            last: piece.last,
                            r: 0,
                        };
                        let answer = T::piece(records, store, black_box(&call), &mut host.out);
                        let answer = black_box(answer);
                        note(&|| answer);
                    }
                }
                Work::Receive(payloads) => {
                    for payload in payloads {
                        let payload = black_box(payload);
                        let (from, to) = (FLOW.source, FLOW.destination);
                        let read = plain::read(payload, from, to, PLAIN.reference);
                        let mut answer = NO_FRAGMENT;
                        if let Ok(plain::Reading {
                            verdict: plain::Verdict::Piece(fragment),
                            ..
                        }) = read
                        {
                            let port = |at| u16::from_be_bytes([payload[at], payload[at + 1]]);
                            let call = plain::PieceCall {
                                client,
                                time: TIME,
                                flow: plain::Flow {
                                    source_port: port(0),
                                    destination_port: port(2),
                                    ..PLAIN_FLOW
                                },
                                identification: fragment.identification,
                                place: fragment.place,
                                bytes: &payload[fragment.from..fragment.to],
                                last: fragment.last,
                                r: fragment.option_start,
                            };
                            answer = T::piece(records, store, &call, &mut host.out);
                        }
                        let answer = black_box(answer);
                        note(&|| answer);
                    }
                }
                Work::Clock => {
                    let answer = black_box(T::clock(records, store, black_box(client), TIME));
                    note(&|| answer);
                }
                Work::Account => {
                    let answer = black_box(T::bill(records, store, black_box(client)));
                    note(&|| answer);
                }
            }
        }
    }
}

/// A case of 12 clients that hold `before`, on each of them; each answer has to
/// be a `wanted` one. Their plan is of four originals.
fn case(name: String, before: Vec<Piece>, work: Work, wanted: fn(&Answer) -> bool) -> Case {
    case_of(name, FOUR, before, work, wanted)
}

/// The same with any plan.
fn case_of(
    name: String,
    plan: Plan,
    before: Vec<Piece>,
    work: Work,
    wanted: fn(&Answer) -> bool,
) -> Case {
    let task = Task {
        plan,
        clients: CLIENT_LIMIT,
        busy: 0..CLIENT_LIMIT,
        before,
        work,
    };
    case_on(name, task, wanted)
}

fn case_on(name: String, task: Task, wanted: fn(&Answer) -> bool) -> Case {
    let calls = task.calls();
    let task = Rc::new(task);
    fn make<T: Table>(task: &Rc<Task>) -> Make {
        let task = task.clone();
        Box::new(move || Box::new(Host::<T>::new(&task)))
    }
    Case {
        name,
        calls,
        library: make::<Library>(&task),
        reference: make::<Plain>(&task),
        good: Some(make::<Good>(&task)),
        alike: Box::new(move || {
            let one = Host::<Library>::new(&task).outcome();
            let two = Host::<Plain>::new(&task).outcome();
            let three = Host::<Good>::new(&task).outcome();
            one == two && one == three && one.0.iter().all(wanted) && one.1.iter().all(is_account)
        }),
    }
}

fn is_stored(answer: &Answer) -> bool {
    *answer == Answer::Stored
}

fn is_delivery(answer: &Answer) -> bool {
    matches!(answer, Answer::Delivered { t, .. } if *t == ORIGINAL_LIMIT)
}

fn is_clock(answer: &Answer) -> bool {
    *answer == Answer::Clocked
}

fn is_account(answer: &Answer) -> bool {
    matches!(answer, Answer::Billed(_))
}

fn piece(identification: u32, place: usize, length: usize, last: bool) -> Piece {
    Piece {
        identification,
        place,
        length,
        last,
    }
}

/// The plan of most tables: four originals at once.
const FOUR: Plan = match Plan::new(4) {
    Some(plan) => plan,
    None => panic!(),
};

/// The identifications of as many originals as a plan allows.
fn originals(plan: Plan) -> Range<u32> {
    0..plan.get() as u32
}

/// The same fragment of each of four originals.
fn of_each(place: usize, length: usize) -> Vec<Piece> {
    originals(FOUR)
        .map(|number| piece(number, place, length, false))
        .collect()
}

/// The payload of a fragment, with both checksums.
fn fragment_payload(identification: u32, length: usize) -> Vec<u8> {
    let mut payload = vec![0x12, 0x34, 0, 53, 0, 8, 0, 0, 0, 0, 3, 10, 0, 20];
    payload.extend(identification.to_be_bytes());
    payload.extend([0, 8]);
    payload.extend(bytes(length));
    let sent = |sum| plain::checksum::sent(sum).to_be_bytes();
    let sum = sent(plain::checksum::area_sum(&payload[8..], false));
    payload[8..10].copy_from_slice(&sum);
    let sum = sent(plain::checksum::udp_sum(
        FLOW.source,
        FLOW.destination,
        &payload[..8],
    ));
    payload[6..8].copy_from_slice(&sum);
    payload
}

/// The order in which an original's fragments come.
#[derive(Clone, Copy)]
enum Order {
    Rising,
    Random,
    Reversed,
    /// First, last, second, last but one and so on.
    Inwards,
}

const ORDERS: [Order; 4] = [
    Order::Rising,
    Order::Random,
    Order::Reversed,
    Order::Inwards,
];

impl Order {
    fn words(self) -> &'static str {
        match self {
            Order::Rising => "in order",
            Order::Random => "random",
            Order::Reversed => "reversed",
            Order::Inwards => "both ends inwards",
        }
    }

    /// The numbers of so many fragments as they come; a random order is the
    /// seed's.
    fn of(self, count: usize, seed: u32) -> Vec<usize> {
        let mut numbers: Vec<usize> = (0..count).collect();
        match self {
            Order::Rising => {}
            Order::Random => {
                let mut random = Random::new(u64::from(seed));
                for at in (1..count).rev() {
                    numbers.swap(at, random.below(at + 1));
                }
            }
            Order::Reversed => numbers.reverse(),
            Order::Inwards => {
                let nth = |n: usize| match n % 2 {
                    0 => n / 2,
                    _ => count - 1 - n / 2,
                };
                numbers = (0..count).map(nth).collect();
            }
        }
        numbers
    }
}

/// The fragments of an original as they come: so many of one length, the one
/// at the end marked last.
fn fragments(identification: u32, count: usize, length: usize, order: Order) -> Vec<Piece> {
    let one = |number| piece(identification, length * number, length, number + 1 == count);
    let numbers = order.of(count, identification);
    numbers.into_iter().map(one).collect()
}

/// The bytes of a fragment of a crowd: 64 of them are 8,000.
const FRAGMENT: usize = 125;

/// A crowd: as many originals under way as the plan allows, with so many
/// fragments held of each, which came in this order.
#[derive(Clone, Copy)]
struct Crowd {
    plan: Plan,
    count: usize,
    order: Order,
}

impl Crowd {
    /// What is held, and 20 bytes of the one fragment of each original that is
    /// open. These come last, so that the order goes on.
    fn pieces(self) -> (Vec<Piece>, Vec<Piece>) {
        let (mut held, mut next) = (Vec::new(), Vec::new());
        for identification in originals(self.plan) {
            let mut pieces = fragments(identification, self.count + 1, FRAGMENT, self.order);
            let open = pieces.pop().map_or(0, |piece| piece.place);
            held.extend(pieces);
            next.push(piece(identification, open, 20, false));
        }
        (held, next)
    }

    /// In words; one fragment has no order.
    fn words(self) -> String {
        let (originals, count) = (self.plan.get(), self.count);
        match count {
            1 => format!("{originals} x 1 held"),
            _ => format!("{originals} x {count} held, {}", self.order.words()),
        }
    }
}

/// The crowds: 63 fragments leave room for one more.
fn crowds() -> Vec<Crowd> {
    let one = |plan, count, order| Crowd { plan, count, order };
    let mut crowds = vec![one(FOUR, 1, Order::Rising)];
    for (plan, count) in [(FOUR, 16), (FOUR, 63), (Plan::LARGEST, 63)] {
        crowds.extend(ORDERS.map(|order| one(plan, count, order)));
    }
    crowds
}

/// One client of a table whose clients all hold as much as they can and still
/// take a fragment: what the other clients cost it.
fn among_others(client: usize, clients: usize) -> Vec<Case> {
    let full = Crowd {
        plan: Plan::LARGEST,
        count: 63,
        order: Order::Rising,
    };
    let (before, next) = full.pieces();
    let one = |call: &str, work, wanted| {
        let words = full.words();
        let name = format!("{call}, client {client} of {clients}, each with {words}");
        let task = Task {
            plan: full.plan,
            clients,
            busy: client..client + 1,
            before: before.clone(),
            work,
        };
        case_on(name, task, wanted)
    };
    vec![
        one("account", Work::Account, is_account),
        one("clock", Work::Clock, is_clock),
        one(
            "fragment call, 20 bytes stored",
            Work::Offer(next),
            is_stored,
        ),
    ]
}

/// An original of 8,192 bytes in 64 fragments, all but one held.
fn delivery(order: Order) -> Case {
    let mut before = fragments(7, 64, ORIGINAL_LIMIT / 64, order);
    let completing = before.split_off(63);
    case(
        format!(
            "fragment call that delivers 8,192 bytes of 64 fragments, {}",
            order.words()
        ),
        before,
        Work::Offer(completing),
        is_delivery,
    )
}

fn offers() -> Vec<Case> {
    let mut cases = Vec::new();
    for (words, length) in [("1,400", 1_400), ("20", 20)] {
        cases.push(case(
            format!("fragment call, {words} bytes stored, nothing held"),
            vec![],
            Work::Offer(of_each(0, length)),
            is_stored,
        ));
    }
    for crowd in crowds() {
        let (held, next) = crowd.pieces();
        cases.push(case_of(
            format!("fragment call, 20 bytes stored, {}", crowd.words()),
            crowd.plan,
            held,
            Work::Offer(next),
            is_stored,
        ));
    }
    cases.push(case(
        "fragment call that delivers 8,192 bytes of 3 fragments".into(),
        vec![piece(7, 0, 3_000, false), piece(7, 3_000, 3_000, false)],
        Work::Offer(vec![piece(7, 6_000, ORIGINAL_LIMIT - 6_000, true)]),
        is_delivery,
    ));
    cases.extend([Order::Rising, Order::Random].map(delivery));
    cases
}

pub fn all() -> Vec<Case> {
    let mut cases = offers();
    let payloads = originals(FOUR).map(|number| fragment_payload(number, 1_400));
    cases.push(case(
        "receive, a fragment of 1,400 bytes stored".into(),
        vec![],
        Work::Receive(payloads.collect()),
        is_stored,
    ));
    cases.push(case(
        "clock, nothing held".into(),
        vec![],
        Work::Clock,
        is_clock,
    ));
    cases.push(case(
        "account, nothing held".into(),
        vec![],
        Work::Account,
        is_account,
    ));
    for crowd in crowds() {
        cases.push(case_of(
            format!("account, {}", crowd.words()),
            crowd.plan,
            crowd.pieces().0,
            Work::Account,
            is_account,
        ));
    }
    for (client, clients) in [(0, 1), (0, CLIENT_LIMIT), (CLIENT_LIMIT - 1, CLIENT_LIMIT)] {
        cases.extend(among_others(client, clients));
    }
    cases
}

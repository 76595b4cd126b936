//! What is measured: the same work done by the library and the reference.

use crate::{sums, tables};
use reference as plain;
use std::cell::RefCell;
use std::hint::black_box;
use std::rc::Rc;
use wuraketozo::{Flow, Located, PacketOffset, Strictness};

/// One side of a case. `prepare` is not timed; `run` does `calls` calls.
pub trait Side {
    fn prepare(&mut self);
    fn run(&mut self);
}

/// Makes one side of a case.
pub type Make = Box<dyn Fn() -> Box<dyn Side>>;

/// A case: its name, the calls of one `run`, its sides, and whether they
/// answer alike. The table has a second reference, the good one.
pub struct Case {
    pub name: String,
    pub calls: usize,
    pub library: Make,
    pub reference: Make,
    pub good: Option<Make>,
    pub alike: Box<dyn Fn() -> bool>,
}

impl Case {
    /// The names of the sides, and how each is made.
    pub fn sides(&self) -> Vec<(&'static str, &Make)> {
        let mut sides = vec![("library", &self.library), ("reference", &self.reference)];
        sides.extend(self.good.iter().map(|make| ("good", make)));
        sides
    }
}

pub const FLOW: Flow = Flow {
    source: [192, 0, 2, 1],
    destination: [198, 51, 100, 7],
    source_port: 4_660,
    destination_port: 53,
};

pub const PLAIN_FLOW: plain::Flow = plain::Flow {
    source: FLOW.source,
    destination: FLOW.destination,
    source_port: FLOW.source_port,
    destination_port: FLOW.destination_port,
};

/// Bytes of no pattern.
pub fn bytes(count: usize) -> Vec<u8> {
    let mut state = 1u32;
    let mut next = || {
        state = state.wrapping_mul(1_664_525).wrapping_add(1_013_904_223);
        (state >> 24) as u8
    };
    (0..count).map(|_| next()).collect()
}

/// Calls on a buffer that both sides share, so that they meet the same
/// addresses. There is nothing to prepare.
struct Repeated<S, F> {
    times: usize,
    shared: Rc<RefCell<S>>,
    call: F,
}

impl<S, F: Fn(&mut S)> Side for Repeated<S, F> {
    fn prepare(&mut self) {}

    fn run(&mut self) {
        let shared = &mut *self.shared.borrow_mut();
        for _ in 0..self.times {
            (self.call)(shared);
        }
    }
}

/// A case of calls on `size` bytes in a shared buffer.
fn case<S: 'static>(
    name: String,
    size: usize,
    shared: S,
    library: impl Fn(&mut S) + Copy + 'static,
    reference: impl Fn(&mut S) + Copy + 'static,
    alike: impl Fn(&mut S) -> bool + 'static,
) -> Case {
    let times = (200_000 / (size + 100)).clamp(4, 1_000);
    let shared = Rc::new(RefCell::new(shared));
    let (left, right) = (shared.clone(), shared.clone());
    Case {
        name,
        calls: times,
        library: Box::new(move || {
            Box::new(Repeated {
                times,
                shared: left.clone(),
                call: library,
            })
        }),
        reference: Box::new(move || {
            Box::new(Repeated {
                times,
                shared: right.clone(),
                call: reference,
            })
        }),
        good: None,
        alike: Box::new(move || alike(&mut shared.borrow_mut())),
    }
}

/// A number with a comma before its last three digits.
fn shown(number: usize) -> String {
    match number / 1_000 {
        0 => number.to_string(),
        thousands => format!("{thousands},{:03}", number % 1_000),
    }
}

const RUNNING: u16 = 0x1234;

/// The sum of bytes that follow a running sum. At an odd start they lie one
/// byte further on, as an area does behind an odd L.
fn sum(size: usize, odd: bool) -> Case {
    let start = usize::from(odd);
    let parity = if odd { "odd" } else { "even" };
    case(
        format!("sum of {} bytes, {parity} start", shown(size)),
        size,
        bytes(start + size),
        move |all| {
            let sum = sums::sum(black_box(RUNNING), black_box(&all[start..]), odd);
            black_box(sum);
        },
        move |all| {
            let running = u64::from(black_box(RUNNING));
            let sum = plain::checksum::sum(running, black_box(&all[start..]), odd);
            black_box(sum);
        },
        move |all| {
            let sum = plain::checksum::sum(u64::from(RUNNING), &all[start..], odd);
            sums::sum(RUNNING, &all[start..], odd) == sum
        },
    )
}

fn crc32c(size: usize) -> Case {
    case(
        format!("CRC32c of {} bytes", shown(size)),
        size,
        bytes(size),
        |all| {
            black_box(sums::crc32c(black_box(all)));
        },
        |all| {
            black_box(plain::crc::crc32c(black_box(all)));
        },
        |all| sums::crc32c(all) == plain::crc::crc32c(all),
    )
}

/// REQ 300.
const REQ: [u8; 6] = [6, 6, 0, 0, 1, 44];

/// A payload and what the writer makes it of.
struct Payload {
    /// What it is, in words.
    words: String,
    user: Vec<u8>,
    list: Vec<u8>,
    fill: u8,
    bytes: Vec<u8>,
}

impl Payload {
    /// Of `size` bytes, the bytes that user data, list and its `wire` bytes
    /// leave being fill.
    fn new(words: String, size: usize, user: Vec<u8>, list: Vec<u8>, wire: usize) -> Payload {
        let pad = user.len() % 2;
        let fill = size - 8 - user.len() - pad - 2 - wire;
        let mut payload = Payload {
            words,
            user,
            list,
            fill: fill as u8,
            bytes: vec![0; size],
        };
        assert_eq!(payload.write_plain(), Ok(size));
        payload
    }

    /// With REQ 300, behind an APC if asked, and as much user data as leaves
    /// L of the asked parity: a fill of one byte makes up for the rest.
    fn short_list(size: usize, apc: bool, odd: bool) -> Payload {
        let (list, wire, with) = if apc {
            (vec![2, 2, 6, 0xAC, 2], 12, "with APC")
        } else {
            (vec![1, 6, 0xAC, 2], 6, "no APC")
        };
        let parity = if odd { "odd" } else { "even" };
        let room = size - 8 - usize::from(odd) - 2 - wire;
        let user = bytes(room - usize::from((room % 2 == 1) != odd));
        let words = format!("{} bytes, {with}, {parity} L", shown(size));
        Payload::new(words, size, user, list, wire)
    }

    /// 1,472 bytes with one byte of user data, so that L is odd, and one
    /// option of 1,460 bytes.
    fn long_option() -> Payload {
        let body = 1_456;
        let mut list = vec![1, 10, body as u8 & 0x7F | 0x80, (body >> 7) as u8];
        list.extend(bytes(body));
        let words = "1,472 bytes, one long option, odd L".into();
        Payload::new(words, 1_472, bytes(1), list, 4 + body)
    }

    /// With an even length of user data and this option list. The writer adds
    /// neither NOPs nor a long fill, so that the option checksum is set here.
    fn listed(words: &str, user: usize, options: &[u8]) -> Payload {
        let size = 8 + user + 2;
        let words = format!("{} bytes, {words}, even L", shown(size + options.len()));
        let mut payload = Payload::new(words, size, bytes(user), vec![0], 0);
        payload.bytes.extend(options);
        let area = &mut payload.bytes[8 + user..];
        area[..2].fill(0);
        let sum = plain::checksum::sent(plain::checksum::area_sum(area, false));
        area[..2].copy_from_slice(&sum.to_be_bytes());
        payload
    }

    /// 56 bytes of user data and nothing behind them, as most datagrams are.
    fn bare() -> Payload {
        let mut payload = Payload::listed("", 56, &[]);
        payload.bytes.truncate(64);
        payload.words = "64 bytes, no surplus area".into();
        payload
    }

    /// Eight bytes of user data and 32 times REQ 300, the most that a list has.
    fn full_list() -> Payload {
        Payload::listed("32 options", 8, &REQ.repeat(32))
    }

    /// Eight bytes of user data, REQ 300 and so much fill, EOL counted.
    fn filled(fill: usize) -> Payload {
        let words = format!("a fill of {}", shown(fill));
        Payload::listed(&words, 8, &[&REQ, &vec![0; fill][..]].concat())
    }

    /// 14 bytes of user data and so many NOPs.
    fn nops(count: usize) -> Payload {
        let words = format!("{} NOPs", shown(count));
        Payload::listed(&words, 14, &vec![1; count])
    }

    /// Eight bytes of user data, REQ 300 and so many NOPs behind it.
    fn nops_behind(count: usize) -> Payload {
        let words = format!("{} NOPs behind an option", shown(count));
        Payload::listed(&words, 8, &[&REQ, &vec![1; count][..]].concat())
    }

    /// Eight bytes of user data, seven NOPs, the most that strict reading takes
    /// in a row, and REQ 300.
    fn seven_nops() -> Payload {
        Payload::listed("7 NOPs and one option", 8, &[&[1; 7], &REQ[..]].concat())
    }

    fn write(&mut self) -> Result<usize, wuraketozo::Refusal> {
        let (user, list) = (black_box(&self.user), &self.list);
        wuraketozo::write(&FLOW, user, list, self.fill, &mut self.bytes)
    }

    fn write_plain(&mut self) -> Result<usize, u32> {
        plain::write(
            FLOW.source,
            FLOW.destination,
            FLOW.source_port,
            FLOW.destination_port,
            black_box(&self.user),
            &self.list,
            self.fill,
            &mut self.bytes,
        )
    }

    fn read(&self, strictness: Strictness) -> Result<wuraketozo::Reading, wuraketozo::Refusal> {
        let bytes = black_box(&self.bytes);
        wuraketozo::read(bytes, FLOW.source, FLOW.destination, strictness)
    }

    fn read_plain(&self, strictness: plain::Strictness) -> Result<plain::Reading, u32> {
        let bytes = black_box(&self.bytes);
        plain::read(bytes, FLOW.source, FLOW.destination, strictness)
    }

    /// What either reads plainly, of a payload that is not refused.
    fn plain_readings(&self) -> (wuraketozo::Reading, plain::Reading) {
        let (Ok(library), Ok(reference)) =
            (self.read(PLAIN.library), self.read_plain(PLAIN.reference))
        else {
            unreachable!("{} is read", self.words)
        };
        (library, reference)
    }

    /// Whether both come to this verdict, and read the same.
    fn read_alike(&self, setting: Setting, verdict: &str) -> bool {
        let (one, two) = (
            self.read(setting.library),
            self.read_plain(setting.reference),
        );
        let (Ok(one), Ok(two)) = (one, two) else {
            return false;
        };
        one.verdict.word() == verdict
            && two.verdict.word() == verdict
            && one.verdict.fault_at().map(|at| at.0) == two.verdict.fault_at().map(|at| at.0)
            && one.user == (two.user.from..two.user.to)
            && one.options == (two.options_from..two.options_to)
            && (one.count, one.fill) == (two.count, two.fill)
            && format!("{:?}", one.apc) == format!("{:?}", two.apc)
            && two.apc != plain::Apc::Wrong
    }

    /// Whether both write it, and write the same.
    fn write_alike(&mut self) -> bool {
        let size = self.bytes.len();
        self.bytes.fill(0xA5);
        let one = self.write();
        let left = self.bytes.clone();
        self.bytes.fill(0x5A);
        let two = self.write_plain();
        one == Ok(size) && two == Ok(size) && left == self.bytes
    }
}

/// The strictness of either side.
#[derive(Clone, Copy)]
pub struct Setting {
    pub library: Strictness,
    pub reference: plain::Strictness,
}

pub const PLAIN: Setting = Setting {
    library: Strictness::Plain,
    reference: plain::Strictness::Plain,
};

const STRICT: Setting = Setting {
    library: Strictness::Strict,
    reference: plain::Strictness::Strict,
};

/// A case of reading in this setting, which comes to this verdict.
fn reading(name: String, payload: Payload, setting: Setting, verdict: &'static str) -> Case {
    case(
        name,
        payload.bytes.len(),
        payload,
        move |payload| {
            let _ = black_box(payload.read(setting.library));
        },
        move |payload| {
            let _ = black_box(payload.read_plain(setting.reference));
        },
        move |payload| payload.read_alike(setting, verdict),
    )
}

fn read(payload: Payload) -> Case {
    reading(format!("read {}", payload.words), payload, PLAIN, "read")
}

fn read_strictly(payload: Payload, verdict: &'static str) -> Case {
    let name = format!("read {}, strict", payload.words);
    reading(name, payload, STRICT, verdict)
}

fn write(payload: Payload) -> Case {
    case(
        format!("write {}", payload.words),
        payload.bytes.len(),
        payload,
        |payload| {
            let _ = black_box(payload.write());
            black_box(&payload.bytes);
        },
        |payload| {
            let _ = black_box(payload.write_plain());
            black_box(&payload.bytes);
        },
        Payload::write_alike,
    )
}

/// A payload as either side read it, and the buffer that both list it into.
struct Listed {
    payload: Payload,
    library: wuraketozo::Reading,
    reference: plain::Reading,
    buffer: Vec<u8>,
}

impl Listed {
    fn list(&mut self) -> Result<wuraketozo::Listing, wuraketozo::Refusal> {
        let bytes = black_box(&self.payload.bytes);
        wuraketozo::list(bytes, &self.library, &mut self.buffer)
    }

    fn list_plain(&mut self) -> Result<plain::docket::Listing, u32> {
        let bytes = black_box(&self.payload.bytes);
        plain::docket::list_options(bytes, &self.reference, &mut self.buffer)
    }

    /// Whether both list it, and list the same.
    fn alike(&mut self) -> bool {
        self.buffer.fill(0xA5);
        let one = self.list();
        let left = self.buffer.clone();
        self.buffer.fill(0xA5);
        let (Ok(one), Ok(two)) = (one, self.list_plain()) else {
            return false;
        };
        (one.size, one.fill) == (two.length, two.fill) && left == self.buffer
    }
}

/// A case of listing what was read plainly.
fn list(payload: Payload) -> Case {
    let (library, reference) = payload.plain_readings();
    case(
        format!("list {}", payload.words),
        payload.bytes.len(),
        Listed {
            payload,
            library,
            reference,
            buffer: vec![0; 1_500],
        },
        |listed| {
            let _ = black_box(listed.list());
            black_box(&listed.buffer);
        },
        |listed| {
            let _ = black_box(listed.list_plain());
            black_box(&listed.buffer);
        },
        Listed::alike,
    )
}

/// A payload as either side read it, whose options are taken one by one.
struct Walked {
    payload: Payload,
    library: wuraketozo::Reading,
    reference: plain::Reading,
}

impl Walked {
    fn walk<'a>(&'a self, mut take: impl FnMut(Located<'a>)) {
        let bytes = black_box(&self.payload.bytes);
        for option in wuraketozo::walk(bytes, &self.library) {
            take(option);
        }
    }

    fn walk_plain<'a>(&'a self, mut take: impl FnMut(Located<'a>)) {
        let bytes = black_box(&self.payload.bytes);
        let read = self.reference.verdict == plain::Verdict::Read;
        let mut rest = plain::Range {
            from: self.reference.options_from,
            to: self.reference.options_to,
        };
        while let Some(found) = plain::next_option(bytes, read, rest) {
            rest.from = found.body.to;
            take(Located {
                kind: found.kind,
                offset: PacketOffset(found.offset.0),
                body: &bytes[found.body.from..found.body.to],
            });
        }
    }

    /// Whether both find so many options, and the same ones.
    fn alike(&self, count: usize) -> bool {
        let (mut one, mut two) = (Vec::new(), Vec::new());
        self.walk(|option| one.push(option));
        self.walk_plain(|option| two.push(option));
        one.len() == count && one == two
    }
}

/// A case of taking the options of what was read plainly one by one.
fn walk(payload: Payload, count: usize) -> Case {
    let (library, reference) = payload.plain_readings();
    case(
        format!("walk {}", payload.words),
        payload.bytes.len(),
        Walked {
            payload,
            library,
            reference,
        },
        |walked| {
            walked.walk(|option| {
                black_box(option);
            })
        },
        |walked| {
            walked.walk_plain(|option| {
                black_box(option);
            })
        },
        move |walked| walked.alike(count),
    )
}

fn listings() -> Vec<Case> {
    vec![
        list(Payload::short_list(64, false, false)),
        list(Payload::full_list()),
        list(Payload::long_option()),
        list(Payload::nops_behind(1_400)),
        list(Payload::nops(65_000)),
    ]
}

const SIZES: [usize; 3] = [64, 1_472, 65_515];
const FILLS: [usize; 2] = [1_400, 65_000];

fn payloads() -> Vec<Payload> {
    let mut payloads = Vec::new();
    for size in SIZES {
        for apc in [false, true] {
            for odd in [false, true] {
                payloads.push(Payload::short_list(size, apc, odd));
            }
        }
    }
    payloads.push(Payload::long_option());
    payloads
}

fn runs_of_nops() -> Vec<Case> {
    vec![
        read(Payload::seven_nops()),
        read_strictly(Payload::seven_nops(), "read"),
        read(Payload::nops(1_400)),
        read_strictly(Payload::nops(1_400), "padded"),
        read(Payload::nops_behind(1_400)),
        read(Payload::nops(65_000)),
    ]
}

pub fn all() -> Vec<Case> {
    let mut cases = Vec::new();
    for size in SIZES {
        for odd in [false, true] {
            cases.push(sum(size, odd));
        }
    }
    cases.extend(SIZES.map(crc32c));
    let bare = Payload::bare();
    cases.push(reading(format!("read {}", bare.words), bare, PLAIN, "none"));
    cases.extend(payloads().into_iter().map(read));
    cases.push(read(Payload::full_list()));
    cases.extend(FILLS.map(|fill| read(Payload::filled(fill))));
    cases.extend(runs_of_nops());
    cases.extend(listings());
    cases.push(walk(Payload::full_list(), 32));
    cases.extend(payloads().into_iter().map(write));
    cases.extend(tables::all());
    cases
}

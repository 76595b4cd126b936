//! The reference's values as the library's.

use reference as plain;
use reference::generate::Random;
use wuraketozo::{raw, Account, Flow, PacketOffset, Place};

/// How many bytes are shown.
const SHOWN: usize = 10_000;

/// Bytes in hex. Of long ones the front: the seed gives the rest.
pub fn hex(bytes: &[u8]) -> String {
    let shown = bytes.iter().take(SHOWN);
    let mut text: String = shown.map(|byte| format!("{byte:02x}")).collect();
    if bytes.len() > SHOWN {
        text += &format!(".. ({} bytes in all)", bytes.len());
    }
    text
}

/// The number of "read".
pub const READ: u32 = 9;

/// The number of "padded".
pub const PADDED: u32 = 12;

fn verdict_number(verdict: &plain::Verdict) -> u32 {
    match verdict {
        plain::Verdict::None => 0,
        plain::Verdict::Short => 1,
        plain::Verdict::Pad => 2,
        plain::Verdict::Unsummed => 3,
        plain::Verdict::BadSum => 4,
        plain::Verdict::Malformed(_) => 5,
        plain::Verdict::Unsafe(_) => 6,
        plain::Verdict::FragData(_) => 7,
        plain::Verdict::Crowded(_) => 8,
        plain::Verdict::Read => READ,
        plain::Verdict::Piece(_) => 10,
        plain::Verdict::Tail(_) => 11,
        plain::Verdict::Padded(_) => PADDED,
    }
}

fn offset(offset: plain::PacketOffset) -> PacketOffset {
    PacketOffset(offset.0)
}

/// Where the fault was met; 0 of a verdict that is none.
fn fault_at(verdict: &plain::Verdict) -> PacketOffset {
    verdict.fault_at().map(offset).unwrap_or_default()
}

/// The wrapper's word for a setting.
pub fn setting(strictness: plain::Strictness) -> wuraketozo::Strictness {
    match strictness {
        plain::Strictness::Plain => wuraketozo::Strictness::Plain,
        plain::Strictness::Strict => wuraketozo::Strictness::Strict,
    }
}

/// A number in C of a setting: any but 0 is strict.
pub fn setting_number(random: &mut Random, strictness: plain::Strictness) -> u32 {
    match strictness {
        plain::Strictness::Plain => 0,
        plain::Strictness::Strict => random.pick(&[1, 1, 2, 256, 65_536, u32::MAX]),
    }
}

fn apc_number(apc: plain::Apc) -> u32 {
    match apc {
        plain::Apc::None => 0,
        plain::Apc::Right => 1,
        plain::Apc::Wrong => 2,
    }
}

pub fn extent(range: plain::Range) -> raw::Extent {
    raw::Extent {
        from: range.from,
        to: range.to,
    }
}

pub fn original_extent(range: plain::Range) -> raw::OriginalExtent {
    raw::OriginalExtent {
        from: Place(range.from),
        to: Place(range.to),
    }
}

/// The C struct of an option of a payload; all 0 where there is none.
pub fn packet_option(found: &Option<plain::Standing>) -> raw::PacketOption {
    match found {
        None => raw::PacketOption::default(),
        Some(standing) => raw::PacketOption {
            found: 1,
            kind: u32::from(standing.kind),
            offset: offset(standing.offset),
            body: extent(standing.body),
        },
    }
}

/// And of an original.
pub fn original_option(found: &Option<plain::Standing>) -> raw::OriginalOption {
    match found {
        None => raw::OriginalOption::default(),
        Some(standing) => raw::OriginalOption {
            found: 1,
            kind: u32::from(standing.kind),
            offset: offset(standing.offset),
            body: original_extent(standing.body),
        },
    }
}

/// The wrapper's value of it.
pub fn located<'a>(bytes: &'a [u8], standing: &plain::Standing) -> wuraketozo::Located<'a> {
    wuraketozo::Located {
        kind: standing.kind,
        offset: offset(standing.offset),
        body: &bytes[standing.body.from..standing.body.to],
    }
}

/// The C struct of a reading; all 0 but the number where it is refused.
pub fn reading(result: &Result<plain::Reading, u32>) -> raw::Reading {
    let reading = match result {
        Ok(reading) => reading,
        Err(number) => {
            return raw::Reading {
                refusal: *number,
                ..raw::Reading::default()
            }
        }
    };
    let mut expected = raw::Reading {
        verdict: verdict_number(&reading.verdict),
        fault_at: fault_at(&reading.verdict),
        user: extent(reading.user),
        options: raw::Extent {
            from: reading.options_from,
            to: reading.options_to,
        },
        count: reading.count,
        fill: reading.fill,
        apc: apc_number(reading.apc),
        ..raw::Reading::default()
    };
    if let plain::Verdict::Piece(fragment) = reading.verdict {
        expected.identification = fragment.identification;
        expected.place = Place(fragment.place);
        expected.part = raw::Extent {
            from: fragment.from,
            to: fragment.to,
        };
        expected.option_start = Place(fragment.option_start);
        expected.last = u32::from(fragment.last);
    }
    expected
}

/// The C struct of a rereading.
pub fn rereading(result: &Result<plain::Rereading, u32>) -> raw::Rereading {
    match result {
        Err(number) => raw::Rereading {
            refusal: *number,
            ..raw::Rereading::default()
        },
        Ok(rereading) => raw::Rereading {
            refusal: 0,
            verdict: verdict_number(&rereading.verdict),
            fault_at: fault_at(&rereading.verdict),
            user: original_extent(rereading.user),
            options: raw::OriginalExtent {
                from: Place(rereading.options_from),
                to: Place(rereading.options_to),
            },
            count: rereading.count,
            fill: rereading.fill,
            apc: apc_number(rereading.apc),
        },
    }
}

/// What the wrapper makes of a reading that was not refused.
pub fn wrapped(reading: &plain::Reading) -> wuraketozo::Reading {
    wuraketozo::Reading {
        user: reading.user.from..reading.user.to,
        verdict: wrapped_verdict(reading.verdict),
        options: reading.options_from..reading.options_to,
        count: reading.count,
        fill: reading.fill,
        apc: wrapped_apc(reading.apc),
    }
}

/// And of a rereading.
pub fn rewrapped(rereading: &plain::Rereading) -> wuraketozo::Rereading {
    wuraketozo::Rereading {
        user: Place(rereading.user.from)..Place(rereading.user.to),
        verdict: wrapped_verdict(rereading.verdict),
        options: Place(rereading.options_from)..Place(rereading.options_to),
        count: rereading.count,
        fill: rereading.fill,
        apc: wrapped_apc(rereading.apc),
    }
}

fn wrapped_apc(apc: plain::Apc) -> wuraketozo::Apc {
    match apc {
        plain::Apc::None => wuraketozo::Apc::None,
        plain::Apc::Right => wuraketozo::Apc::Right,
        plain::Apc::Wrong => wuraketozo::Apc::Wrong,
    }
}

fn wrapped_verdict(verdict: plain::Verdict) -> wuraketozo::Verdict {
    match verdict {
        plain::Verdict::None => wuraketozo::Verdict::Bare,
        plain::Verdict::Short => wuraketozo::Verdict::Short,
        plain::Verdict::Pad => wuraketozo::Verdict::Pad,
        plain::Verdict::Unsummed => wuraketozo::Verdict::Unsummed,
        plain::Verdict::BadSum => wuraketozo::Verdict::BadSum,
        plain::Verdict::Malformed(at) => wuraketozo::Verdict::Malformed(offset(at)),
        plain::Verdict::Unsafe(at) => wuraketozo::Verdict::Unsafe(offset(at)),
        plain::Verdict::FragData(at) => wuraketozo::Verdict::FragData(offset(at)),
        plain::Verdict::Crowded(at) => wuraketozo::Verdict::Crowded(offset(at)),
        plain::Verdict::Read => wuraketozo::Verdict::Read,
        plain::Verdict::Piece(fragment) => wuraketozo::Verdict::Piece(wuraketozo::Fragment {
            identification: fragment.identification,
            place: Place(fragment.place),
            bytes: fragment.from..fragment.to,
            last: fragment.last,
            option_start: Place(fragment.option_start),
        }),
        plain::Verdict::Tail(at) => wuraketozo::Verdict::Tail(offset(at)),
        plain::Verdict::Padded(at) => wuraketozo::Verdict::Padded(offset(at)),
    }
}

/// An option as a list has it: APC without its field.
pub fn entry<'a>(option: &plain::ReadOption<'a>) -> wuraketozo::Entry<'a> {
    let value = match option.fields {
        _ if option.kind == 2 => wuraketozo::Value::None,
        plain::Fields::None => wuraketozo::Value::None,
        plain::Fields::One(a) => wuraketozo::Value::One(a),
        plain::Fields::Two(a, b) => wuraketozo::Value::Two(a, b),
        plain::Fields::Body(body) => wuraketozo::Value::Body(body),
    };
    wuraketozo::Entry {
        kind: option.kind,
        value,
    }
}

pub fn flow(flow: &plain::Flow) -> Flow {
    Flow {
        source: flow.source,
        destination: flow.destination,
        source_port: flow.source_port,
        destination_port: flow.destination_port,
    }
}

fn account(account: &plain::Account) -> Account {
    Account {
        offered: account.offered,
        held: account.held,
        delivered: account.delivered,
        expired: account.expired,
        conflicted: account.clashed,
        repeated: account.repeated,
        rejected: account.turned_away,
    }
}

/// The C struct of an answer.
pub fn answer(answer: &plain::Answer) -> raw::Answer {
    let mut expected = raw::Answer::default();
    match answer {
        plain::Answer::Refused(number) => expected.refusal = *number,
        plain::Answer::SetUp => expected.outcome = 1,
        plain::Answer::Stored => expected.outcome = 2,
        plain::Answer::Repeated => expected.outcome = 3,
        plain::Answer::Clash => expected.outcome = 4,
        plain::Answer::Delivered { t, r } => {
            expected.outcome = 5;
            expected.length = *t;
            expected.option_start = Place(*r);
        }
        plain::Answer::Clocked => expected.outcome = 6,
        plain::Answer::Billed(figures) => {
            expected.outcome = 7;
            expected.figures = account(figures);
        }
    }
    expected
}

/// The answer's word for the counts.
pub fn answer_word(answer: &plain::Answer) -> String {
    match answer {
        plain::Answer::Refused(number) => number.to_string(),
        plain::Answer::Stored => "stored".into(),
        plain::Answer::Repeated => "repeated".into(),
        plain::Answer::Clash => "conflict".into(),
        plain::Answer::Delivered { .. } => "delivered".into(),
        plain::Answer::SetUp | plain::Answer::Clocked | plain::Answer::Billed(_) => "taken".into(),
    }
}

/// What the wrapper answered, as a C struct: an answer of each of its calls.
pub trait Raw {
    fn raw(&self) -> raw::Answer;
}

fn refused(refusal: &wuraketozo::Refusal) -> raw::Answer {
    raw::Answer {
        refusal: refusal.number(),
        // A refusal that the wrapper does not know is a difference.
        outcome: if refusal.number() == 0 { 99 } else { 0 },
        ..raw::Answer::default()
    }
}

impl Raw for Result<wuraketozo::Answer, wuraketozo::Refusal> {
    fn raw(&self) -> raw::Answer {
        let mut expected = raw::Answer::default();
        match self {
            Err(refusal) => return refused(refusal),
            Ok(wuraketozo::Answer::Stored) => expected.outcome = 2,
            Ok(wuraketozo::Answer::Repeated) => expected.outcome = 3,
            Ok(wuraketozo::Answer::Conflict) => expected.outcome = 4,
            Ok(wuraketozo::Answer::Delivered {
                length,
                option_start,
            }) => {
                expected.outcome = 5;
                expected.length = *length;
                expected.option_start = *option_start;
            }
        }
        expected
    }
}

impl Raw for Result<Account, wuraketozo::Refusal> {
    fn raw(&self) -> raw::Answer {
        match self {
            Err(refusal) => refused(refusal),
            Ok(account) => raw::Answer {
                outcome: 7,
                figures: *account,
                ..raw::Answer::default()
            },
        }
    }
}

/// A call that answers nothing but that it was taken.
pub fn taken(result: Result<(), wuraketozo::Refusal>, outcome: u32) -> raw::Answer {
    match result {
        Err(refusal) => refused(&refusal),
        Ok(()) => raw::Answer {
            outcome,
            ..raw::Answer::default()
        },
    }
}

//! Lists of calls on a table. Lines: `table of plans PLAN PLAN .., store BYTES,
//! out BYTES` (what is lent from here on: a record for each plan, which gets
//! it), `set up`, `piece` or `last` CLIENT at TIME key FLOW/IDENTIFICATION
//! place PLACE length LENGTH r R other OTHER, `clock CLIENT at TIME`, `bill
//! CLIENT`, `forge CLIENT field FIELD place PLACE slot SLOT value VALUE`, and
//! `end`. Of a line its first letter and its numbers count; a number that is
//! not there is 0. Other lines are titles.
//!
//! Every line is printed with its answer, and at the end of a list the CRC32c
//! of the whole store. A list starts with a store of 5a, and finds the records
//! as the one before left them, but for the plans that its table has.

use crate::crc::crc32c;
use crate::forge::forge;
use wuraketozo::{
    Account, Answer, Arrival, Client, Flow, Place, Plan, Refusal, Table, CLIENT_LIMIT,
};

/// One record more than a table may have, and one byte more than their store
/// if all have the largest plan.
const RECORDS: usize = CLIENT_LIMIT + 1;
const STORE: usize = RECORDS * Plan::LARGEST.share() + 1;

/// What the store holds before a list, and an out buffer before a call.
const UNUSED: u8 = 0x5A;
const BLANK: u8 = 0xA5;

pub fn run(script: &str) -> Result<String, String> {
    let mut lists = Lists {
        records: [Client::new(Plan::SMALLEST); RECORDS],
        store: vec![UNUSED; STORE],
        lent: (0, 0),
        room: 0,
    };
    let mut said = String::new();
    for line in script.lines() {
        said += &lists.line(line)?;
        said.push('\n');
    }
    Ok(said)
}

struct Lists {
    records: [Client; RECORDS],
    store: Vec<u8>,
    /// How many records, and how many bytes of store, the next calls get.
    lent: (usize, usize),
    /// The size of the out buffer.
    room: usize,
}

impl Lists {
    fn line(&mut self, line: &str) -> Result<String, String> {
        let numbers = Numbers::of(line);
        let answer = match line.chars().next() {
            Some('t') => {
                self.lend(&numbers, line)?;
                String::new()
            }
            Some('f') => {
                self.forge(&numbers);
                String::new()
            }
            Some('e') => {
                let crc = crc32c(&self.store);
                self.store.fill(UNUSED);
                return Ok(format!("store {crc:08x}"));
            }
            Some(letter) => self.call(letter, &numbers, line)?,
            None => String::new(),
        };
        Ok(format!("{line}{answer}"))
    }

    /// The plans, the bytes of store, and those of the out buffer.
    fn lend(&mut self, numbers: &Numbers, line: &str) -> Result<(), String> {
        let Some(count) = numbers.0.len().checked_sub(2) else {
            return Err(format!("store and out are missing: {line}"));
        };
        let plans = &numbers.0[..count];
        for (record, plan) in self.records.iter_mut().zip(plans) {
            record.plan = *plan;
        }
        self.lent = (count, numbers.size(count));
        self.room = numbers.size(count + 1);
        Ok(())
    }

    /// Only a record that is lent can be forged.
    fn forge(&mut self, numbers: &Numbers) {
        let mut lent = self.records.iter_mut().take(self.lent.0);
        if let Some(record) = lent.nth(numbers.size(0)) {
            let (place, slot) = (numbers.size(2), numbers.size(3));
            forge(record, numbers.get(1), place, slot, numbers.get(4));
        }
    }

    /// The answer of the call that a line asks for; a title asks for none.
    fn call(&mut self, letter: char, numbers: &Numbers, line: &str) -> Result<String, String> {
        let (records, store) = (
            self.records.get_mut(..self.lent.0),
            self.store.get_mut(..self.lent.1),
        );
        let (Some(records), Some(store)) = (records, store) else {
            return Err(format!("more is lent than there is: {line}"));
        };
        let mut table = Table::new(records, store);
        let client = numbers.size(0);
        Ok(match letter {
            's' => told(table.reset(), |()| "taken".into()),
            'c' => told(table.advance(client, numbers.get(1)), |()| "taken".into()),
            'b' => told(table.account(client), figures),
            'p' | 'l' => offered(&mut table, letter == 'l', numbers, self.room),
            _ => String::new(),
        })
    }
}

/// A fragment: the answer, and the CRC32c of the out buffer if an original was
/// handed out; any other answer leaves it alone.
fn offered(table: &mut Table, last: bool, numbers: &Numbers, room: usize) -> String {
    let arrival = Arrival {
        time: numbers.get(1),
        flow: flow(numbers.get(2)),
        identification: numbers.get(3) as u32,
        place: Place(numbers.size(4)),
        last,
        option_start: Place(numbers.size(6)),
    };
    let mut out = vec![BLANK; room];
    let answer = table.offer(numbers.size(0), &arrival, &bytes(numbers), &mut out);
    let text = told(answer, |answer| match answer {
        Answer::Stored => "stored".into(),
        Answer::Repeated => "repeated".into(),
        Answer::Conflict => "clash".into(),
        Answer::Delivered {
            length,
            option_start,
        } => format!("delivered {length} {}", option_start.0),
    });
    if matches!(answer, Ok(Answer::Delivered { .. })) {
        format!("{text} out {:08x}", crc32c(&out))
    } else if out.iter().any(|byte| *byte != BLANK) {
        text + " out touched"
    } else {
        text
    }
}

fn told<T>(answer: Result<T, Refusal>, word: impl Fn(T) -> String) -> String {
    match answer {
        Ok(taken) => format!(": {}", word(taken)),
        Err(refusal) => format!(": refused {}", refusal.number()),
    }
}

fn figures(a: Account) -> String {
    format!(
        "{} {} {} {} {} {} {}",
        a.offered, a.held, a.delivered, a.expired, a.conflicted, a.repeated, a.rejected
    )
}

/// Flows 1, 256, 65,536 and 4,294,967,296 differ from flow 0 in one part each.
fn flow(n: u64) -> Flow {
    Flow {
        source: [192, 0, 2, n as u8],
        destination: [198, 51, 100, (n >> 8) as u8],
        source_port: (n >> 16) as u16,
        destination_port: (n >> 32) as u16,
    }
}

/// A fragment's bytes: each goes by its place in the original, the
/// identification and the line's last number.
fn bytes(numbers: &Numbers) -> Vec<u8> {
    let (place, length) = (numbers.get(4), numbers.get(5));
    let seed = numbers.get(3) % 65536 * 31 + numbers.get(7) % 65536 * 101;
    (0..length)
        .map(|i| place.wrapping_add(i) % 65536)
        .map(|at| (at * 7 + at / 256 * 13 + seed) as u8)
        .collect()
}

/// The numbers of a line, in order, whatever stands between them.
struct Numbers(Vec<u64>);

impl Numbers {
    fn of(line: &str) -> Numbers {
        let digits = line
            .split(|c: char| !c.is_ascii_digit())
            .filter(|d| !d.is_empty());
        // What is too large for 64 bits is the largest.
        Numbers(digits.map(|d| d.parse().unwrap_or(u64::MAX)).collect())
    }

    fn get(&self, k: usize) -> u64 {
        self.0.get(k).copied().unwrap_or(0)
    }

    fn size(&self, k: usize) -> usize {
        usize::try_from(self.get(k)).unwrap_or(usize::MAX)
    }
}

//! The options of a list one by one: the library's step against the reference's,
//! over readings and over what no reader gave.

use crate::convert::{extent, hex, located, original_extent, original_option, packet_option, READ};
use crate::counts::Counts;
use crate::payloads::{said, same, Check};
use reference as plain;
use reference::generate::Random;
use wuraketozo::{raw, Located};

/// What the bytes are: it decides the call.
#[derive(Clone, Copy, PartialEq, Eq)]
pub enum Sort {
    Packet,
    Original,
}

/// One step of both, every field compared.
fn step(
    sort: Sort,
    bytes: &[u8],
    verdict: u32,
    rest: plain::Range,
    shown: &dyn Fn() -> String,
) -> Result<Option<plain::Standing>, String> {
    let plain::Range { from, to } = rest;
    let shown = || {
        format!(
            "{}\n  next, verdict {verdict}, rest {from} to {to}",
            shown()
        )
    };
    let read = verdict == READ;
    let found = match sort {
        Sort::Packet => {
            let found = plain::next_option(bytes, read, rest);
            let answer = raw::next(bytes, verdict, extent(rest));
            same(&packet_option(&found), &answer, &shown)?;
            found
        }
        Sort::Original => {
            let found = plain::next_reread_option(bytes, read, rest);
            let answer = raw::renext(bytes, verdict, original_extent(rest));
            same(&original_option(&found), &answer, &shown)?;
            found
        }
    };
    Ok(found)
}

/// The options of a reading as the wrapper should give them, each step of both
/// compared, the one that finds none too; and steps from the middle of one.
pub fn walk<'a>(
    random: &mut Random,
    counts: &mut Counts,
    sort: Sort,
    bytes: &'a [u8],
    verdict: u32,
    mut rest: plain::Range,
    shown: &dyn Fn() -> String,
) -> Result<Vec<Located<'a>>, String> {
    let call = match sort {
        Sort::Packet => "walk",
        Sort::Original => "rewalk",
    };
    let mut options = Vec::new();
    let mut behind_extended = false;
    while let Some(found) = step(sort, bytes, verdict, rest, shown)? {
        let at = index(sort, &found);
        if at > rest.from {
            counts.add(call, "an option behind NOPs");
        }
        if behind_extended {
            counts.add(call, "an option behind an extended one");
        }
        if found.body.from == found.body.to {
            counts.add(call, "an empty body");
        }
        behind_extended = found.body.from - at == 4;
        rest.from = found.body.to;
        options.push(found);
    }
    let word = match options.len() {
        0 => "no option",
        32 => "32 options",
        _ => "options",
    };
    counts.add(call, word);
    if !options.is_empty() {
        let found = random.pick(&options);
        let at = index(sort, &found);
        rest.from = at + 1 + random.below(found.body.to - at - 1);
        counts.add(call, "from the middle of an option");
        by_both(counts, bytes, verdict, rest, shown)?;
    }
    Ok(options.iter().map(|found| located(bytes, found)).collect())
}

/// The index of an option's kind byte.
fn index(sort: Sort, found: &plain::Standing) -> usize {
    match sort {
        Sort::Packet => found.offset.0,
        Sort::Original => found.offset.0 - 8,
    }
}

/// The list of any payload or original whose user data ends at `user_end`, as if
/// the verdict were "read": up to its end, EOL or fault.
pub fn forged_read(
    counts: &mut Counts,
    bytes: &[u8],
    user_end: usize,
    shown: &dyn Fn() -> String,
) -> Check {
    let rest = plain::Range {
        from: user_end + user_end % 2 + 2,
        to: bytes.len(),
    };
    by_both(counts, bytes, READ, rest, shown)
}

/// Steps from a range that no reader gave, under any verdict.
pub fn made_up(random: &mut Random, counts: &mut Counts, bytes: &[u8]) -> Check {
    let (verdict, mut rest) = said(random, bytes.len());
    if random.one_in(2) {
        // In the middle of an option, mostly.
        rest.from = random.below(bytes.len().min(60) + 1);
    }
    let shown = || format!("bytes {}", hex(bytes));
    by_both(counts, bytes, verdict, rest, &shown)
}

/// By either call: neither knows what the bytes are.
fn by_both(
    counts: &mut Counts,
    bytes: &[u8],
    verdict: u32,
    rest: plain::Range,
    shown: &dyn Fn() -> String,
) -> Check {
    counted(counts, Sort::Packet, bytes, verdict, rest, shown)?;
    counted(counts, Sort::Original, bytes, verdict, rest, shown)
}

/// Steps until there is no option, each counted by what stands there.
fn counted(
    counts: &mut Counts,
    sort: Sort,
    bytes: &[u8],
    verdict: u32,
    mut rest: plain::Range,
    shown: &dyn Fn() -> String,
) -> Check {
    let call = match sort {
        Sort::Packet => "step",
        Sort::Original => "step in an original",
    };
    while let Some(found) = step(sort, bytes, verdict, rest, shown)? {
        let at = index(sort, &found);
        if at > rest.from {
            counts.add(call, "behind NOPs");
        }
        let word = match found.kind {
            3 => "FRAG",
            _ if found.body.from - at == 4 => "extended option",
            _ => "option",
        };
        counts.add(call, word);
        rest.from = found.body.to;
    }
    counts.add(call, why_none(bytes, verdict, rest));
    Ok(())
}

/// Why there is no option.
fn why_none(bytes: &[u8], verdict: u32, rest: plain::Range) -> &'static str {
    if verdict != READ {
        return "another verdict";
    }
    if rest.from > rest.to {
        return "turned round";
    }
    let Some(list) = bytes.get(rest.from..rest.to) else {
        return "past the end";
    };
    match list.iter().find(|byte| **byte != 1) {
        None => "end",
        Some(0) => "EOL",
        Some(192..) => "unsafe",
        Some(_) => "malformed",
    }
}

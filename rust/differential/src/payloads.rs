//! Reading, rereading, listing and writing: the library against the
//! reference, every field and every byte lent.

use crate::convert::{
    entry, hex, reading, rereading, rewrapped, setting, setting_number, wrapped, PADDED,
};
use crate::counts::Counts;
use crate::steps::{self, Sort};
use reference as plain;
use reference::generate::{self, Datagram, Random};
use reference::Strictness;
use wuraketozo::{raw, Place};

/// A difference, told in words.
pub type Check = Result<(), String>;

/// One round: a payload, an original and a writing.
pub fn round(random: &mut Random, counts: &mut Counts) -> Check {
    let datagram = payload(random);
    read(random, counts, &datagram)?;
    let (original, option_start) = generate::original(random);
    reread(random, counts, &original, option_start)?;
    made_up(random, counts, &datagram.payload)?;
    steps::made_up(random, counts, &datagram.payload)?;
    steps::made_up(random, counts, &original)?;
    write(random, counts)
}

/// A payload of any sort: mostly the reference's, some long, some written
/// and then damaged.
fn payload(random: &mut Random) -> Datagram {
    match random.below(40) {
        0 => long(random),
        1..=4 => {
            let mut datagram = written(random);
            damage(random, &mut datagram.payload);
            datagram
        }
        5 => written(random),
        _ => generate::datagram(random),
    }
}

/// A payload that the reference's writer takes.
fn written(random: &mut Random) -> Datagram {
    let user_length = random.below(300);
    let user = random.bytes(user_length);
    let list = generate::docket(random);
    let fill = random.pick(&[0, 0, 1, 255]);
    compose(random, &user, &list, fill)
}

/// Writes with the reference; an empty payload where it refuses.
fn compose(random: &mut Random, user: &[u8], list: &[u8], fill: u8) -> Datagram {
    let (source, destination) = (random.four(), random.four());
    let mut payload = vec![0; 70_000];
    let result = plain::write(
        source,
        destination,
        random.draw() as u16,
        random.draw() as u16,
        user,
        list,
        fill,
        &mut payload,
    );
    payload.truncate(result.unwrap_or(0));
    Datagram {
        source,
        destination,
        payload,
    }
}

/// A long payload: much user data, or bodies of any length up to the limit.
fn long(random: &mut Random) -> Datagram {
    let user_length = random.pick(&[0, 1, 1_400, 1_472, 4_096, 9_000, 30_000, 64_000]);
    let user = random.bytes(user_length);
    let mut room = 65_515 - 8 - user_length - user_length % 2 - 2;
    let mut bodies = Vec::new();
    for _ in 0..random.below(4) {
        let length = match random.below(4) {
            0 => room.saturating_sub(4),
            1 => random.pick(&[251, 252, 253, 254, 255]),
            _ => random.below(20_000),
        };
        if length + 4 > room {
            break;
        }
        room -= length + 4;
        bodies.push(random.bytes(length));
    }
    let mut options: Vec<plain::ReadOption> = bodies
        .iter()
        .map(|body| plain::ReadOption {
            kind: random.pick(&[9, 100, 127, 191]),
            fields: plain::Fields::Body(body),
        })
        .collect();
    if room >= 6 && random.one_in(2) {
        options.push(plain::ReadOption {
            kind: 2,
            fields: plain::Fields::None,
        });
    }
    let list = plain::encode(&options);
    let mut datagram = compose(random, &user, &list, 0);
    if random.one_in(3) {
        damage(random, &mut datagram.payload);
    }
    datagram
}

/// Changes a payload in one place. With both checksums 0 nothing is summed,
/// so that the change is looked at.
fn damage(random: &mut Random, payload: &mut Vec<u8>) {
    let length = payload.len();
    if length < 10 {
        return;
    }
    let user_end = usize::from(u16::from_be_bytes([payload[4], payload[5]]));
    let sum_at = user_end + user_end % 2;
    if random.one_in(2) && sum_at + 2 <= length {
        payload[6..8].fill(0);
        payload[sum_at..sum_at + 2].fill(0);
    }
    // Mostly in the options, which are few bytes of many.
    let at = if random.one_in(3) || sum_at + 2 >= length {
        random.below(length)
    } else {
        sum_at + random.below((length - sum_at).min(60))
    };
    match random.below(5) {
        0 => payload[at] ^= 1 << random.below(8),
        1 => payload[at] = random.byte(),
        2 => payload.truncate(at),
        3 => payload.insert(at, 1),
        _ => {
            payload.remove(at);
        }
    }
}

/// Both settings.
const SETTINGS: [Strictness; 2] = [Strictness::Plain, Strictness::Strict];

/// Plain reading never says "padded", and any other strict answer is the plain
/// one: of the library's own answers, with their verdicts.
fn settings_agree<T: PartialEq + std::fmt::Debug>(
    [(plain, plain_verdict), (strict, strict_verdict)]: [(T, u32); 2],
    shown: &dyn Fn() -> String,
) -> Check {
    if plain_verdict != PADDED && (strict == plain || strict_verdict == PADDED) {
        return Ok(());
    }
    Err(format!(
        "{}\n  plain:  {plain:?}\n  strict: {strict:?}",
        shown()
    ))
}

/// What the reader, the listing and the options say of a payload, in each
/// setting.
fn read(random: &mut Random, counts: &mut Counts, datagram: &Datagram) -> Check {
    let mut answers = [raw::Reading::default(); 2];
    for (answer, strictness) in answers.iter_mut().zip(SETTINGS) {
        *answer = read_as(random, counts, datagram, strictness)?;
    }
    settings_agree(answers.map(|answer| (answer, answer.verdict)), &|| {
        shown_payload(datagram)
    })
}

fn shown_payload(datagram: &Datagram) -> String {
    format!(
        "source {}, destination {}, payload {}",
        hex(&datagram.source),
        hex(&datagram.destination),
        hex(&datagram.payload)
    )
}

/// The library's answer, after it was compared with the reference's.
fn read_as(
    random: &mut Random,
    counts: &mut Counts,
    datagram: &Datagram,
    strictness: Strictness,
) -> Result<raw::Reading, String> {
    let Datagram {
        source,
        destination,
        payload,
    } = datagram;
    let expected = plain::read(payload, *source, *destination, strictness);
    match &expected {
        Err(number) => counts.add("read", &number.to_string()),
        Ok(found) => {
            count_said(counts, "read", &found.verdict, found.fill, found.apc);
            for name in generate::fault_sorts(payload, found.user.to, 0, &found.verdict) {
                counts.add("read", &name);
            }
            if let Some(word) = generate::fault_led_by_frag(payload, found) {
                counts.add("read", word);
            }
        }
    }
    let number = setting_number(random, strictness);
    let shown = || format!("read, strictness {number}, {}", shown_payload(datagram));
    let answer = raw::read(payload, *source, *destination, number);
    same(&reading(&expected), &answer, &shown)?;
    same(
        &expected.map(|reading| wrapped(&reading)),
        &wuraketozo::read(payload, *source, *destination, setting(strictness))
            .map_err(|refusal| refusal.number()),
        &shown,
    )?;
    let Ok(found) = expected else {
        return Ok(answer);
    };
    if strictness == Strictness::Strict && answer.verdict != PADDED {
        // Listed and walked in plain reading.
        return Ok(answer);
    }
    let options = raw::Extent {
        from: found.options_from,
        to: found.options_to,
    };
    let number = reading(&Ok(found)).verdict;
    let ways = Ways {
        plain: &|buffer| plain::list_options(payload, &found, buffer),
        c: &|buffer| raw::list(payload, number, options, buffer),
        wrapper: &|buffer| wuraketozo::list(payload, &wrapped(&found), buffer),
        options: found
            .options(payload)
            .map(|located| entry(&located.option))
            .collect(),
        most: payload.len() + 200,
    };
    listed(random, counts, &ways, &shown)?;
    let rest = plain::Range {
        from: found.options_from,
        to: found.options_to,
    };
    let walk = steps::walk(random, counts, Sort::Packet, payload, number, rest, &shown)?;
    same(&found.count, &walk.len(), &shown)?;
    same(
        &walk,
        &wuraketozo::walk(payload, &wrapped(&found)).collect(),
        &shown,
    )?;
    steps::forged_read(counts, payload, found.user.to, &shown)?;
    Ok(answer)
}

/// The same for an original.
fn reread(random: &mut Random, counts: &mut Counts, original: &[u8], option_start: usize) -> Check {
    let mut answers = [raw::Rereading::default(); 2];
    for (answer, strictness) in answers.iter_mut().zip(SETTINGS) {
        *answer = reread_as(random, counts, original, option_start, strictness)?;
    }
    settings_agree(answers.map(|answer| (answer, answer.verdict)), &|| {
        shown_original(original, option_start)
    })
}

fn shown_original(original: &[u8], option_start: usize) -> String {
    format!("option start {option_start}, original {}", hex(original))
}

fn reread_as(
    random: &mut Random,
    counts: &mut Counts,
    original: &[u8],
    option_start: usize,
    strictness: Strictness,
) -> Result<raw::Rereading, String> {
    let expected = plain::reread(original, option_start, strictness);
    match &expected {
        Err(number) => counts.add("reread", &number.to_string()),
        Ok(found) => {
            count_said(counts, "reread", &found.verdict, found.fill, found.apc);
            for name in generate::fault_sorts(original, found.user.to, 8, &found.verdict) {
                counts.add("reread", &name);
            }
        }
    }
    let number = setting_number(random, strictness);
    let shown = || {
        let shown = shown_original(original, option_start);
        format!("reread, strictness {number}, {shown}")
    };
    let answer = raw::reread(original, Place(option_start), number);
    same(&rereading(&expected), &answer, &shown)?;
    same(
        &expected.map(|found| rewrapped(&found)),
        &wuraketozo::reread(original, Place(option_start), setting(strictness))
            .map_err(|refusal| refusal.number()),
        &shown,
    )?;
    let Ok(found) = expected else {
        return Ok(answer);
    };
    if strictness == Strictness::Strict && answer.verdict != PADDED {
        // Listed and walked in plain reading.
        return Ok(answer);
    }
    let options = raw::OriginalExtent {
        from: Place(found.options_from),
        to: Place(found.options_to),
    };
    let number = rereading(&Ok(found)).verdict;
    let ways = Ways {
        plain: &|buffer| plain::list_reread(original, &found, buffer),
        c: &|buffer| raw::relist(original, number, options, buffer),
        wrapper: &|buffer| wuraketozo::relist(original, &rewrapped(&found), buffer),
        options: found
            .options(original)
            .map(|located| entry(&located.option))
            .collect(),
        most: original.len() + 200,
    };
    listed(random, counts, &ways, &shown)?;
    let rest = plain::Range {
        from: found.options_from,
        to: found.options_to,
    };
    let walk = steps::walk(
        random,
        counts,
        Sort::Original,
        original,
        number,
        rest,
        &shown,
    )?;
    same(&found.count, &walk.len(), &shown)?;
    same(
        &walk,
        &wuraketozo::rewalk(original, &rewrapped(&found)).collect(),
        &shown,
    )?;
    steps::forged_read(counts, original, found.user.to, &shown)?;
    Ok(answer)
}

fn count_said(
    counts: &mut Counts,
    call: &str,
    verdict: &plain::Verdict,
    fill: usize,
    apc: plain::Apc,
) {
    counts.add(call, verdict.word());
    if fill != 0 {
        counts.add(call, "read with fill");
    }
    counts.add(
        call,
        match apc {
            plain::Apc::None => "APC none",
            plain::Apc::Right => "APC right",
            plain::Apc::Wrong => "APC wrong",
        },
    );
}

/// How a reading or a rereading is listed: by the reference, by the C call
/// and by the wrapper; the options in it, and a buffer's size that is enough.
struct Ways<'a> {
    plain: &'a dyn Fn(&mut [u8]) -> Result<plain::Listing, u32>,
    c: &'a dyn Fn(&mut [u8]) -> raw::Listing,
    wrapper: &'a dyn Fn(&mut [u8]) -> Result<wuraketozo::Listing, wuraketozo::Refusal>,
    options: Vec<wuraketozo::Entry<'a>>,
    most: usize,
}

/// The list of what was read, in a buffer that is too small, just right, or
/// larger, and each option in it.
fn listed(
    random: &mut Random,
    counts: &mut Counts,
    ways: &Ways,
    shown: &dyn Fn() -> String,
) -> Check {
    let mut whole = vec![0; ways.most];
    let size = (ways.plain)(&mut whole)
        .map(|listing| listing.length)
        .map_err(|number| format!("{}: the reference lists {number}", shown()))?;
    let room = match random.below(5) {
        0 => size - 1,
        1 => random.below(size + 2),
        2 => size + 1 + random.below(40),
        _ => size,
    };
    let before = random.byte();
    let mut left = vec![before; room];
    let mut right = left.clone();
    let expected = (ways.plain)(&mut left);
    let shown = || format!("{}, listed into {room} bytes of {before:02x}", shown());
    match expected {
        Ok(_) => counts.add("list", "taken"),
        Err(number) => counts.add("list", &number.to_string()),
    }
    // By the C struct or by the wrapper.
    let answer = if random.one_in(2) {
        (ways.c)(&mut right)
    } else {
        as_raw((ways.wrapper)(&mut right))
    };
    same(&listing(&expected), &answer, &shown)?;
    same_bytes(&left, &right, &shown)?;
    if expected.is_ok() {
        let entries: Vec<wuraketozo::Entry> = wuraketozo::entries(&right).collect();
        same(&ways.options, &entries, &shown)?;
    }
    Ok(())
}

fn listing(result: &Result<plain::Listing, u32>) -> raw::Listing {
    match result {
        Ok(listing) => raw::Listing {
            refusal: 0,
            size: listing.length,
            fill: listing.fill,
        },
        Err(number) => raw::Listing {
            refusal: *number,
            ..raw::Listing::default()
        },
    }
}

fn as_raw(result: Result<wuraketozo::Listing, wuraketozo::Refusal>) -> raw::Listing {
    match result {
        Ok(listing) => raw::Listing {
            refusal: 0,
            size: listing.size,
            fill: listing.fill,
        },
        Err(refusal) => raw::Listing {
            refusal: refusal.number(),
            ..raw::Listing::default()
        },
    }
}

/// What a host may say of a list that no reader gave: a verdict's number, mostly
/// that of "read", and a range, which may start in an option's middle, be turned
/// round or go past the end.
pub fn said(random: &mut Random, length: usize) -> (u32, plain::Range) {
    let verdict = random.pick(&[9, 9, 9, 9, 0, 5, 8, 10, 11, 12, 13, u32::MAX]);
    let mut ends = [random.below(length + 1), random.below(length + 1)];
    ends.sort_unstable();
    let [mut from, mut to] = ends;
    match random.below(12) {
        0 => (from, to) = (to, from),
        1 => to = length + 1,
        2 => to = usize::MAX,
        3 => (from, to) = (usize::MAX, usize::MAX),
        4 => (from, to) = (usize::MAX, 0),
        5..=8 => (from, to) = (length.min(10), length),
        _ => {}
    }
    (verdict, plain::Range { from, to })
}

/// The list of a reading that no reader gave: the options of the range if
/// the verdict is "read" and the range lies in the bytes and holds a sound
/// list; else none. A sound list is what an original may have in plain reading,
/// so the reference reads the range as one behind an option checksum of 0.
fn made_up(random: &mut Random, counts: &mut Counts, bytes: &[u8]) -> Check {
    // Longer ones would be too long for an original.
    let bytes = bytes.get(..65_505).unwrap_or(bytes);
    let length = bytes.len();
    let (verdict, plain::Range { from, to }) = said(random, length);
    let mut original = vec![0, 0];
    if verdict == 9 && from <= to {
        original.extend(bytes.get(from..to).unwrap_or(&[]));
    }
    let none = plain::Rereading {
        user: plain::Range { from: 0, to: 0 },
        verdict: plain::Verdict::None,
        options_from: 0,
        options_to: 0,
        count: 0,
        fill: 0,
        apc: plain::Apc::None,
    };
    let call = "list of a made-up reading";
    let found = match plain::reread(&original, 0, Strictness::Plain) {
        Ok(found) if found.verdict == plain::Verdict::Read => found,
        other => {
            if other.is_ok_and(|found| matches!(found.verdict, plain::Verdict::Tail(_))) {
                counts.add(call, "tail");
            }
            none
        }
    };
    let strict = plain::reread(&original, 0, Strictness::Strict);
    let room = random.pick(&[0, 1, 2, 8, 200, length + 8, length + 8, length + 8]);
    let mut left = vec![0x77; room];
    let mut right = left.clone();
    let expected = plain::list_reread(&original, &found, &mut left);
    match expected {
        Ok(_) if found.count == 0 => counts.add(call, "no option"),
        Ok(_) if strict != Ok(found) => counts.add(call, "options beside padding"),
        Ok(_) => counts.add(call, "options"),
        Err(number) => counts.add(call, &number.to_string()),
    }
    // As a reading, or as a rereading.
    let answer = if random.one_in(2) {
        raw::list(bytes, verdict, raw::Extent { from, to }, &mut right)
    } else {
        let (from, to) = (Place(from), Place(to));
        raw::relist(bytes, verdict, raw::OriginalExtent { from, to }, &mut right)
    };
    let shown = || {
        format!(
            "list, verdict {verdict}, options {from} to {to}, {room} bytes of 77, of {}",
            hex(bytes)
        )
    };
    same(&listing(&expected), &answer, &shown)?;
    same_bytes(&left, &right, &shown)
}

/// The writer, on the whole buffer lent, and what was written read again.
fn write(random: &mut Random, counts: &mut Counts) -> Check {
    let writing = generate::writing(random);
    let before = random.byte();
    let mut left = vec![before; writing.buffer];
    let mut right = left.clone();
    let expected = writing.run(&mut left);
    match expected {
        Ok(_) => counts.add("write", "taken"),
        Err(number) => counts.add("write", &number.to_string()),
    }
    let answer = if random.one_in(2) {
        raw::write(
            writing.source,
            writing.destination,
            writing.source_port,
            writing.destination_port,
            &writing.user,
            &writing.docket,
            writing.fill,
            &mut right,
        )
    } else {
        let flow = wuraketozo::Flow {
            source: writing.source,
            destination: writing.destination,
            source_port: writing.source_port,
            destination_port: writing.destination_port,
        };
        let result = wuraketozo::write(
            &flow,
            &writing.user,
            &writing.docket,
            writing.fill,
            &mut right,
        );
        written_raw(result.map_err(|refusal| refusal.number()))
    };
    let shown = || {
        format!(
            "write, source {}, destination {}, ports {} and {}, list {}, fill {}, {} bytes of {before:02x}, user {}",
            hex(&writing.source),
            hex(&writing.destination),
            writing.source_port,
            writing.destination_port,
            hex(&writing.docket),
            writing.fill,
            writing.buffer,
            hex(&writing.user)
        )
    };
    same(&written_raw(expected), &answer, &shown)?;
    same_bytes(&left, &right, &shown)?;
    if let Ok(length) = expected {
        let datagram = Datagram {
            source: writing.source,
            destination: writing.destination,
            payload: right[..length].to_vec(),
        };
        read(random, counts, &datagram)?;
    }
    Ok(())
}

fn written_raw(result: Result<usize, u32>) -> raw::Written {
    match result {
        Ok(size) => raw::Written { refusal: 0, size },
        Err(number) => raw::Written {
            refusal: number,
            size: 0,
        },
    }
}

/// A payload without checksums and user data.
const HEAD: [u8; 10] = [1, 2, 3, 4, 0, 8, 0, 0, 0, 0];

/// The UDP header of one with a byte of user data.
const ODD_HEAD: [u8; 8] = [1, 2, 3, 4, 0, 9, 0, 0];

/// Every kind with every length byte, and every short payload with every
/// short UDP length. Counts the payloads.
pub fn sweep(random: &mut Random, counts: &mut Counts) -> Result<u64, String> {
    let mut payloads = 0;
    let mut look = |random: &mut Random, payload: Vec<u8>| {
        payloads += 1;
        read(random, counts, &swept(payload))
    };
    // Behind a length byte stand NOPs; zeros, which are a fill; or what would
    // be FRAG's fields: the start is 22 and the offsets are 9.
    let fields = [0, 22, 0, 0, 0, 5, 0, 9, 0, 9, 1, 1];
    for kind in 0..=255 {
        for length in 0..=255 {
            for behind in [[1; 12], [0; 12], fields] {
                let mut payload = [&HEAD[..], &[kind, length], &behind].concat();
                if length > 100 {
                    payload.extend([9, 2].repeat(140));
                }
                look(random, payload)?;
            }
        }
    }
    for size in 0..24 {
        for length in 0..30 {
            for fill in [0, 1, 4, 192] {
                let mut payload = vec![fill; size];
                if let Some(field) = payload.get_mut(4..8) {
                    field.copy_from_slice(&[0, length, 0, 0]);
                }
                look(random, payload)?;
            }
        }
    }
    Ok(payloads)
}

/// FRAG with this Frag. Start and Frag. Offset; the last one's option start is
/// its origin.
fn frag(start: usize, offset: u8, last: bool) -> Vec<u8> {
    let [high, low] = (start as u16).to_be_bytes();
    let mut option = vec![3, 10, high, low, 0, 0, 0, 5, 0, offset];
    if last {
        option[1] = 12;
        option.extend([0, 8]);
    }
    option
}

/// A payload between the sweeps' addresses.
fn swept(payload: Vec<u8>) -> Datagram {
    Datagram {
        source: [192, 0, 2, 1],
        destination: [198, 51, 100, 7],
        payload,
    }
}

/// The list of a datagram and of an original at either parity, without
/// checksums, and of a fragment with other bytes behind Frag. Start.
fn in_each(random: &mut Random, counts: &mut Counts, list: &[u8]) -> Check {
    reread(random, counts, &[&[0, 0], list].concat(), 0)?;
    // One byte of user data, the pad, no option checksum.
    let odd = [&[7, 0, 0, 0], list].concat();
    reread(random, counts, &odd, 1)?;
    let frag = frag(HEAD.len() + 10 + list.len(), 9, false);
    let part = random.bytes(3);
    for payload in [
        [&HEAD[..], list].concat(),
        [&ODD_HEAD[..], &odd].concat(),
        [&HEAD[..], &frag, list, &part].concat(),
    ] {
        read(random, counts, &swept(payload))?;
    }
    Ok(())
}

/// Every fill of up to 70 bytes behind EOL, all zero, or with one bit set in
/// one byte, each byte in turn, with 0 to 7 NOPs in front. Counts the fills.
pub fn fills(random: &mut Random, counts: &mut Counts) -> Result<u64, String> {
    let mut fills = 0;
    for size in 0..=70 {
        for bad in 0..=size {
            for nops in 0..8 {
                fills += 1;
                let mut list = [1].repeat(nops);
                list.resize(nops + 1 + size, 0);
                // Past the end: all stay zero.
                if let Some(byte) = list.get_mut(nops + 1 + bad) {
                    *byte = 1 << random.below(8);
                }
                in_each(random, counts, &list)?;
            }
        }
    }
    Ok(fills)
}

/// Every run of up to 140 NOPs, at the front of the list or behind an option of
/// 2 to 9 bytes; the byte behind the run differs from NOP in one bit, each bit in
/// turn. Counts the runs.
pub fn long_runs(random: &mut Random, counts: &mut Counts) -> Result<u64, String> {
    let mut runs = 0;
    for count in 0..=140 {
        for before in 0..=8 {
            for bit in 0..8 {
                runs += 1;
                let mut list = Vec::new();
                if before > 0 {
                    list.extend([9, before + 1]);
                    list.resize(usize::from(before) + 1, 1);
                }
                list.extend([1].repeat(count));
                list.extend([1 ^ 1 << bit, 2, 1, 9, 2]);
                in_each(random, counts, &list)?;
            }
        }
    }
    Ok(runs)
}

/// Two runs of 0 to 16 NOPs each, around nothing, an option, 32 of them, a
/// body of ones, EOL, FRAG or a fault, with nothing or an option behind: of a
/// datagram and an original with 0 to 2 bytes of user data, without checksums.
/// Frag. Start is behind the second run, or in its middle. Counts the lists.
pub fn runs(random: &mut Random, counts: &mut Counts) -> Result<u64, String> {
    let mut lists = 0;
    let nops = |count: usize| [1].repeat(count);
    for (before, behind) in (0..=16).flat_map(|one| (0..=16).map(move |two| (one, two))) {
        for user in 0..=2u8 {
            let mut front = vec![1, 2, 3, 4, 0, 8 + user, 0, 0];
            front.extend(vec![7; usize::from(user)]);
            front.extend(vec![0; usize::from(user % 2) + 2]);
            let start = front.len() + before + behind;
            for middle in [
                vec![],
                vec![9, 2],
                vec![6, 6, 0, 0, 1, 44],
                [9, 2].repeat(32),
                [&[9, 11], &[1; 9][..]].concat(),
                vec![0],
                vec![192],
                vec![9, 1],
                frag(start + 10, 8, false),
                frag(start + 12, 8, true),
                frag(start + 10 - behind / 2, 8, false),
                frag(start + 10, 7, false),
                frag(start + 200, 8, false),
            ] {
                for end in [&[][..], &[9, 2]] {
                    lists += 1;
                    let runs = [&nops(before)[..], &middle, &nops(behind), end].concat();
                    let payload = [&front[..], &runs].concat();
                    reread(random, counts, &payload[8..], usize::from(user))?;
                    read(random, counts, &swept(payload))?;
                }
            }
        }
    }
    Ok(lists)
}

/// Compares two answers.
pub fn same<T: PartialEq + std::fmt::Debug>(
    expected: &T,
    found: &T,
    shown: &dyn Fn() -> String,
) -> Check {
    if expected == found {
        return Ok(());
    }
    Err(format!(
        "{}\n  reference: {expected:?}\n  library:   {found:?}",
        shown()
    ))
}

/// Compares two buffers and shows the first byte that differs.
pub fn same_bytes(expected: &[u8], found: &[u8], shown: &dyn Fn() -> String) -> Check {
    if expected == found {
        return Ok(());
    }
    let at = expected
        .iter()
        .zip(found)
        .position(|(left, right)| left != right);
    let at = at.unwrap_or(expected.len().min(found.len()));
    Err(format!(
        "{}\n  byte {at} is {:02x?} in the reference and {:02x?} in the library",
        shown(),
        expected.get(at),
        found.get(at)
    ))
}

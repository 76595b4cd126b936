//! Packets that are read and originals that are read again, with their options one
//! by one, and walks over ranges that no reader gave. Lines:
//!
//!     packet NAME [from ADDRESS to ADDRESS] bytes BYTES
//!     original NAME r NUMBER bytes BYTES
//!     walk NAME verdict VERDICT rest NUMBER NUMBER bytes BYTES
//!
//! The first two have two answers, `NAME plain ..` and `NAME strict ..`. So has a
//! walk, `NAME packet ..` and `NAME original ..`: its bytes are both. An option
//! is told as `kind KIND at OFFSET BODY`, a long body by its length and CRC32c.
//! Lines that start with `--` are remarks.

use crate::crc::crc32c;
use crate::words::Words;
use std::fmt::Write;
use wuraketozo::{
    read, reread, rewalk, walk, Apc, Located, PacketOffset, Place, Reading, Refusal, Rereading,
    Strictness, Verdict,
};

const SOURCE: [u8; 4] = [192, 0, 2, 1];
const DESTINATION: [u8; 4] = [198, 51, 100, 7];

pub fn run(script: &str) -> Result<String, String> {
    let mut said = String::new();
    for line in script.lines().filter(|line| !line.starts_with("--")) {
        let mut words = Words::of(line);
        let what = words.word()?;
        let name = words.word()?;
        let answers = match what {
            "packet" => packet(&mut words)?,
            "original" => original(&mut words)?,
            "walk" => made_up(&mut words)?,
            _ => return words.wrong("neither packet, original nor walk"),
        };
        for (way, answer) in answers {
            said += &format!("{name} {way}{answer}\n");
        }
    }
    Ok(said)
}

/// The answer of each of two ways.
type Answers = [(&'static str, String); 2];

fn by_setting(told: impl Fn(Strictness) -> Result<String, Refusal>) -> Answers {
    let told = |strictness| told(strictness).unwrap_or_else(refused);
    [
        ("plain", told(Strictness::Plain)),
        ("strict", told(Strictness::Strict)),
    ]
}

fn packet(words: &mut Words) -> Result<Answers, String> {
    let (mut source, mut destination) = (SOURCE, DESTINATION);
    if words.skipped("from") {
        source = words.address()?;
        words.skip("to")?;
        destination = words.address()?;
    }
    words.skip("bytes")?;
    let payload = words.bytes()?;
    Ok(by_setting(|strictness| {
        let reading = read(&payload, source, destination, strictness)?;
        Ok(told_of_packet(&reading) + &options(walk(&payload, &reading)))
    }))
}

fn told_of_packet(reading: &Reading) -> String {
    let mut text = told(
        (reading.user.start, reading.user.end),
        &reading.verdict,
        (reading.count, reading.fill, reading.apc),
        (reading.options.start, reading.options.end),
    );
    if let Verdict::Piece(fragment) = &reading.verdict {
        // Writing to a String does not fail.
        let _ = write!(
            text,
            " id {} place {} start {} end {} last {} options {}",
            fragment.identification,
            fragment.place.0,
            fragment.bytes.start,
            fragment.bytes.end,
            u8::from(fragment.last),
            fragment.option_start.0,
        );
    }
    text
}

fn original(words: &mut Words) -> Result<Answers, String> {
    words.skip("r")?;
    let option_start = Place(words.number()?);
    words.skip("bytes")?;
    let original = words.bytes()?;
    Ok(by_setting(|strictness| {
        let rereading = reread(&original, option_start, strictness)?;
        Ok(told_of_original(&rereading) + &options(rewalk(&original, &rereading)))
    }))
}

fn told_of_original(rereading: &Rereading) -> String {
    told(
        (rereading.user.start.0, rereading.user.end.0),
        &rereading.verdict,
        (rereading.count, rereading.fill, rereading.apc),
        (rereading.options.start.0, rereading.options.end.0),
    )
}

/// A walk over a reading and a rereading that are made up.
fn made_up(words: &mut Words) -> Result<Answers, String> {
    words.skip("verdict")?;
    let verdict = match words.word()? {
        "read" => Verdict::Read,
        "none" => Verdict::Bare,
        "malformed" => Verdict::Malformed(PacketOffset(0)),
        "tail" => Verdict::Tail(PacketOffset(0)),
        "padded" => Verdict::Padded(PacketOffset(0)),
        _ => return words.wrong("no verdict of a walk"),
    };
    words.skip("rest")?;
    let (start, end): (usize, usize) = (words.number()?, words.number()?);
    words.skip("bytes")?;
    let bytes = words.bytes()?;
    let reading = Reading {
        user: 0..0,
        verdict: verdict.clone(),
        options: start..end,
        count: 0,
        fill: 0,
        apc: Apc::None,
    };
    let rereading = Rereading {
        user: Place(0)..Place(0),
        verdict,
        options: Place(start)..Place(end),
        count: 0,
        fill: 0,
        apc: Apc::None,
    };
    Ok([
        ("packet", options(walk(&bytes, &reading))),
        ("original", options(rewalk(&bytes, &rereading))),
    ])
}

/// Bodies up to so many bytes are shown.
const SHOWN: usize = 16;

fn options<'a>(walk: impl Iterator<Item = Located<'a>>) -> String {
    walk.map(option).collect()
}

fn option(Located { kind, offset, body }: Located) -> String {
    let mut text = format!(" kind {kind} at {offset}");
    if body.len() > SHOWN {
        text += &format!(" {} bytes crc {:08x}", body.len(), crc32c(body));
    } else if !body.is_empty() {
        text.push(' ');
        text.extend(body.iter().map(|byte| format!("{byte:02x}")));
    }
    text
}

fn refused(refusal: Refusal) -> String {
    format!(" refused {}", refusal.number())
}

/// Every field of the answer that both kinds of reading have.
fn told(
    user: (usize, usize),
    verdict: &Verdict,
    (count, fill, apc): (usize, usize, Apc),
    list: (usize, usize),
) -> String {
    let word = verdict.word();
    let at = verdict
        .fault_at()
        .map_or(String::new(), |at| format!(" at {at}"));
    format!(
        " user {} {} verdict {word}{at} count {count} fill {fill} apc {} list {} {}",
        user.0,
        user.1,
        apc_word(apc),
        list.0,
        list.1,
    )
}

fn apc_word(apc: Apc) -> &'static str {
    match apc {
        Apc::None => "none",
        Apc::Right => "right",
        Apc::Wrong => "wrong",
    }
}

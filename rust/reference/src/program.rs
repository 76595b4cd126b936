//! "The program": its text for given input bytes.

use crate::reader::{read, Fields, Located, PacketOffset, Strictness, Verdict};
use std::fmt::Write;

/// The payload bytes that the program reads at most.
pub const PAYLOAD_READ_MOST: usize = 65_516;

/// The text for the bytes of standard input: 8 address bytes, source first,
/// then the payload. Every line ends in one newline.
pub fn report(addresses_and_payload: &[u8]) -> String {
    let mut text = String::new();
    // Writing to a String can't fail.
    let _ = match addresses_and_payload {
        [a, b, c, d, e, f, g, h, payload @ ..] => {
            let payload = &payload[..payload.len().min(PAYLOAD_READ_MOST)];
            describe(&mut text, payload, [*a, *b, *c, *d], [*e, *f, *g, *h])
        }
        _ => writeln!(text, "refused 1"),
    };
    text
}

fn describe(
    text: &mut String,
    payload: &[u8],
    source: [u8; 4],
    destination: [u8; 4],
) -> std::fmt::Result {
    // The program is not strict (document 02, R-6).
    let reading = match read(payload, source, destination, Strictness::Plain) {
        Ok(reading) => reading,
        Err(number) => return writeln!(text, "refused {number}"),
    };
    writeln!(text, "user {}", reading.user.to - reading.user.from)?;
    write!(text, "verdict {}", reading.verdict.word())?;
    if let Some(PacketOffset(at)) = reading.verdict.fault_at() {
        write!(text, " at {at}")?;
    }
    text.push('\n');
    if reading.verdict != Verdict::Read {
        return Ok(());
    }
    for Located { offset, option } in reading.options(payload) {
        write!(text, "kind {}", option.kind)?;
        match option.fields {
            Fields::None => {}
            Fields::One(a) => write!(text, " {a}")?,
            Fields::Two(a, b) => write!(text, " {a} {b}")?,
            Fields::Body(body) => {
                if !body.is_empty() {
                    text.push(' ');
                }
                for byte in body {
                    write!(text, "{byte:02x}")?;
                }
            }
        }
        writeln!(text, " at {}", offset.0)?;
    }
    writeln!(text, "fill {}", reading.fill)
}

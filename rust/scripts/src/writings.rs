//! Cases of the writer. Lines:
//!
//!     write NAME data BYTES list BYTES fill NUMBER room NUMBER
//!
//! Each prints the answer, the CRC32c of the whole buffer lent, and a short
//! payload. Lines that start with `--` are remarks.

use crate::crc::crc32c;
use crate::words::Words;
use wuraketozo::{write, Flow};

const FLOW: Flow = Flow {
    source: [192, 0, 2, 1],
    destination: [198, 51, 100, 7],
    source_port: 4660,
    destination_port: 53,
};

/// What a buffer holds before the call.
const UNTOUCHED: u8 = 0x5A;

/// Payloads up to so many bytes are shown.
const SHOWN: usize = 96;

pub fn run(script: &str) -> Result<String, String> {
    let mut said = String::new();
    for line in script.lines().filter(|line| !line.starts_with("--")) {
        said += &case(&mut Words::of(line))?;
    }
    Ok(said)
}

fn case(words: &mut Words) -> Result<String, String> {
    words.skip("write")?;
    let name = words.word()?;
    words.skip("data")?;
    let data = words.bytes()?;
    words.skip("list")?;
    let list = words.bytes()?;
    words.skip("fill")?;
    let fill = words.number()?;
    words.skip("room")?;
    let mut buffer = vec![UNTOUCHED; words.number()?];
    let answer = write(&FLOW, &data, &list, fill, &mut buffer);
    let crc = crc32c(&buffer);
    Ok(match answer {
        Err(refusal) => format!("{name} refused {} buffer {crc:08x}\n", refusal.number()),
        Ok(length) if length > SHOWN => format!("{name} length {length} buffer {crc:08x}\n"),
        Ok(length) => {
            let payload: String = buffer
                .iter()
                .take(length)
                .map(|b| format!("{b:02x}"))
                .collect();
            format!("{name} length {length} buffer {crc:08x} payload {payload}\n")
        }
    })
}

//! Reads 8 address bytes and a payload from standard input and writes the
//! text of document 01, "The program".
#![forbid(unsafe_code)]

use reference::program::PAYLOAD_READ_MOST;
use std::io::{Read, Write};

fn main() {
    let mut input = Vec::new();
    let most = 8 + PAYLOAD_READ_MOST as u64;
    // A read error counts as the end of input.
    let _ = std::io::stdin().take(most).read_to_end(&mut input);
    let _ = std::io::stdout().write_all(reference::report(&input).as_bytes());
}

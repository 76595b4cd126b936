//! Runs a script through the proved library, by its safe wrapper, and prints
//! what comes of each of its lines: `scripts calls|readings|writings <SCRIPT`.
//! What has to come out stands beside each script in `lists/`.
#![forbid(unsafe_code)]

mod calls;
mod crc;
mod forge;
mod readings;
mod words;
mod writings;

use std::io::{self, Read, Write};
use std::process::ExitCode;

fn main() -> ExitCode {
    match run() {
        Ok(()) => ExitCode::SUCCESS,
        Err(why) => {
            eprintln!("scripts: {why}");
            ExitCode::FAILURE
        }
    }
}

fn run() -> Result<(), String> {
    let what = std::env::args().nth(1).unwrap_or_default();
    let runner = match what.as_str() {
        "calls" => calls::run,
        "readings" => readings::run,
        "writings" => writings::run,
        _ => return Err("calls, readings or writings?".into()),
    };
    let mut script = String::new();
    io::stdin()
        .read_to_string(&mut script)
        .map_err(|e| e.to_string())?;
    let said = runner(&script)?;
    io::stdout()
        .write_all(said.as_bytes())
        .map_err(|e| e.to_string())
}

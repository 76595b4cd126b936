//! The proved library against the plain reference, on seeded inputs. It
//! prints how often each verdict, refusal and answer came, and exits with 1
//! at the first difference, or if one of them never came.
//!
//!     differential [--seed S] [--payloads N] [--calls M]
//!                  [--first-payload I] [--first-list J]
//!
//! Round I and list J depend on the seed and their number alone, so that a
//! difference can be seen again by itself.
#![forbid(unsafe_code)]

mod calls;
mod convert;
mod counts;
mod payloads;
mod plans;
mod records;
mod steps;

use counts::Counts;
use reference::generate::Random;
use std::process::ExitCode;
use std::time::Instant;

/// The calls of one list.
const LIST: usize = 250;

struct Arguments {
    seed: u64,
    payloads: u64,
    calls: u64,
    /// Given to see one round or list again; then nothing is swept, and not
    /// everything need be reached.
    first_payload: Option<u64>,
    first_list: Option<u64>,
}

impl Arguments {
    fn is_whole(&self) -> bool {
        self.first_payload.is_none() && self.first_list.is_none()
    }
}

/// The command line's numbers, or the word that is not one.
fn arguments() -> Result<Arguments, String> {
    let mut arguments = Arguments {
        seed: 1,
        payloads: 200_000,
        calls: 50_000,
        first_payload: None,
        first_list: None,
    };
    let mut words = std::env::args().skip(1);
    while let Some(word) = words.next() {
        let number = words.next().and_then(|value| value.parse().ok());
        let number: u64 = number.ok_or(format!("{word} needs a number"))?;
        match word.as_str() {
            "--seed" => arguments.seed = number,
            "--payloads" => arguments.payloads = number,
            "--calls" => arguments.calls = number,
            "--first-payload" => arguments.first_payload = Some(number),
            "--first-list" => arguments.first_list = Some(number),
            _ => return Err(format!("{word} is not known")),
        }
    }
    Ok(arguments)
}

/// The generator of one round or list.
fn random(seed: u64, part: u64, number: u64) -> Random {
    let mut mixed = Random::new(seed ^ part.rotate_left(56));
    let start = mixed.draw() ^ number.wrapping_mul(0xD134_2543_DE82_EF95);
    Random::new(Random::new(start).draw())
}

fn run(arguments: &Arguments, counts: &mut Counts) -> Result<(), String> {
    let seed = arguments.seed;
    let start = Instant::now();
    let whole = arguments.is_whole();
    let first_payload = arguments.first_payload.unwrap_or(0);
    let first_list = arguments.first_list.unwrap_or(0);
    let told = |text: String| format!("--seed {seed}, sweep\n{text}");
    let swept = if whole {
        payloads::sweep(&mut random(seed, 0, 0), counts).map_err(told)?
            + payloads::fills(&mut random(seed, 0, 4), counts).map_err(told)?
            + payloads::runs(&mut random(seed, 0, 5), counts).map_err(told)?
            + payloads::long_runs(&mut random(seed, 0, 6), counts).map_err(told)?
    } else {
        0
    };
    for number in first_payload..first_payload + arguments.payloads {
        payloads::round(&mut random(seed, 1, number), counts).map_err(|text| {
            format!("--seed {seed} --first-payload {number} --payloads 1 --calls 0\n{text}")
        })?;
    }
    println!(
        "{} payloads in rounds with an original and a writing each, {swept} swept: {:.1} s",
        arguments.payloads,
        start.elapsed().as_secs_f64()
    );
    let start = Instant::now();
    let swept = if whole {
        calls::sweep(&mut random(seed, 0, 1), counts).map_err(told)?
            + calls::originals(&mut random(seed, 0, 8), counts).map_err(told)?
            + plans::sweep(&mut random(seed, 0, 9), counts).map_err(told)?
            + records::sweep(&mut random(seed, 0, 2), counts).map_err(told)?
            + records::lists(&mut random(seed, 0, 3), counts).map_err(told)?
            + records::overlaps(&mut random(seed, 0, 7), counts).map_err(told)?
    } else {
        0
    };
    let mut made = 0;
    let mut number = first_list;
    while made < arguments.calls {
        made += calls::list(&mut random(seed, 2, number), counts, LIST).map_err(|text| {
            format!("--seed {seed} --payloads 0 --first-list {number} --calls 1\n{text}")
        })?;
        number += 1;
    }
    println!(
        "{made} table calls in {} lists, {swept} swept: {:.1} s",
        number - first_list,
        start.elapsed().as_secs_f64()
    );
    Ok(())
}

fn main() -> ExitCode {
    let arguments = match arguments() {
        Ok(arguments) => arguments,
        Err(text) => {
            eprintln!("{text}");
            return ExitCode::from(2);
        }
    };
    println!("seed {}", arguments.seed);
    if !wuraketozo::fits() {
        println!("the library's sizes are not those of its header");
        return ExitCode::FAILURE;
    }
    let mut counts = Counts::new();
    if let Err(text) = run(&arguments, &mut counts) {
        println!("DIFFERENCE: {text}");
        return ExitCode::FAILURE;
    }
    let missing = counts.print();
    if arguments.is_whole() && !missing.is_empty() {
        println!("never reached: {}", missing.join(", "));
        return ExitCode::FAILURE;
    }
    println!("no difference");
    ExitCode::SUCCESS
}

//! Times the proved library beside the plain reference, and its table beside
//! the good reference too.
//!
//!     bench [FILE]                 prints the tables; puts them into FILE too
//!     bench --count NUMBER SIDE N  runs case NUMBER, `library`, `reference` or
//!                                  `good`, N times, for callgrind
//!     bench --names                prints the cases: number, calls, sides, name
//!     bench --alike                has all sides of all cases answer alike
#![deny(unsafe_code)]

mod cases;
mod sums;
mod tables;

use cases::{Case, Side};
use std::process::ExitCode;
use std::time::Instant;

const WARM_UP: usize = 50;
const ROUNDS: usize = 1_001;
/// How often a side is prepared to be counted.
const PREPARED: usize = 8;

/// Between these lines of FILE the tables stand.
const BEGIN: &str = "<!-- table: written by make bench -->";
const END: &str = "<!-- end of table -->";

/// The nanoseconds of one call.
fn time(side: &mut dyn Side, calls: usize) -> f64 {
    side.prepare();
    let start = Instant::now();
    side.run();
    start.elapsed().as_nanos() as f64 / calls as f64
}

fn median(mut values: Vec<f64>) -> f64 {
    values.sort_by(f64::total_cmp);
    values.get(values.len() / 2).copied().unwrap_or(0.0)
}

/// What came of a case: the nanoseconds of each side, and the library's over
/// those of each other side.
struct Result {
    name: String,
    times: Vec<f64>,
    ratios: Vec<f64>,
}

/// Batches of all sides in turns, the first side changing each round.
fn measure(case: &Case) -> Result {
    check(case);
    let mut sides: Vec<Box<dyn Side>> = case.sides().iter().map(|(_, make)| make()).collect();
    let count = sides.len();
    let mut times = vec![Vec::new(); count];
    let mut ratios = vec![Vec::new(); count - 1];
    for round in 0..WARM_UP + ROUNDS {
        let mut taken = vec![0.0; count];
        for turn in 0..count {
            let at = (round + turn) % count;
            taken[at] = time(sides[at].as_mut(), case.calls);
        }
        if round >= WARM_UP {
            for (times, &taken) in times.iter_mut().zip(&taken) {
                times.push(taken);
            }
            for (ratios, other) in ratios.iter_mut().zip(&taken[1..]) {
                ratios.push(taken[0] / other);
            }
        }
    }
    Result {
        name: case.name.clone(),
        times: times.into_iter().map(median).collect(),
        ratios: ratios.into_iter().map(median).collect(),
    }
}

fn check(case: &Case) {
    assert!((case.alike)(), "{}: the answers differ", case.name);
}

/// Nanoseconds, with a decimal where they are few.
fn nanoseconds(value: f64) -> String {
    if value < 100.0 {
        format!("{value:.1}")
    } else {
        format!("{value:.0}")
    }
}

/// A line of a table: the name, the times, the ratios.
fn line(result: &Result) -> String {
    let times = result.times.iter().map(|&time| nanoseconds(time));
    let ratios = result.ratios.iter().map(|ratio| format!("{ratio:.2}"));
    let cells: Vec<String> = times.chain(ratios).collect();
    format!("| {} | {} |\n", result.name, cells.join(" | "))
}

/// The lines of the results with so many sides, under a head.
fn table(head: &str, sides: usize, results: &[Result]) -> String {
    let mut text = format!("{head}\n|{}\n", "---|".repeat(2 * sides));
    let lines = results.iter().filter(|result| result.times.len() == sides);
    text.extend(lines.map(line));
    text
}

/// How much longer a call takes with 63 fragments held of each original than
/// with 16.
fn growth(results: &[Result]) -> String {
    let mut text = String::from(
        "| 4 x 63 held over 4 x 16 held | library | plain | good |\n|---|---|---|---|\n",
    );
    for many in results {
        let few = many.name.replace("4 x 63", "4 x 16");
        let few = results.iter().find(|result| result.name == few);
        if let Some(few) = few.filter(|few| few.name != many.name) {
            let name = many.name.replace(" 4 x 63 held,", "");
            let times = many.times.iter().zip(&few.times);
            let cells: Vec<String> = times
                .map(|(many, few)| format!("{:.2}", many / few))
                .collect();
            text += &format!("| {name} | {} |\n", cells.join(" | "));
        }
    }
    text
}

/// What each of the 11 other clients of a table adds to a call, over the same
/// call where there is no other.
fn further(results: &[Result]) -> String {
    let mut text = String::from(
        "| for each further client, ns | library | plain | good |\n|---|---|---|---|\n",
    );
    for many in results {
        let Some((call, rest)) = many.name.split_once(", client ") else {
            continue;
        };
        let Some((client, held)) = rest.split_once(" of 12,") else {
            continue;
        };
        let alone = format!("{call}, client 0 of 1,{held}");
        if let Some(alone) = results.iter().find(|result| result.name == alone) {
            let times = many.times.iter().zip(&alone.times);
            let cells: Vec<String> = times
                .map(|(many, alone)| format!("{:.1}", (many - alone) / 11.0))
                .collect();
            text += &format!("| {call}, client {client} | {} |\n", cells.join(" | "));
        }
    }
    text
}

fn tables(results: &[Result]) -> String {
    [
        table(
            "| work | library, ns | reference, ns | ratio |",
            2,
            results,
        ),
        table(
            "| table call | library, ns | plain, ns | good, ns | library / plain | library / good |",
            3,
            results,
        ),
        growth(results),
        further(results),
    ]
    .join("\n")
}

/// Puts the tables between the two marks of the file.
fn update(path: &str, tables: &str) -> std::io::Result<bool> {
    let text = std::fs::read_to_string(path)?;
    let Some((head, rest)) = text.split_once(BEGIN) else {
        return Ok(false);
    };
    let Some((_, tail)) = rest.split_once(END) else {
        return Ok(false);
    };
    std::fs::write(path, format!("{head}{BEGIN}\n{tables}{END}{tail}"))?;
    Ok(true)
}

/// One side of one case, again and again. It is prepared as often for few runs
/// as for many, so that their difference is the runs'.
fn count(words: &[String]) -> Option<()> {
    let [number, side, times] = words else {
        return None;
    };
    let cases = cases::all();
    let case = cases.get(number.parse::<usize>().ok()?)?;
    let sides = case.sides();
    let (_, make) = sides.iter().find(|(name, _)| name == side)?;
    let mut side = make();
    let times = times.parse::<usize>().ok()?;
    for round in 0..PREPARED.max(times) {
        side.prepare();
        if round < times {
            side.run();
        }
    }
    Some(())
}

fn main() -> ExitCode {
    let words: Vec<String> = std::env::args().skip(1).collect();
    match words.first().map(String::as_str) {
        Some("--names") => {
            for (number, case) in cases::all().iter().enumerate() {
                println!(
                    "{number} {} {} {}",
                    case.calls,
                    case.sides().len(),
                    case.name
                );
            }
            return ExitCode::SUCCESS;
        }
        Some("--alike") => {
            cases::all().iter().for_each(check);
            println!("all sides answer alike");
            return ExitCode::SUCCESS;
        }
        Some("--count") => {
            return match count(&words[1..]) {
                Some(()) => ExitCode::SUCCESS,
                None => ExitCode::from(2),
            };
        }
        _ => {}
    }
    println!("{WARM_UP} rounds of warm-up, then {ROUNDS} rounds; in each one batch of each side in turns.");
    println!(
        "The figures are medians over the rounds; a ratio is the median of the rounds' ratios.\n"
    );
    let results: Vec<Result> = cases::all().iter().map(measure).collect();
    let tables = tables(&results);
    print!("{tables}");
    match words.first().map(|path| (path, update(path, &tables))) {
        None => ExitCode::SUCCESS,
        Some((path, Ok(true))) => {
            println!("\nwritten to {path}");
            ExitCode::SUCCESS
        }
        Some((path, _)) => {
            println!("\n{path} has no place for the tables");
            ExitCode::FAILURE
        }
    }
}

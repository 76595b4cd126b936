//! How often each verdict, refusal and answer came.

use reference::generate;
use reference::table::ASSEMBLIES;
use std::collections::BTreeMap;

/// What must be reached, in the order of the table that is printed.
fn wanted() -> Vec<String> {
    let mut names = Vec::new();
    let mut add = |call: &str, results: &[&str]| {
        names.extend(results.iter().map(|result| format!("{call}: {result}")));
    };
    add("read", &["1", "2", "3", "4"]);
    add("read", &["none", "short", "pad", "unsummed", "badsum"]);
    add("read", &["malformed", "unsafe", "fragdata", "crowded"]);
    add("read", &["read", "read with fill", "piece"]);
    add("read", &["tail", "tail led by FRAG", "padded"]);
    add("read", &["padded before FRAG", "padded behind FRAG"]);
    add("read", &["APC none", "APC right", "APC wrong"]);
    for name in generate::fault_names(false) {
        add("read", &[&name]);
    }
    add("reread", &["2", "5", "6"]);
    add("reread", &["none", "short", "pad", "badsum", "malformed"]);
    add("reread", &["crowded", "read", "read with fill", "tail"]);
    add("reread", &["padded"]);
    add("reread", &["APC none", "APC right", "APC wrong"]);
    for name in generate::fault_names(true) {
        add("reread", &[&name]);
    }
    for call in ["walk", "rewalk"] {
        add(call, &["no option", "options", "32 options"]);
        add(call, &["an empty body", "an option behind NOPs"]);
        add(call, &["an option behind an extended one"]);
        add(call, &["from the middle of an option"]);
    }
    for call in ["step", "step in an original"] {
        add(call, &["option", "extended option", "FRAG", "behind NOPs"]);
        add(call, &["another verdict", "turned round", "past the end"]);
        add(call, &["end", "EOL", "unsafe", "malformed"]);
    }
    add("list", &["taken", "8"]);
    let word = "list of a made-up reading";
    add(word, &["no option", "tail", "options", "8"]);
    add(word, &["options beside padding"]);
    add("write", &["taken", "7", "8", "9"]);
    add("reset", &["taken", "20", "32"]);
    let of_20 = generate::TABLE_FAULTS.iter().copied();
    let of_20: Vec<&str> = of_20.filter(|name| name.contains("20")).collect();
    add("reset", &of_20);
    add("offer", &["stored", "repeated", "conflict", "delivered"]);
    let numbers: Vec<String> = (20..=30).map(|number| number.to_string()).collect();
    let mut numbers: Vec<&str> = numbers.iter().map(String::as_str).collect();
    numbers.push("32");
    let full: Vec<String> = (1..=ASSEMBLIES)
        .map(|plan| format!("29 at a plan of {plan}"))
        .collect();
    let full: Vec<&str> = full.iter().map(String::as_str).collect();
    add("offer", &numbers);
    add("offer", &generate::TABLE_FAULTS);
    add("offer", &full);
    add("offer", &generate::LIMIT_SORTS);
    add("advance", &["taken", "20", "21", "22", "27", "32"]);
    add("advance", &generate::TABLE_FAULTS);
    add("account", &["taken", "20", "21", "22", "32"]);
    add("account", &generate::TABLE_FAULTS);
    add("receive", &["datagram", "1", "2", "3", "4"]);
    add("receive", &["malformed", "unsafe", "fragdata", "crowded"]);
    add("receive", &["tail", "tail led by FRAG", "padded"]);
    add("receive", &["padded before FRAG", "padded behind FRAG"]);
    add("receive", &["stored", "repeated", "conflict", "delivered"]);
    add("receive", &numbers);
    add("receive", &generate::TABLE_FAULTS);
    add("receive", &full);
    add("receive", &generate::LIMIT_SORTS);
    for word in ["forged record", "record with one byte changed"] {
        add(word, &["sound", "damaged", "live past its plan"]);
    }
    let word = "forged assembly";
    add(word, &["no last one", "sum T, covered", "sum T, a gap"]);
    add(word, &["sum T with unused slots, a gap"]);
    add(word, &["other sum, covered", "other sum, a gap"]);
    add("forged list", &generate::LIST_SORTS);
    names
}

/// The counts of one run.
pub struct Counts {
    order: Vec<String>,
    seen: BTreeMap<String, u64>,
}

impl Counts {
    pub fn new() -> Counts {
        Counts {
            order: wanted(),
            seen: BTreeMap::new(),
        }
    }

    pub fn add(&mut self, call: &str, result: &str) {
        *self.seen.entry(format!("{call}: {result}")).or_insert(0) += 1;
    }

    fn of(&self, name: &str) -> u64 {
        self.seen.get(name).copied().unwrap_or(0)
    }

    /// Prints the table, a line for each call; the names never reached.
    pub fn print(&self) -> Vec<String> {
        let mut line = String::new();
        let mut current = "";
        for name in &self.order {
            let (call, result) = name.split_once(": ").unwrap_or((name, ""));
            if call != current {
                println!("{line}");
                line = format!("{call}:");
                current = call;
            } else if line.len() > 100 {
                println!("{line}");
                line = String::from("   ");
            }
            line += &format!("  {result} = {}", self.of(name));
        }
        println!("{line}");
        let mut missing: Vec<String> = Vec::new();
        for name in &self.order {
            if self.of(name) == 0 {
                missing.push(name.clone());
            }
        }
        // A result that stands in no list would be a fault of this program.
        for name in self.seen.keys() {
            if !self.order.contains(name) {
                missing.push(format!("{name} (not expected)"));
            }
        }
        missing
    }
}

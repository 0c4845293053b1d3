//! Outside tests of the library's five calls: its answers and bytes against an independent reading of document 01 and an
//! exhaustive search. Tests, not proofs.

mod both;
mod calls;
mod model;
mod random;
mod rows;
mod search;
mod suites;

use std::io::Write;
use std::process::exit;
use std::sync::atomic::Ordering;
use suites::{Suite, SUITES};

/// Without words: seed 1, 24,000 cases in each large suite (medium has 15 for each thousand), all suites.
const USAGE: &str =
    "use: outside-tests [--seed S] [--cases N] [--valgrind] [SUITE...], a suite being worked, damaged, small, medium, benches or measured";

struct Asked {
    seed: u64,
    cases: usize,
    suites: Vec<String>,
}

fn usage() -> ! {
    eprintln!("{USAGE}");
    exit(2)
}

fn asked() -> Asked {
    let mut asked = Asked { seed: 1, cases: 24_000, suites: Vec::new() };
    let mut words = std::env::args().skip(1);
    while let Some(word) = words.next() {
        let mut number = || words.next().and_then(|word| word.parse().ok()).unwrap_or_else(|| usage());
        match word.as_str() {
            "--seed" => asked.seed = number(),
            "--cases" => asked.cases = number() as usize,
            "--valgrind" => calls::UNDER_VALGRIND.store(true, Ordering::Relaxed),
            name if SUITES.iter().any(|suite| suite.name == name) => asked.suites.push(word),
            _ => usage(),
        }
    }
    asked
}

/// Runs one suite and prints its line; the seed comes first, so that it is known even if a call never returns.
fn run(suite: &Suite, asked: &Asked) -> usize {
    if !suite.linked() {
        println!("{}: left out, as {} is not linked", suite.name, suite.missing());
        return 0;
    }
    print!("{}: seed {}, ", suite.name, asked.seed);
    std::io::stdout().flush().ok();
    match suite.run(asked.seed, asked.cases) {
        Ok(cases) => {
            println!("{cases} cases passed");
            cases
        }
        Err(difference) => {
            println!("DIFFERENCE");
            println!("  asked:    {}", difference.asked);
            println!("  row:      {}", both::hex(&difference.row));
            println!("  expected: {}", difference.expected);
            println!("  found:    {}", difference.found);
            println!("failed: suite {} with --seed {} --cases {}", suite.name, asked.seed, asked.cases);
            exit(1)
        }
    }
}

fn main() {
    let asked = asked();
    let (linked, missing): (Vec<&str>, Vec<&str>) = calls::NAMES.iter().partition(|name| calls::linked(name));
    let under = if calls::UNDER_VALGRIND.load(Ordering::Relaxed) { ", under valgrind" } else { "" };
    println!("calls linked: {}{under}", linked.join(" "));
    if !missing.is_empty() {
        println!("calls not linked, and left out of every suite: {}", missing.join(" "));
    }
    let wanted = |suite: &&Suite| asked.suites.is_empty() || asked.suites.iter().any(|name| name == suite.name);
    let total: usize = SUITES.iter().filter(wanted).map(|suite| run(suite, &asked)).sum();
    println!("{total} cases passed");
}

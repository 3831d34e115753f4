//! The differential test: `differential [COUNT [SEED]]` asks about at least COUNT images. Ends with
//! status 0 where the proved code and the independent program say the same of each, every kind of
//! image, every number and every length of a valid image occurred, enough cores were listed, and
//! every faulty program was found out; with status 2, and nothing asked, where the arguments are not
//! numbers.

#![forbid(unsafe_code)]

use std::process::ExitCode;
use std::time::Instant;

use differential::compare::compare;
use differential::report::report;

const COUNT: u64 = 300_000;
const SEED: u64 = 1;

fn main() -> ExitCode {
    let arguments: Vec<String> = std::env::args().skip(1).collect();
    let numbers: Option<Vec<u64>> = arguments.iter().map(|word| word.parse().ok()).collect();
    let (count, seed) = match numbers.as_deref() {
        Some([]) => (COUNT, SEED),
        Some([count]) => (*count, SEED),
        Some([count, seed]) => (*count, *seed),
        _ => {
            eprintln!("usage: differential [COUNT [SEED]]");
            return ExitCode::from(2);
        }
    };
    let begun = Instant::now();
    let comparison = compare(seed, count);
    print!("{}", report(&comparison.tally).expect("writing to a string does not fail"));
    for program in &comparison.not_found_out {
        println!("not found out: {}", program.fault);
    }
    println!("{:>10} faulty programs found out", comparison.found_out);
    println!("seed {seed}, {:.1} seconds", begun.elapsed().as_secs_f64());
    if comparison.passed() {
        ExitCode::SUCCESS
    } else {
        ExitCode::FAILURE
    }
}

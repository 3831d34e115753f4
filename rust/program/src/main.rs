//! `program WORD..` starts the printing program by these words, for every image and in every way that
//! bytes may come, next to the independent program. Ends with status 0 where it did what it should,
//! every number that a text can begin with occurred, and every faulty program was found out.

#![forbid(unsafe_code)]

use std::io::Result;
use std::process::ExitCode;
use std::time::Instant;

use program::compare::{compare, difference};
use program::faulty::faulty;
use program::images::images;
use program::input::{ways_in, ways_out};
use program::process::Program;

const SEED: u64 = 1;

fn run(program: &Program) -> Result<bool> {
    let begun = Instant::now();
    let mut passed = true;
    let ways = [ways_in(program)?, ways_out(program)?].concat();
    for way in &ways {
        if way.did != way.expected {
            println!("{}: {}", way.what, difference(&way.did, &way.expected));
            passed = false;
        }
    }
    let images = images(SEED);
    let comparison = compare(program, &images)?;
    for (kind, count) in &comparison.kinds {
        println!("{count:>10} {kind}");
    }
    for (beginning, count) in &comparison.beginnings {
        println!("{count:>10} begin with {beginning}");
    }
    println!("{:>10} bytes, the longest text", comparison.longest);
    comparison.differences.iter().for_each(|difference| println!("{difference}"));
    comparison.missing().iter().for_each(|what| println!("did not occur: {what}"));
    comparison.left.iter().for_each(|program| println!("not found out: {}", program.fault));
    let found_out = faulty().len() - comparison.left.len();
    println!("{found_out:>10} faulty programs found out");
    println!("{:>10} ways in which bytes come and go", ways.len());
    println!("{:>10} images in all", comparison.images());
    println!("{:>10} differences", comparison.differing);
    println!("{:.1} seconds", begun.elapsed().as_secs_f64());
    Ok(passed && comparison.passed())
}

fn main() -> ExitCode {
    let words: Vec<String> = std::env::args().skip(1).collect();
    if words.is_empty() {
        eprintln!("usage: program WORD..");
        return ExitCode::from(2);
    }
    match run(&Program(words)) {
        Ok(true) => ExitCode::SUCCESS,
        Ok(false) => ExitCode::FAILURE,
        Err(error) => {
            eprintln!("{error}");
            ExitCode::FAILURE
        }
    }
}

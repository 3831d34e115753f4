//! `times PROVED PLAIN [WORD..]`: how long the printing programs take, from the start of the process to
//! its end, the words before each of them; the plain one in both its ways. In turns, the least of
//! many and the middle one. It prints ratios and is no test of speed; that all print the same is
//! checked first.

#![forbid(unsafe_code)]

use std::fs::File;
use std::io::{Error, Result, Write};
use std::process::{Command, ExitCode, Stdio};
use std::time::{Duration, Instant};

use independent::make::Description;
use independent::tables::{largest_example, longest_text};
use program::images::example;
use program::process::Program;

/// How long measuring goes on, at least for some rounds.
const LONGEST: Duration = Duration::from_secs(4);
const LEAST_ROUNDS: usize = 9;

/// Where a text goes.
#[derive(Clone, Copy)]
enum To {
    Pipe,
    Null,
}

/// Microseconds.
fn time(program: &Program, image: &str, to: To) -> Result<f64> {
    let mut command = Command::new(&program.0[0]);
    command.args(&program.0[1..]).stdin(File::open(image)?);
    let begun = Instant::now();
    let ended = match to {
        To::Pipe => command.stderr(Stdio::inherit()).output()?.status,
        To::Null => command.stdout(Stdio::null()).status()?,
    };
    let time = begun.elapsed().as_secs_f64() * 1e6;
    if ended.success() {
        Ok(time)
    } else {
        Err(Error::other("a program failed"))
    }
}

/// The least and the middle of the times.
fn least_and_middle(mut times: Vec<f64>) -> [f64; 2] {
    times.sort_by(f64::total_cmp);
    [times[0], times[times.len() / 2]]
}

/// The printing programs: the proved one, the one in plain Rust with a buffered writer, and that as
/// fast as it could be written.
struct Programs {
    proved: Program,
    buffered: Program,
    fast: Program,
}

fn compare(what: &str, table: &Description, programs: &Programs) -> Result<()> {
    let image = std::env::temp_dir().join(format!("times-{}.image", std::process::id()));
    File::create(&image)?.write_all(&table.image())?;
    let path = image.to_string_lossy();
    let Programs { proved, buffered, fast } = programs;
    let text = fast.of_bytes(&table.image())?;
    for program in [proved, buffered] {
        assert!(program.of_bytes(&table.image())? == text, "{what}: the texts differ");
    }
    for (to, whither) in [(To::Pipe, "a pipe"), (To::Null, "/dev/null")] {
        let mut times = [Vec::new(), Vec::new(), Vec::new()];
        let begun = Instant::now();
        while times[0].len() < LEAST_ROUNDS || begun.elapsed() < LONGEST {
            for (times, program) in times.iter_mut().zip([proved, buffered, fast]) {
                times.push(time(program, &path, to)?);
            }
        }
        let [proved, buffered, fast] = times.map(least_and_middle);
        println!("{what}, {} bytes to {whither}: proved {:.0} us", text.printed.len(), proved[0]);
        for (with, plain) in [("a buffered writer", buffered), ("words of eight bytes", fast)] {
            let [least, middle] = [proved[0] / plain[0], proved[1] / plain[1]];
            print!("  plain Rust with {with} {:.0} us: ", plain[0]);
            println!("ratio {least:.3} of the least, {middle:.3} of the middle");
        }
    }
    std::fs::remove_file(&image)
}

fn main() -> ExitCode {
    let words: Vec<String> = std::env::args().skip(1).collect();
    let [proved, plain, before @ ..] = &words[..] else {
        eprintln!("usage: times PROVED PLAIN [WORD..]");
        return ExitCode::from(2);
    };
    let started =
        |words: &[&String]| Program(before.iter().chain(words.iter().copied()).cloned().collect());
    let programs = Programs {
        proved: started(&[proved]),
        buffered: started(&[plain, &"buffered".to_string()]),
        fast: started(&[plain]),
    };
    let tables = [
        ("the longest text", longest_text()),
        ("the largest image", largest_example()),
        ("the example of document 01", example()),
    ];
    for (what, table) in tables {
        if let Err(error) = compare(what, &table, &programs) {
            eprintln!("{error}");
            return ExitCode::FAILURE;
        }
    }
    ExitCode::SUCCESS
}

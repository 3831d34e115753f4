//! Document 01, "The printing program": an image of any length on standard input,
//! text on standard output. With arguments it puts one of the three questions.

#![forbid(unsafe_code)]

use std::env;
use std::io::{self, BufWriter, Read, Write};
use std::process::ExitCode;

use independent::{ages, listing, listing_length, points, print, Refusal};

const USAGE: &str = "usage: independent < IMAGE
       independent points WRITER READER N < IMAGE
       independent listing CORE [ROOM] < IMAGE
       independent ages CHAIN < IMAGE";

/// What the arguments ask for.
enum Asked {
    Print,
    Points { writer: u64, reader: u64, n: u64 },
    Listing { core: u64, room: Option<u64> },
    Ages { chain: u64 },
}

fn main() -> ExitCode {
    let arguments: Vec<String> =
        env::args_os().skip(1).map(|argument| argument.to_string_lossy().into_owned()).collect();
    let Some(asked) = understand(&arguments) else {
        eprintln!("{USAGE}");
        return ExitCode::from(2);
    };
    match run(asked) {
        Ok(()) => ExitCode::SUCCESS,
        Err(error) => {
            eprintln!("{error}");
            ExitCode::FAILURE
        }
    }
}

fn understand(arguments: &[String]) -> Option<Asked> {
    let Some((word, rest)) = arguments.split_first() else {
        return Some(Asked::Print);
    };
    let mut numbers: Vec<u64> = Vec::new();
    for argument in rest {
        numbers.push(argument.parse().ok()?);
    }
    match (word.as_str(), numbers.as_slice()) {
        ("points", &[writer, reader, n]) => Some(Asked::Points { writer, reader, n }),
        ("listing", &[core]) => Some(Asked::Listing { core, room: None }),
        ("listing", &[core, room]) => Some(Asked::Listing { core, room: Some(room) }),
        ("ages", &[chain]) => Some(Asked::Ages { chain }),
        _ => None,
    }
}

fn run(asked: Asked) -> io::Result<()> {
    let mut image = Vec::new();
    io::stdin().lock().read_to_end(&mut image)?;
    let mut out = BufWriter::new(io::stdout().lock());
    match asked {
        Asked::Print => write!(out, "{}", print(&image))?,
        Asked::Points { writer, reader, n } => match points(&image, writer, reader, n) {
            Ok((publishing, reading)) => writeln!(out, "{publishing} {reading}")?,
            Err(refusal) => writeln!(out, "{refusal}")?,
        },
        Asked::Listing { core, room } => match listing_bytes(&image, core, room) {
            Ok(bytes) => write_hex(&mut out, &bytes)?,
            Err(refusal) => writeln!(out, "{refusal}")?,
        },
        Asked::Ages { chain } => match ages(&image, chain) {
            Ok(ages) => writeln!(out, "{ages}")?,
            Err(refusal) => writeln!(out, "{refusal}")?,
        },
    }
    out.flush()
}

/// Lends a buffer of the room asked for, though never a longer one than the
/// listing needs: what lies past the listing would not be used.
fn listing_bytes(image: &[u8], core: u64, room: Option<u64>) -> Result<Vec<u8>, Refusal> {
    let length = listing_length(image, core)?;
    let lent = room.unwrap_or(length).min(length);
    let mut buffer = vec![0; lent as usize];
    listing(image, core, &mut buffer)?;
    Ok(buffer)
}

fn write_hex(out: &mut impl Write, bytes: &[u8]) -> io::Result<()> {
    for (number, byte) in bytes.iter().enumerate() {
        let gap = if number == 0 { "" } else { " " };
        write!(out, "{gap}{byte:02x}")?;
    }
    writeln!(out)
}

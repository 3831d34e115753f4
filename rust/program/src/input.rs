//! Other ways than a pipe that is filled at once: each gets the text of the bytes that were read, and
//! where a read or a write fails that error.

use std::fs::{File, OpenOptions};
use std::io::{ErrorKind, Read, Result, Write};
use std::os::fd::OwnedFd;
use std::os::unix::net::UnixStream;
use std::process::Stdio;
use std::thread::sleep;
use std::time::Duration;

use independent::print;
use independent::tables::{largest_example, longest_text};

use crate::images::example;
use crate::process::{Did, Program};

/// A way, what the program did and what it has to do.
#[derive(Debug, Clone)]
pub struct Way {
    pub what: String,
    pub did: Did,
    pub expected: Did,
}

/// The program next to the text of the bytes given.
fn way(what: &str, did: Did, bytes: &[u8]) -> Way {
    Way { what: what.to_string(), did, expected: Did::prints(&print(bytes)) }
}

/// The program where a read or a write fails: it prints nothing, says why in a line, and ends with
/// status 1.
fn failed(what: &str, did: Did) -> Way {
    let told = did.complained.starts_with(b"Error: ") && did.complained.ends_with(b"\n");
    let complained = if told { did.complained.clone() } else { b"Error: ..\n".to_vec() };
    let expected = Did { complained, status: Some(1), ..Did::prints("") };
    Way { what: what.to_string(), did, expected }
}

/// The first `single` bytes one by one, each some time after the one before it, and then the rest.
fn slowly(bytes: &[u8], single: usize) -> impl FnOnce(&mut dyn Write) -> Result<()> + Send + '_ {
    move |pipe| {
        let (first, rest) = bytes.split_at(single.min(bytes.len()));
        for byte in first {
            pipe.write_all(&[*byte])?;
            sleep(Duration::from_millis(1));
        }
        rest.chunks(1_000_000).try_for_each(|chunk| {
            sleep(Duration::from_millis(20));
            pipe.write_all(chunk)
        })
    }
}

/// A read that fails after the bytes given: the socket has no more, and nobody waits.
fn failing(program: &Program, bytes: &[u8]) -> Result<Did> {
    let (mut near, far) = UnixStream::pair()?;
    far.set_nonblocking(true)?;
    near.write_all(bytes)?;
    let did = program.with(OwnedFd::from(far).into());
    // Until here it is not the end of the input.
    match near.write_all(&[0]) {
        Err(error) if error.kind() != ErrorKind::BrokenPipe => Err(error),
        _ => did,
    }
}

pub fn ways_in(program: &Program) -> Result<Vec<Way>> {
    let one = example().image();
    let largest = largest_example().image();
    let longer = [largest.clone(), vec![0; 5_000_000]].concat();
    let zeros = vec![0; 5_000_000];
    let mut ways = vec![
        failed("a directory", program.with(File::open("/")?.into())?),
        way("/dev/zero", program.with(File::open("/dev/zero")?.into())?, &zeros),
        way("megabytes", program.of_bytes(&longer)?, &longer),
        way("megabytes slowly", program.fed(slowly(&longer, 600))?, &longer),
        way("the example byte by byte", program.fed(slowly(&one, 16))?, &one),
        way("480 bytes one by one", program.fed(slowly(&largest, 480))?, &largest),
    ];
    let unreadable = OpenOptions::new().write(true).open("/dev/null")?;
    ways.push(failed("a read that fails", program.with(unreadable.into())?));
    for length in [0, 1, 15, 16] {
        ways.push(failed("a read that fails later", failing(program, &one[..length])?));
    }
    ways.push(failed("a later read that fails", failing(program, &largest)?));
    Ok(ways)
}

/// The program with its text taken slowly.
fn slow_reader(program: &Program, bytes: &[u8]) -> Result<Did> {
    let mut child = program.start(Stdio::piped())?;
    child.stdin.take().map(|mut pipe| pipe.write_all(bytes)).transpose()?;
    let mut printed = vec![0];
    if let Some(output) = &mut child.stdout {
        output.read_exact(&mut printed)?;
        sleep(Duration::from_millis(200));
        output.read_to_end(&mut printed)?;
    }
    Ok(Did { printed, ..Did::of(child.wait_with_output()?) })
}

/// The program with its text taken by nobody.
fn no_reader(program: &Program, bytes: &[u8]) -> Result<Did> {
    let mut child = program.start(Stdio::piped())?;
    drop(child.stdout.take());
    child.stdin.take().map(|mut pipe| pipe.write_all(bytes)).transpose()?;
    child.wait_with_output().map(Did::of)
}

/// Where the pipe is closed the program ends by itself, whether the signal of that is ignored or not.
pub fn ways_out(program: &Program) -> Result<Vec<Way>> {
    let longest = longest_text().image();
    let mut ways = vec![way("a slow reader", slow_reader(program, &longest)?, &longest)];
    let words = ["sh", "-c", "trap '' PIPE; exec \"$@\"", "sh"].map(str::to_string);
    let ignoring = Program([&words[..], &program.0].concat());
    for bytes in [&b""[..], &longest] {
        ways.push(failed("a closed pipe", no_reader(program, bytes)?));
        ways.push(failed("a closed pipe, ignored", no_reader(&ignoring, bytes)?));
    }
    Ok(ways)
}

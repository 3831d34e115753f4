//! A program run as a process.

use std::io::{Result, Write};
use std::os::unix::process::ExitStatusExt;
use std::process::{Child, Command, Output, Stdio};
use std::thread;

/// What a program did: all that it printed, and how it ended.
#[derive(Debug, Clone, PartialEq, Eq)]
pub struct Did {
    pub printed: Vec<u8>,
    /// On standard error.
    pub complained: Vec<u8>,
    /// The status, or none where a signal ended it.
    pub status: Option<i32>,
    pub signal: Option<i32>,
}

impl Did {
    /// What a program does that prints a text and nothing else.
    pub fn prints(text: &str) -> Did {
        Did { printed: text.into(), complained: Vec::new(), status: Some(0), signal: None }
    }

    pub fn of(output: Output) -> Did {
        let Output { status, stdout, stderr } = output;
        let (status, signal) = (status.code(), status.signal());
        Did { printed: stdout, complained: stderr, status, signal }
    }
}

/// The words that start the program.
#[derive(Debug, Clone)]
pub struct Program(pub Vec<String>);

impl Program {
    pub fn start(&self, input: Stdio) -> Result<Child> {
        let mut command = Command::new(&self.0[0]);
        command.args(&self.0[1..]).stdin(input);
        command.stdout(Stdio::piped()).stderr(Stdio::piped()).spawn()
    }

    /// With standard input as given.
    pub fn with(&self, input: Stdio) -> Result<Did> {
        self.start(input)?.wait_with_output().map(Did::of)
    }

    /// With a pipe as standard input, which is fed while the program prints. A program that has
    /// read enough leaves the rest.
    pub fn fed(&self, feed: impl FnOnce(&mut dyn Write) -> Result<()> + Send) -> Result<Did> {
        let mut child = self.start(Stdio::piped())?;
        let input = child.stdin.take();
        thread::scope(|scope| {
            scope.spawn(move || input.map(|mut pipe| feed(&mut pipe)));
            child.wait_with_output().map(Did::of)
        })
    }

    pub fn of_bytes(&self, bytes: &[u8]) -> Result<Did> {
        self.fed(|pipe| pipe.write_all(bytes))
    }
}

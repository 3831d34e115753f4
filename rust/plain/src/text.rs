//! The text of an image: document 01, "The printing program".

use std::io::{Result, Write};

use crate::ages::{ages, Ages};
use crate::frames::{measure, walk, Take};
use crate::lines::{Lines, Word, NUMBERS};
use crate::pairs::Pairs;
use crate::points::Group;
use crate::reading::{read, Refusal, Table, NOTHING};

/// The longest listing of a core that is printed, in bytes.
const ROOM: u64 = 65_536;

/// What a text is put into: words and numbers beside the copies of frames.
pub trait Text: Take {
    fn words(&mut self, words: &str);
    fn number(&mut self, number: u32);
}

impl<W: Write> Text for Lines<W> {
    #[inline(always)]
    fn words(&mut self, words: &str) {
        Lines::words(self, words);
    }

    #[inline(always)]
    fn number(&mut self, number: u32) {
        Lines::number(self, number);
    }
}

/// A frame's line begins with the end of the line before it.
impl<W: Write> Take for Lines<W> {
    #[inline(always)]
    fn frame(&mut self, start: u32, _: u32) {
        self.write_much();
        self.words("\n");
        self.number(start);
    }

    #[inline(always)]
    fn write(&mut self, label: u32, _: u32) {
        self.word(Word::of(b" W").then(NUMBERS[label as usize]));
    }

    #[inline(always)]
    fn read(&mut self, label: u32, reader: u32) {
        let label = Word::of(b" R").then(NUMBERS[label as usize]);
        self.word(label.then(Word::of(b":")).then(NUMBERS[reader as usize]));
    }
}

/// The pairs of a core and how many of them are for publishing, and the frames of it.
struct Core {
    groups: Vec<Group>,
    publishing: usize,
    frames: u32,
}

/// All cores measured. None is too long.
fn cores(table: &Table) -> std::result::Result<Vec<Core>, Refusal> {
    let mut cores = Vec::with_capacity(table.cores);
    for core in 0..table.cores as u32 {
        let pairs = Pairs::new(table, core);
        let (publishing, reading) = pairs.groups();
        let mut groups = vec![Group::EMPTY; publishing + reading];
        let (writers, readers) = groups.split_at_mut(publishing);
        pairs.gather(writers, readers);
        let (frames, bytes) = measure(table.hyperperiod, writers, readers);
        if bytes > ROOM {
            return Err((11, 0));
        }
        cores.push(Core { groups, publishing, frames });
    }
    Ok(cores)
}

fn put_accepted(image: &[u8], lines: &mut impl Text) -> std::result::Result<(), Refusal> {
    let mut table = NOTHING;
    read(image, &mut table)?;
    let mut cores = cores(&table)?;
    lines.words("hyperperiod ");
    lines.number(table.hyperperiod);
    for (number, Core { groups, publishing, frames }) in cores.iter_mut().enumerate() {
        lines.words("\ncore ");
        lines.number(number as u32);
        let (writers, readers) = groups.split_at_mut(*publishing);
        walk(&table, *frames, writers, readers, lines);
    }
    for chain in 0..table.chains {
        let Ages { paths, longest, worst, best, jitter } = ages(image, chain as u64)?;
        let numbers = [chain as u32, paths, longest, worst, best, jitter];
        let words = ["\nchain ", " paths ", " long ", " worst ", " best ", " jitter "];
        for (words, number) in words.into_iter().zip(numbers) {
            lines.words(words);
            lines.number(number);
        }
    }
    Ok(())
}

/// The text of an image.
pub fn put(image: &[u8], lines: &mut impl Text) {
    if let Err((number, place)) = put_accepted(image, lines) {
        lines.words("refused ");
        lines.number(number);
        lines.words(" ");
        lines.number(place as u32);
    }
    lines.words("\n");
}

/// Prints the text of an image.
pub fn print(image: &[u8], out: impl Write) -> Result<()> {
    let mut lines = Lines::new(out);
    put(image, &mut lines);
    lines.end()
}

//! Programs whose listings have one fault each in their frames, copies or fields.

use std::cmp::Reverse;

use independent::{read, Label, Table};

use crate::faulty::{program, Program};
use crate::listed::{at_or_after, at_or_before, by_rule, releases, Frame, Listed, Rule};
use crate::question::Question;
use crate::said::Said;

/// The fields of a listing are altered.
fn fields(fault: &str, alter: impl Fn(&mut Listed) + 'static) -> Program {
    program(fault, move |_, question, proved| {
        let Some(listing) = proved.listing(question) else {
            return proved.clone();
        };
        let mut listed = Listed::of(listing);
        alter(&mut listed);
        Said::listed(question, &listed.bytes())
    })
}

/// The frames of a listing are altered, and counted after that.
fn frames(fault: &str, alter: impl Fn(&mut Vec<Frame>) + 'static) -> Program {
    fields(fault, move |listed| {
        alter(&mut listed.frames);
        listed.recount();
    })
}

/// The copies of each frame are altered, and counted after that.
fn copies(fault: &str, alter: impl Fn(&mut Vec<u64>) + 'static) -> Program {
    frames(fault, move |frames| frames.iter_mut().for_each(|frame| alter(&mut frame.copies)))
}

/// Listings are those of another rule.
fn ruled(fault: &str, rule: Rule) -> Program {
    program(fault, move |image, question, proved| match question {
        Question::Listing { core, .. } if proved.number == 0 => {
            let table = read(image).expect("the image is accepted");
            Said::listed(question, &by_rule(&table, core, &rule).bytes())
        }
        _ => proved.clone(),
    })
}

/// Of a copy in 12 bits.
fn is_read(copy: u64) -> bool {
    copy >> 11 == 1
}

fn label(copy: u64) -> u64 {
    copy >> 5 & 63
}

pub fn faulty_frames() -> Vec<Program> {
    vec![
        frames("a frame missing", |frames| _ = frames.pop()),
        frames("instant 0 left out", |frames| frames.retain(|frame| frame.start > 0)),
        frames("an instant without a copy", |frames| {
            let start = frames.last().map_or(0, |frame| frame.start + 1);
            frames.push(Frame { start, count: 0, copies: Vec::new() });
        }),
        frames("each frame a tick later", |frames| {
            frames.iter_mut().for_each(|frame| frame.start += 1);
        }),
        frames("frames by falling time", |frames| frames.reverse()),
        copies("reads before writes", |copies| copies.sort_by_key(|&copy| !is_read(copy))),
        copies("labels by falling number", |copies| {
            copies.sort_by_key(|&copy| (is_read(copy), Reverse(label(copy))));
        }),
        copies("readers by falling number", |copies| {
            copies.sort_by_key(|&copy| (is_read(copy), label(copy), Reverse(copy)));
        }),
        copies("readers first, then labels", |copies| {
            copies.sort_by_key(|&copy| (is_read(copy), copy & 31, copy));
        }),
        copies("a copy too many", |copies| copies.extend(copies.last().copied())),
        copies("a copy missing", |copies| _ = copies.pop()),
        copies("reads listed as writes", |copies| {
            copies.iter_mut().for_each(|copy| *copy &= 0x7ff);
        }),
        fields("an invented frame count", |listed| listed.count += 1),
        fields("a copy count of 11 bits", |listed| {
            listed.frames.iter_mut().for_each(|frame| frame.count %= 1 << 11);
        }),
        fields("core 0 in every head", |listed| listed.core = 0),
        ruled(
            "full copying",
            Rule {
                writes: |table, label| releases(table, label.writer),
                reads: |table, _, reader| releases(table, reader),
            },
        ),
        ruled(
            "reading points by the floor",
            Rule {
                writes: for_all_readers,
                reads: |table, label, reader| at_or_before(table, reader, label.writer),
            },
        ),
        ruled(
            "published for one reader only",
            Rule {
                writes: |table, label| {
                    let first = label.readers.first();
                    first.map_or(Vec::new(), |&reader| at_or_before(table, label.writer, reader))
                },
                reads: |table, label, reader| at_or_after(table, reader, label.writer),
            },
        ),
    ]
}

/// The publishing points of a label's writer with each of its readers.
fn for_all_readers(table: &Table, label: &Label) -> Vec<u64> {
    let points = |&reader: &usize| at_or_before(table, label.writer, reader);
    label.readers.iter().flat_map(points).collect()
}

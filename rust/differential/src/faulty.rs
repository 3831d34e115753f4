//! Programs that are the proved code but for one fault each.

use crate::faulty_ages::faulty_ages;
use crate::faulty_frames::faulty_frames;
use crate::faulty_listings::faulty_listings;
use crate::question::Question;
use crate::said::{by_proved_code, Said};
use crate::tally::Tally;

/// What a program says to a question about an image, from what the proved code says to it.
type Says = Box<dyn Fn(&[u8], Question, &Said) -> Said>;

pub struct Program {
    pub fault: String,
    pub says: Says,
    pub tally: Tally,
}

pub fn program(fault: &str, says: impl Fn(&[u8], Question, &Said) -> Said + 'static) -> Program {
    Program { fault: fault.to_string(), says: Box::new(says), tally: Tally::default() }
}

/// An image's number and place are altered.
fn read(fault: &str, alter: impl Fn(u32, u64, &[u8]) -> (u32, u64) + 'static) -> Program {
    program(fault, move |image, question, proved| {
        if question != Question::Read {
            return proved.clone();
        }
        let (number, place) = alter(proved.number, proved.place, image);
        Said { number, place, ..proved.clone() }
    })
}

/// One number, where an image gets it, is altered together with its place.
fn number(one: u32, fault: &str, alter: impl Fn(u64) -> (u32, u64) + 'static) -> Program {
    read(
        &format!("{one}: {fault}"),
        move |number, place, _| {
            if number == one {
                alter(place)
            } else {
                (number, place)
            }
        },
    )
}

/// An accepted image is refused where its table is as large as it may be.
fn limit(fault: &str, reached: impl Fn(&[u8]) -> bool + 'static) -> Program {
    read(
        fault,
        move |number, place, image| {
            if number == 0 && reached(image) {
                (10, 0)
            } else {
                (number, place)
            }
        },
    )
}

/// Points are altered.
fn points(fault: &str, alter: impl Fn(u64, u64) -> (u64, u64) + 'static) -> Program {
    program(fault, move |_, _, proved| {
        let [publishing, reading] = proved.values[..] else {
            return proved.clone();
        };
        let (publishing, reading) = alter(publishing, reading);
        Said::answered(&[publishing, reading])
    })
}

/// Points are those of other tasks or of another n than asked.
fn asked(fault: &str, ask: impl Fn(u64, u64, u64) -> [u64; 3] + 'static) -> Program {
    program(fault, move |image, question, proved| {
        let Question::Points { writer, reader, n } = question else {
            return proved.clone();
        };
        let [writer, reader, n] = ask(writer, reader, n);
        by_proved_code(image, Question::Points { writer, reader, n })
    })
}

pub fn faulty() -> Vec<Program> {
    let mut programs = vec![
        read("accepts every image", |_, _, _| (0, 0)),
        read("refuses every image", |_, _, _| (1, 0)),
        read("the place of the byte", |number, place, _| (number, place / 8 * 8)),
        read("a place of 11 bits", |number, place, _| (number, place % 2_048)),
        read("1 at the end of the image", |number, place, image| match number {
            1 => (1, 8 * image.len() as u64),
            _ => (number, place),
        }),
        limit("H below 1,000,000", |image| {
            independent::read(image).is_ok_and(|table| table.hyperperiod == 1_000_000)
        }),
        limit("fewer than 64 labels", |image| {
            independent::read(image).is_ok_and(|table| table.labels.len() == 64)
        }),
        limit("fewer than 480 bytes", |image| image.len() == 480),
        points("the points exchanged", |publishing, reading| (reading, publishing)),
        points("P for Q", |publishing, _| (publishing, publishing)),
        points("Q for P", |_, reading| (reading, reading)),
        points("Q of 32 bits", |publishing, reading| (publishing, reading % (1 << 32))),
        asked("the pair exchanged", |writer, reader, n| [reader, writer, n]),
        asked("n at its limit", |writer, reader, n| [writer, reader, n.min(1_000_000)]),
        asked("n of 32 bits", |writer, reader, n| [writer, reader, n % (1 << 32)]),
        asked("a writer of 32 bits", |writer, reader, n| [writer % (1 << 32), reader, n]),
        asked("task 31 for a later one", |writer, reader, n| [writer, reader.min(31), n]),
    ];
    for one in 1..=10 {
        programs.push(number(one, "the next number", move |place| (one + 1, place)));
        programs.push(number(one, "the next place", move |place| (one, place + 1)));
        programs.push(number(one, "accepted", |_| (0, 0)));
    }
    programs.extend(faulty_listings());
    programs.extend(faulty_frames());
    programs.extend(faulty_ages());
    programs
}

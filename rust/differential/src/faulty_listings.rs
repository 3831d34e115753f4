//! Programs that list the right frames, with one fault each in what they say or in which bytes of the
//! buffer they write.

use independent::listing_length;

use crate::faulty::{program, Program};
use crate::listed::Listed;
use crate::question::Question;
use crate::said::{by_proved_code, Said};

/// What is said where a listing was asked for is altered, by the core and the room.
fn said(fault: &str, alter: impl Fn(&mut Said, &[u8], u64, usize) + 'static) -> Program {
    program(fault, move |image, question, proved| {
        let mut said = proved.clone();
        if let Question::Listing { core, room } = question {
            alter(&mut said, image, core, room);
        }
        said
    })
}

/// The buffer is altered where a listing was answered; what it held is at hand.
fn lent(fault: &str, alter: impl Fn(&mut [u8], usize, &[u8]) + 'static) -> Program {
    said(fault, move |said, _, core, room| {
        if let &[bytes] = &said.values[..] {
            let held = Question::Listing { core, room }.lent();
            alter(&mut said.lent, bytes as usize, &held);
        }
    })
}

pub fn faulty_listings() -> Vec<Program> {
    vec![
        program("one listing for all", |_, question, proved| match proved.listing(question) {
            Some(_) => Said::listed(question, &[0, 0, 0x14, 0, 0, 0]),
            None => proved.clone(),
        }),
        lent("no byte written", |lent, _, held| lent.copy_from_slice(held)),
        lent("the first frame alone, the rest blank", |lent, bytes, _| {
            let listed = Listed::of(&lent[..bytes]);
            let bits = listed.frames.first().map_or(43, |frame| 43 + 32 + 12 * frame.count);
            let first = bits.div_ceil(8) as usize;
            lent[first..bytes].fill(0);
        }),
        lent("the fill as it was", |lent, bytes, held| {
            let fill = (1 << Listed::of(&lent[..bytes]).fill()) - 1;
            lent[bytes - 1] |= held[bytes - 1] & fill as u8;
        }),
        lent("a byte past the listing", |lent, bytes, _| {
            if let Some(byte) = lent.get_mut(bytes) {
                *byte = 0;
            }
        }),
        lent("an H of 19 bits", |lent, _, _| lent[0] &= 0xef),
        lent("a frame count of 19 bits", |lent, _, _| lent[2] &= 0xfe),
        said("bytes written on 11", |said, _, core, _| {
            if let (11, Some(byte)) = (said.number, said.lent.first_mut()) {
                *byte = (core << 5) as u8;
            }
        }),
        said("bytes written on 12", |said, _, _, _| {
            if said.number == 12 {
                said.lent.fill(0);
            }
        }),
        said("bytes written on a refused image", |said, _, _, _| {
            if (1..=10).contains(&said.number) {
                said.lent.fill(0);
            }
        }),
        said("11 one byte too late", |said, image, core, room| {
            if said.number == 11 {
                *said = by_proved_code(image, Question::Listing { core, room: room + 1 });
                said.lent.truncate(room);
            }
        }),
        said("11 one byte too early", |said, _, core, room| {
            if said.values == [room as u64] {
                *said = Said::refused(Question::Listing { core, room }, 11, 0);
            }
        }),
        said("11 before 12", |said, _, _, room| {
            said.number = if said.number == 12 && room < 6 { 11 } else { said.number };
        }),
        said("11 for 12", |said, _, _, _| {
            said.number = if said.number == 12 { 11 } else { said.number };
        }),
        said("12 for 11", |said, _, _, _| {
            said.number = if said.number == 11 { 12 } else { said.number };
        }),
        said("core 0 for one that is not there", |said, image, _, room| {
            if said.number == 12 {
                *said = by_proved_code(image, Question::Listing { core: 0, room });
            }
        }),
        said("a core of 32 bits", |said, image, core, room| {
            let core = core % (1 << 32);
            *said = by_proved_code(image, Question::Listing { core, room });
        }),
        said("bits counted in 32 bits", |said, image, core, room| {
            if said.number == 11 {
                let length = listing_length(image, core).expect("the core is there");
                let counted = (8 * length) as u32 / 8;
                if counted as usize <= room {
                    said.number = 0;
                    said.values = vec![u64::from(counted)];
                }
            }
        }),
    ]
}

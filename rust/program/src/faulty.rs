//! Programs that are the printing program but for one fault each: the images that speak for it have
//! to speak against every one of these.

use crate::process::Did;

pub struct Faulty {
    pub fault: String,
    alter: Box<dyn Fn(&Did) -> Did + Sync + Send>,
}

impl Faulty {
    fn new(fault: &str, alter: impl Fn(&mut Did) + Sync + Send + 'static) -> Faulty {
        let altered = move |did: &Did| {
            let mut did = did.clone();
            alter(&mut did);
            did
        };
        Faulty { fault: fault.to_string(), alter: Box::new(altered) }
    }

    /// The text is altered, as bytes: texts are long.
    fn text(fault: &str, alter: impl Fn(&mut Vec<u8>) + Sync + Send + 'static) -> Faulty {
        Faulty::new(fault, move |did| alter(&mut did.printed))
    }

    /// What it does where the printing program did this.
    pub fn does(&self, did: &Did) -> Did {
        (self.alter)(did)
    }
}

/// The last line is left out.
fn without_last_line(text: &mut Vec<u8>) {
    text.pop();
    let end = text.iter().rposition(|&byte| byte == b'\n').map_or(0, |place| place + 1);
    text.truncate(end);
}

/// The first place of some bytes is given others.
fn replace(text: &mut Vec<u8>, from: &[u8], to: &[u8]) {
    if let Some(place) = text.windows(from.len()).position(|window| window == from) {
        text.splice(place..place + from.len(), to.iter().copied());
    }
}

pub fn faulty() -> Vec<Faulty> {
    let mut programs = vec![
        Faulty::text("prints nothing", Vec::clear),
        Faulty::text("prints twice", |text| text.extend_from_within(..)),
        Faulty::text("no last line", without_last_line),
        Faulty::text("no end of the last line", |text| _ = text.pop()),
        Faulty::text("a further byte", |text| text.push(0)),
        Faulty::text("as much as a pipe holds", |text| text.truncate(65_536)),
        Faulty::text("all but the last bytes of 2,000,000", |text| text.truncate(2_000_000)),
        Faulty::text("a line before", |text| replace(text, b"refused", b"hyperperiod 1\nrefused")),
        Faulty::text("a core without frames left out", |text| {
            replace(text, b"core 1\ncore 2\n", b"core 2\n");
        }),
        Faulty::text("the reader left out", |text| replace(text, b":31\n", b"\n")),
        Faulty::text("the last label", |text| replace(text, b" W63", b" W62")),
        Faulty::text("the last chain", |text| replace(text, b"chain 15 ", b"chain 14 ")),
        Faulty::text("instant 0 left out", |text| replace(text, b"core 0\n0 ", b"core 0\n1 ")),
        Faulty::new("a status", |did| did.status = Some(1)),
        Faulty::new("a complaint", |did| did.complained.push(b'!')),
    ];
    for number in 1..=11 {
        let (said, other) = (format!("refused {number} "), format!("refused {} ", number + 1));
        let fault = format!("{number}: the next number");
        let alter = move |text: &mut Vec<u8>| {
            if text.starts_with(said.as_bytes()) {
                replace(text, said.as_bytes(), other.as_bytes());
            }
        };
        programs.push(Faulty::text(&fault, alter));
    }
    programs
}

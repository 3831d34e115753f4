//! The lines that the program prints.

use std::fmt::{Error, Write};

use crate::kind::Kind;
use crate::question::Question;
use crate::said::Said;
use crate::tally::{Difference, Tally};

pub fn report(tally: &Tally) -> Result<String, Error> {
    let mut text = String::new();
    for kind in Kind::ALL {
        writeln!(text, "{:>10} {}", tally.kinds[kind as usize], kind.words())?;
    }
    for word in Question::WORDS {
        write!(text, "{word:>10} ")?;
    }
    writeln!(text)?;
    for number in 0..tally.numbers[0].len() {
        for said in &tally.numbers {
            write!(text, "{:>10} ", said[number])?;
        }
        let words = if number == 0 { "answered".into() } else { format!("refused {number}") };
        writeln!(text, "{words}")?;
    }
    writeln!(text, "{:>10} different lengths of accepted images", tally.lengths.len())?;
    writeln!(text, "{:>10} cores listed", tally.cores)?;
    for what in tally.missing() {
        writeln!(text, "did not occur: {what}")?;
    }
    for what in tally.impossible() {
        writeln!(text, "occurred and cannot: {what}")?;
    }
    for difference in &tally.differences {
        write!(text, "{}", shown(difference)?)?;
    }
    writeln!(text, "{:>10} images in all", tally.images())?;
    writeln!(text, "{:>10} differences", tally.differing)?;
    Ok(text)
}

fn shown(difference: &Difference) -> Result<String, Error> {
    let Difference { kind, image, question, asked, expected } = difference;
    let mut text = String::new();
    writeln!(text, "{}, {} bytes: {}", kind.words(), image.len(), hex(image))?;
    writeln!(text, "    asked {question:?}: said {}, expected {}", words(asked), words(expected))?;
    let mut bytes = asked.lent.iter().zip(&expected.lent);
    if let Some(from) = bytes.position(|(said, expected)| said != expected) {
        let [said, expected] = [asked, expected].map(|said| {
            let some = from..said.lent.len().min(from + 16);
            hex(&said.lent[some])
        });
        writeln!(text, "    the buffer from byte {from}: said {said}, expected {expected}")?;
    }
    Ok(text)
}

/// All but the buffer.
fn words(said: &Said) -> String {
    format!("number {}, place {}, values {:?}", said.number, said.place, said.values)
}

fn hex(bytes: &[u8]) -> String {
    let bytes: Vec<String> = bytes.iter().map(|byte| format!("{byte:02x}")).collect();
    bytes.join(" ")
}

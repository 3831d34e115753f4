//! The comparison: all images, as many at a time as the machine has processors.

use std::collections::BTreeMap;
use std::io::Result;
use std::sync::atomic::{AtomicUsize, Ordering};
use std::sync::Mutex;
use std::thread;

use independent::print;

use crate::faulty::{faulty, Faulty};
use crate::images::Image;
use crate::process::{Did, Program};

#[derive(Default)]
pub struct Comparison {
    /// How many images of each kind, and how many texts begin with the same word: with the number,
    /// where it is a refusal.
    pub kinds: BTreeMap<&'static str, u64>,
    pub beginnings: BTreeMap<String, u64>,
    pub longest: usize,
    /// The first few in words.
    pub differences: Vec<String>,
    pub differing: u64,
    /// The faulty programs that were not found out yet.
    pub left: Vec<Faulty>,
}

const SHOWN: usize = 5;

/// The first difference in words.
pub fn difference(did: &Did, expected: &Did) -> String {
    let mut both = did.printed.iter().zip(&expected.printed);
    let lengths = [did.printed.len(), expected.printed.len()];
    let from = both.position(|(one, other)| one != other);
    let from = from.unwrap_or(lengths[0].min(lengths[1]));
    let [one, other] = [did, expected].map(|did| {
        let some = &did.printed[from..did.printed.len().min(from + 60)];
        let complaint = String::from_utf8_lossy(&did.complained);
        let text = String::from_utf8_lossy(some);
        format!("{text:?}, status {:?}, signal {:?} {complaint:?}", did.status, did.signal)
    });
    let [length, expected] = lengths;
    format!("{length} bytes, expected {expected}; from byte {from}:\n    {one}\n    {other}")
}

impl Comparison {
    fn take(&mut self, image: &Image, did: &Did, expected: &Did) {
        *self.kinds.entry(image.kind).or_default() += 1;
        let text = String::from_utf8_lossy(&expected.printed);
        let words = if text.starts_with("refused") { 2 } else { 1 };
        let beginning: Vec<&str> = text.split_whitespace().take(words).collect();
        *self.beginnings.entry(beginning.join(" ")).or_default() += 1;
        self.longest = self.longest.max(text.len());
        self.left.retain(|program| program.does(did) == *expected);
        if did != expected {
            self.differing += 1;
            if self.differences.len() < SHOWN {
                let hex: Vec<String> = image.bytes.iter().map(|b| format!("{b:02x}")).collect();
                let what = difference(did, expected);
                self.differences.push(format!("{}, {}: {what}", image.kind, hex.join(" ")));
            }
        }
    }

    pub fn images(&self) -> u64 {
        self.kinds.values().sum()
    }

    /// What should have occurred and did not.
    pub fn missing(&self) -> Vec<String> {
        let refusals = (1..=11).map(|number| format!("refused {number}"));
        let all = refusals.chain(["hyperperiod".to_string()]);
        all.filter(|beginning| !self.beginnings.contains_key(beginning)).collect()
    }

    pub fn passed(&self) -> bool {
        self.differing == 0 && self.missing().is_empty() && self.left.is_empty()
    }
}

/// Gives every image to the program and to the independent one.
pub fn compare(program: &Program, images: &[Image]) -> Result<Comparison> {
    let comparison = Mutex::new(Comparison { left: faulty(), ..Comparison::default() });
    let next = AtomicUsize::new(0);
    let work = || -> Result<()> {
        while let Some(image) = images.get(next.fetch_add(1, Ordering::Relaxed)) {
            let did = program.of_bytes(&image.bytes)?;
            let expected = Did::prints(&print(&image.bytes));
            comparison.lock().expect("no other one failed").take(image, &did, &expected);
        }
        Ok(())
    };
    let count = thread::available_parallelism().map_or(1, usize::from);
    thread::scope(|scope| {
        let workers: Vec<_> = (0..count).map(|_| scope.spawn(work)).collect();
        workers.into_iter().try_for_each(|worker| worker.join().expect("it does not fail"))
    })?;
    Ok(comparison.into_inner().expect("none failed"))
}

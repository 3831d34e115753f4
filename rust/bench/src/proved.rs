//! The proved code's answers in the plain programs' form.

use plain::ages::Ages;
use plain::reading::Refusal;

fn refused(refusal: liskobran::Refusal) -> Refusal {
    (refusal.number, refusal.place)
}

pub fn read(image: &[u8]) -> Result<(), Refusal> {
    liskobran::read(image).map_err(refused)
}

pub type Listing = fn(&[u8], u64, &mut [u8]) -> Result<u64, Refusal>;

pub fn listing(image: &[u8], core: u64, buffer: &mut [u8]) -> Result<u64, Refusal> {
    liskobran::listing(image, core, buffer).map(|listing| listing.len() as u64).map_err(refused)
}

pub type AgesOf = fn(&[u8], u64) -> Result<Ages, Refusal>;

pub fn ages(image: &[u8], chain: u64) -> Result<Ages, Refusal> {
    let liskobran::Ages { paths, longest, worst, best, jitter } =
        liskobran::ages(image, chain).map_err(refused)?;
    Ok(Ages { paths, longest, worst, best, jitter })
}

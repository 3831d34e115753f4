//! Which ages are asked for: of an accepted image those of every chain, and of chains that it does not
//! have; of a refused one some chain's.

use independent::hyperperiod::hyperperiod;
use independent::{Refusal, Table};

use crate::share::Share;

/// The chains that an image is asked for.
pub fn chains(share: &mut Share, read: Result<&Table, Refusal>) -> Vec<u64> {
    let Ok(table) = read else {
        return vec![0];
    };
    let count = table.chains.len() as u64;
    if share.affords(work(table)) {
        (0..=count).chain([1 << 32]).collect()
    } else {
        vec![count]
    }
}

/// About how long the independent program takes for all chains, in releases, each of which costs as
/// much as the chain is long.
fn work(table: &Table) -> u64 {
    let of_chain = |chain: &Vec<usize>| {
        let periods = table.periods_along(chain);
        let round = hyperperiod(periods.iter().copied()).unwrap_or(table.hyperperiod);
        let releases: u64 = periods.iter().map(|period| round / period).sum();
        releases * periods.len() as u64
    };
    table.chains.iter().map(of_chain).sum()
}

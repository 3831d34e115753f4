//! Document 01, "Table image": the hyperperiod is the least common multiple of
//! the periods, at most 1,000,000. It is found among the multiples themselves,
//! without a greatest common divisor.

/// The largest period, the largest hyperperiod and the largest n that may be asked.
pub const MOST: u64 = 1_000_000;

/// The least common multiple of periods from 1 to 1,000,000; none if it exceeds
/// 1,000,000. What is common to the first few periods never exceeds what is
/// common to all, so the walk may stop as soon as it passes 1,000,000.
pub fn hyperperiod(periods: impl IntoIterator<Item = u64>) -> Option<u64> {
    let mut common = 1;
    for period in periods {
        common = first_shared_multiple(common, period)?;
    }
    Some(common)
}

/// Walks the multiples of the larger number until one is a multiple of the smaller.
/// No multiple walked exceeds 2,000,000, so nothing overflows.
fn first_shared_multiple(one: u64, other: u64) -> Option<u64> {
    let larger = one.max(other);
    let smaller = one.min(other);
    let mut multiple = larger;
    while multiple <= MOST {
        if multiple % smaller == 0 {
            return Some(multiple);
        }
        multiple += larger;
    }
    None
}

//! What did not occur in a run is named.

#![forbid(unsafe_code)]

use differential::tally::Tally;

#[test]
fn what_is_missing_is_named() {
    let missing = Tally::default().missing();
    assert!(missing.contains(&"valid tables".to_string()));
    assert!(missing.contains(&"points: number 13".to_string()));
    assert!(missing.contains(&"listing: number 11".to_string()));
    assert!(missing.contains(&"ages: number 12".to_string()));
    let lengths = missing.last().unwrap();
    assert!(lengths.starts_with("accepted images of 7, 9, 11, 12, 14, 15, "));
    assert!(lengths.ends_with(", 479, 480 bytes"));
}

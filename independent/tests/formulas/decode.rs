//! Document 01, "Copies and frames", the passage "A listing": turns the bytes of a
//! listing back into the printed lines of its core, by way of a text of ones and zeros.

/// The text of a core, and the hyperperiod that its listing gives.
pub fn core_text(listing: &[u8]) -> (String, u64) {
    let bits: String = listing.iter().map(|byte| format!("{byte:08b}")).collect();
    let mut rest = bits.as_str();
    let mut take = |width: usize| -> u64 {
        let (field, after) = rest.split_at(width);
        rest = after;
        u64::from_str_radix(field, 2).unwrap()
    };
    let mut text = format!("core {}\n", take(3));
    let hyperperiod = take(20);
    for _ in 0..take(20) {
        text += &take(20).to_string();
        for _ in 0..take(12) {
            let (kind, label, task) = (take(1), take(6), take(5));
            text += &match kind {
                0 => format!(" W{label}"),
                _ => format!(" R{label}:{task}"),
            };
        }
        text += "\n";
    }
    assert!(rest.len() < 8 && !rest.contains('1'), "zero bits fill the last byte");
    (text, hyperperiod)
}

//! Document 01, "Numbers to test against", of images, points, listings and ages, through the
//! wrapper.

#![forbid(unsafe_code)]

use liskobran::{ages, listing, points, read, Ages, Points, Refusal};

const EXAMPLE: [u8; 16] = [
    0x12, 0x08, 0x08, 0x40, 0x00, 0x01, 0x10, 0x00, 0x05, 0x02, 0x00, 0x00, 0x00, 0x01, 0x00, 0x20,
];

fn refused<T>(number: u32, place: u64) -> Result<T, Refusal> {
    Err(Refusal { number, place })
}

/// Bits as bytes, the last one filled with zero bits.
fn packed(mut bits: String) -> Vec<u8> {
    bits += &"0".repeat(bits.len().next_multiple_of(8) - bits.len());
    let byte = |at| u8::from_str_radix(&bits[at..at + 8], 2).unwrap();
    (0..bits.len()).step_by(8).map(byte).collect()
}

/// The head of a table with one core and no chain.
fn head(tasks: usize, labels: usize) -> String {
    format!("00010001{tasks:06b}{labels:07b}00000")
}

/// One core, and tasks with the periods given.
fn of_periods(periods: &[u32]) -> Vec<u8> {
    let tasks: String = periods.iter().map(|period| format!("000{period:020b}")).collect();
    packed(head(periods.len(), 0) + &tasks)
}

/// One task, and labels that it writes and no task reads.
fn of_labels(labels: usize) -> Vec<u8> {
    packed(head(1, labels) + &format!("000{:020b}", 1) + &"0".repeat(37 * labels))
}

#[test]
fn the_example() {
    assert_eq!(read(&EXAMPLE), Ok(()));
    assert_eq!(read(&[]), refused(1, 0));
    let mut filled = EXAMPLE;
    filled[15] = 0x21;
    assert_eq!(read(&filled), refused(9, 127));
    assert_eq!(read(&[&EXAMPLE[..], &[0]].concat()), refused(9, 128));
}

#[test]
fn periods() {
    assert_eq!(read(&of_periods(&[999, 1001])), Ok(()));
    assert_eq!(read(&of_periods(&[1000, 1001])), refused(10, 0));
    assert_eq!(read(&of_periods(&[1_000_000])), Ok(()));
    assert_eq!(read(&of_periods(&[1_000_001])), refused(5, 29));
}

#[test]
fn labels() {
    assert_eq!(read(&of_labels(64)), Ok(()));
    assert_eq!(read(&of_labels(65)), refused(3, 14));
}

/// Two tasks with the periods given, and a label from the first to the second.
fn of_pair(writer: u32, reader: u32) -> Vec<u8> {
    packed(head(2, 1) + &format!("000{writer:020b}000{reader:020b}00000{:032b}", 1 << 30))
}

#[test]
fn the_points_of_a_pair() {
    for (writer, reader, n, publishing, reading) in
        [(2, 5, 1, 4, 5), (2, 5, 2, 10, 10), (5, 2, 1, 5, 6), (3, 3, 4, 12, 12)]
    {
        let expected = Points { publishing, reading };
        assert_eq!(points(&of_pair(writer, reader), 0, 1, n), Ok(expected));
    }
    assert_eq!(points(&EXAMPLE, 1, 0, 1), refused(13, 0));
    assert_eq!(points(&EXAMPLE, 0, 2, 1), refused(12, 0));
    assert_eq!(points(&EXAMPLE, 2, 1, 1), refused(12, 0));
    assert_eq!(points(&EXAMPLE, 0, 1, 1_000_001), refused(12, 0));
    assert_eq!(points(&EXAMPLE[..15], 0, 1, 1), refused(1, 118));
}

/// The listings of the example's cores: W0 at 0 and 4; R0:1 at 0 and 5.
const LISTINGS: [[u8; 17]; 2] = [
    [0x00, 0x00, 0x14, 0x00, 0x00, 0x40, 0, 0, 0, 0x20, 0x00, 0, 0, 0x80, 0x02, 0x00, 0x00],
    [0x20, 0x00, 0x14, 0x00, 0x00, 0x40, 0, 0, 0, 0x30, 0x02, 0, 0, 0xa0, 0x03, 0x00, 0x20],
];

#[test]
fn the_listings_of_the_example() {
    for (core, expected) in (0..).zip(LISTINGS) {
        assert_eq!(listing(&EXAMPLE, core, &mut [0xff; 17]), Ok(&expected[..]));
        let mut lent = [0xff; 20];
        assert_eq!(listing(&EXAMPLE, core, &mut lent), Ok(&expected[..]));
        assert_eq!(lent[17..], [0xff; 3]);
    }
}

/// Each refusal leaves the buffer as it was.
#[test]
fn listings_refused() {
    let mut lent = [0xff; 20];
    for (core, room, number) in [(0, 16, 11), (1, 0, 11), (2, 20, 12), (1 << 32, 0, 12)] {
        assert_eq!(listing(&EXAMPLE, core, &mut lent[..room]), refused(number, 0));
    }
    assert_eq!(listing(&EXAMPLE[..15], 0, &mut lent), refused(1, 118));
    assert_eq!(listing(&[], 0, &mut []), refused(1, 0));
    assert_eq!(lent, [0xff; 20]);
}

/// A table in which core 1 has no frame.
#[test]
fn a_core_without_frames() {
    let image = packed(format!("00010010{:06b}{:07b}00000000{:020b}", 1, 0, 10));
    assert_eq!(listing(&image, 1, &mut [0xff; 6]), Ok(&[0x20, 0x00, 0x14, 0, 0, 0][..]));
    assert_eq!(listing(&image, 1, &mut [0xff; 5]), refused(11, 0));
}

/// One chain of tasks with the periods given, and a label for each of its steps.
fn of_chain(periods: &[u32]) -> Vec<u8> {
    let count = periods.len();
    let mut bits = format!("00010001{count:06b}{:07b}00001", count - 1);
    bits.extend(periods.iter().map(|period| format!("000{period:020b}")));
    bits.extend((1..count).map(|task| format!("{:05b}{:032b}", task - 1, 1u32 << (31 - task))));
    bits += &format!("{count:04b}");
    bits.extend((0..count).map(|task| format!("{task:05b}")));
    packed(bits)
}

#[test]
fn the_ages_of_a_chain() {
    for (image, [paths, longest, worst, best, jitter]) in [
        (EXAMPLE.to_vec(), [2, 1, 13, 12, 1]),
        (of_chain(&[3, 7, 3]), [3, 9, 24, 21, 3]),
        (of_chain(&[5, 10, 20]), [1, 10, 55, 55, 0]),
        (of_chain(&[5, 2]), [2, 1, 13, 12, 1]),
    ] {
        assert_eq!(ages(&image, 0), Ok(Ages { paths, longest, worst, best, jitter }));
        assert_eq!(ages(&image, 1), refused(12, 0));
        assert_eq!(ages(&image, 1 << 32), refused(12, 0));
    }
    assert_eq!(ages(&EXAMPLE[..15], 0), refused(1, 118));
    assert_eq!(ages(&[], 0), refused(1, 0));
}

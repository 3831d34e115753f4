//! Document 01, "Numbers to test against", each number, starred or not, and the
//! text of "The printing program".

use independent::ages::end_of;
use independent::make::Description;
use independent::{ages, listing, points, print, read, Ages, Refusal};

const EXAMPLE: [u8; 16] = [
    0x12, 0x08, 0x08, 0x40, 0x00, 0x01, 0x10, 0x00, 0x05, 0x02, 0x00, 0x00, 0x00, 0x01, 0x00, 0x20,
];

fn points_of(writer_period: u64, reader_period: u64, n: u64) -> (u64, u64) {
    let image = Description::of_chain(&[writer_period, reader_period]).image();
    points(&image, 0, 1, n).unwrap()
}

fn ages_of(periods: &[u64]) -> Ages {
    ages(&Description::of_chain(periods).image(), 0).unwrap()
}

fn refused<T>(number: u32, place: u64) -> Result<T, Refusal> {
    Err(Refusal { number, place })
}

#[test]
fn points_of_2_and_5() {
    assert_eq!(points_of(2, 5, 1), (4, 5));
    assert_eq!(points_of(2, 5, 2), (10, 10));
}

#[test]
fn points_of_5_and_2() {
    assert_eq!(points_of(5, 2, 1), (5, 6));
}

#[test]
fn points_of_3_and_3() {
    assert_eq!(points_of(3, 3, 4), (12, 12));
}

#[test]
fn hyperperiod_of_999_and_1001() {
    let image = Description::of_periods(&[999, 1001]).image();
    assert_eq!(read(&image).unwrap().hyperperiod, 999_999);
    assert_eq!(print(&image), "hyperperiod 999999\ncore 0\n");
}

#[test]
fn hyperperiod_of_1000_and_1001() {
    let image = Description::of_periods(&[1000, 1001]).image();
    assert_eq!(read(&image), refused(10, 0));
    assert_eq!(print(&image), "refused 10 0\n");
}

#[test]
fn ends_of_chain_3_7_3() {
    assert_eq!(end_of(&[3, 7, 3], 21), 30);
    assert_eq!(end_of(&[3, 7, 3], 24), 36);
    assert_eq!(end_of(&[3, 7, 3], 36), 51);
}

#[test]
fn answer_of_chain_3_7_3() {
    let expected = Ages { paths: 3, longest: 9, worst: 24, best: 21, jitter: 3 };
    assert_eq!(ages_of(&[3, 7, 3]), expected);
    // The same where the first task is also the last.
    let back_and_forth = Description {
        labels: vec![(0, vec![1]), (1, vec![0])],
        chains: vec![vec![0, 1, 0]],
        ..Description::of_periods(&[3, 7])
    };
    assert_eq!(ages(&back_and_forth.image(), 0), Ok(expected));
}

#[test]
fn answer_of_chain_5_10_20() {
    let expected = Ages { paths: 1, longest: 10, worst: 55, best: 55, jitter: 0 };
    assert_eq!(ages_of(&[5, 10, 20]), expected);
}

#[test]
fn answer_of_chain_5_2() {
    let answer = ages_of(&[5, 2]);
    assert_eq!((answer.paths, answer.worst, answer.best), (2, 13, 12));
}

#[test]
fn listing_of_core_0() {
    let expected = [
        0x00, 0x00, 0x14, 0x00, 0x00, 0x40, 0x00, 0x00, 0x00, 0x20, 0x00, 0x00, 0x00, 0x80, 0x02,
        0x00, 0x00,
    ];
    let mut buffer = [0xaa; 17];
    assert_eq!(listing(&EXAMPLE, 0, &mut buffer), Ok(17));
    assert_eq!(buffer, expected);
    let mut buffer = [0xaa; 16];
    assert_eq!(listing(&EXAMPLE, 0, &mut buffer), refused(11, 0));
    assert_eq!(buffer, [0xaa; 16]);
}

#[test]
fn images_refused_at_their_end() {
    assert_eq!(read(&[]), refused(1, 0));
    assert_eq!(print(&[]), "refused 1 0\n");
    let mut last_byte = EXAMPLE;
    last_byte[15] = 0x21;
    assert_eq!(read(&last_byte), refused(9, 127));
    for more in [0x00, 0x01, 0xff] {
        let mut longer = EXAMPLE.to_vec();
        longer.push(more);
        assert_eq!(read(&longer), refused(9, 128));
    }
}

#[test]
fn largest_period() {
    let image = Description::of_periods(&[1_000_000]).image();
    assert_eq!(read(&image).unwrap().hyperperiod, 1_000_000);
    let image = Description::of_periods(&[1_000_001]).image();
    assert_eq!(read(&image), refused(5, 29));
}

#[test]
fn largest_number_of_labels() {
    let with_labels = |count| Description {
        labels: vec![(0, vec![1]); count],
        ..Description::of_periods(&[1, 1])
    };
    assert_eq!(read(&with_labels(64).image()).unwrap().labels.len(), 64);
    assert_eq!(read(&with_labels(65).image()), refused(3, 14));
}

#[test]
fn printed_example() {
    let expected = "hyperperiod 10\ncore 0\n0 W0\n4 W0\ncore 1\n0 R0:1\n5 R0:1\n\
                    chain 0 paths 2 long 1 worst 13 best 12 jitter 1\n";
    assert_eq!(print(&EXAMPLE), expected);
    let described = Description {
        cores: 2,
        tasks: vec![(0, 2), (1, 5)],
        labels: vec![(0, vec![1])],
        chains: vec![vec![0, 1]],
    };
    assert_eq!(described.image(), EXAMPLE);
}

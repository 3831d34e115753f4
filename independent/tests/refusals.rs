//! Document 01, "Numbers that say no": the numbers 1 to 10, which the image alone
//! decides, each with its place, and the order among them.

use independent::make::{pack, Description, Field};
use independent::{ages, listing, points, print, read, Refusal};

/// Two tasks with periods 2 and 5, a label from 0 to 1, a chain 0, 1. Fields
/// start at 0, 4, 8, 14, 21; 26, 29, 49, 52; 72, 77; 109, 113, 118; end at 123.
fn example() -> Description {
    Description { cores: 2, ..Description::of_chain(&[2, 5]) }
}

/// All three questions and the printing program refuse the image alike, whatever
/// is asked, and leave the lent buffer as it was.
fn assert_refused(image: &[u8], number: u32, place: u64) {
    let refusal = Refusal { number, place };
    assert_eq!(read(image), Err(refusal));
    for asked in [0, 1, 99, u64::MAX] {
        let mut buffer = [0xaa; 100];
        assert_eq!(points(image, asked, asked, asked), Err(refusal));
        assert_eq!(listing(image, asked, &mut buffer), Err(refusal));
        assert_eq!(buffer, [0xaa; 100]);
        assert_eq!(listing(image, asked, &mut []), Err(refusal));
        assert_eq!(ages(image, asked), Err(refusal));
    }
    assert_eq!(print(image), format!("refused {number} {place}\n"));
}

/// The example with the field of a number changed. Numbers: 0 version, 1 cores,
/// 2 tasks, 3 labels, 4 chains, 5 and 7 cores, 6 and 8 periods.
fn changed(field: usize, value: u64) -> Vec<u8> {
    let mut fields: Vec<Field> = example().fields();
    fields[field].0 = value;
    pack(&fields)
}

#[test]
fn refused_1_at_each_length() {
    let image = example().image();
    let starts = [0, 4, 8, 14, 21, 26, 29, 49, 52, 72, 77, 109, 113, 118, 123];
    for bytes in 0..image.len() {
        let whole_fields = starts.iter().filter(|&&end| 0 < end && end <= 8 * bytes).count();
        assert_refused(&image[..bytes], 1, starts[whole_fields] as u64);
    }
    assert!(read(&image).is_ok());
    // A head that promises more than follows, the image ending between two fields.
    assert_refused(&pack(&[(1, 4), (1, 4)]), 1, 8);
}

#[test]
fn refused_2() {
    for version in [0, 2, 3, 15] {
        assert_refused(&changed(0, version), 2, 0);
    }
    assert_refused(&[0x20], 2, 0);
}

#[test]
fn refused_3() {
    for (field, place, values) in [
        (1, 4, vec![0, 9, 15]),
        (2, 8, vec![0, 33, 63]),
        (3, 14, vec![65, 127]),
        (4, 21, vec![17, 31]),
    ] {
        for value in values {
            assert_refused(&changed(field, value), 3, place);
        }
    }
}

#[test]
fn refused_4_and_5() {
    assert_refused(&changed(5, 2), 4, 26);
    assert_refused(&changed(7, 7), 4, 49);
    assert_refused(&changed(6, 0), 5, 29);
    assert_refused(&changed(8, 0), 5, 52);
    assert_refused(&changed(8, 1_000_001), 5, 52);
    assert_refused(&changed(6, (1 << 20) - 1), 5, 29);
}

#[test]
fn refused_6_and_7() {
    let with_label =
        |writer, readers| Description { labels: vec![(writer, readers)], ..example() }.image();
    assert_refused(&with_label(2, vec![1]), 6, 72);
    assert_refused(&with_label(31, vec![31]), 6, 72);
    for readers in [vec![2], vec![1, 31], vec![0], vec![0, 1]] {
        assert_refused(&with_label(0, readers), 7, 77);
    }
    assert_refused(&with_label(1, vec![1]), 7, 77);
    // No reader is no fault, but then the chain's step has no label.
    assert_refused(&with_label(0, vec![]), 8, 118);
}

#[test]
fn refused_8() {
    let with_chains = |chains| Description { chains, ..example() }.image();
    for length in [0, 1, 9, 15] {
        assert_refused(&with_chains(vec![vec![0; length]]), 8, 109);
    }
    assert_refused(&with_chains(vec![vec![2, 1]]), 8, 113);
    assert_refused(&with_chains(vec![vec![0, 2]]), 8, 118);
    assert_refused(&with_chains(vec![vec![1, 0]]), 8, 118);
    assert_refused(&with_chains(vec![vec![0, 0]]), 8, 118);
    assert_refused(&with_chains(vec![vec![0, 1, 0]]), 8, 123);
    assert_refused(&with_chains(vec![vec![0, 1], vec![1]]), 8, 123);
    assert_refused(&with_chains(vec![vec![0, 1], vec![1, 0, 31]]), 8, 132);
}

#[test]
fn refused_9() {
    let image = example().image();
    for (last, place) in
        [(0x21, 127), (0x22, 126), (0x24, 125), (0x28, 124), (0x30, 123), (0x3f, 123)]
    {
        let mut filled = image.clone();
        filled[15] = last;
        assert_refused(&filled, 9, place);
        filled.push(0xff);
        assert_refused(&filled, 9, place);
    }
    let longer = [image, vec![0; 1000]].concat();
    assert_refused(&longer, 9, 128);
}

#[test]
fn refused_9_without_fill_bits() {
    // 26 + 2 * 23 is 72, nine bytes.
    let mut image = Description::of_periods(&[1, 1]).image();
    assert_eq!(image.len(), 9);
    assert!(read(&image).is_ok());
    image.push(0x80);
    assert_refused(&image, 9, 72);
}

#[test]
fn refused_10_comes_after_9() {
    for periods in [vec![1000, 1001], vec![999_999, 1_000_000], vec![1_000_000, 7], vec![2; 31]] {
        let mut periods = periods;
        periods.push(500_001);
        let mut image = Description::of_periods(&periods).image();
        assert_refused(&image, 10, 0);
        let bits = 8 * image.len() as u64;
        image.push(0);
        assert_refused(&image, 9, bits);
    }
}

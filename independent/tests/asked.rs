//! Document 01, "Numbers that say no": the numbers 11, 12 and 13, which depend on
//! what is asked, their order, and what becomes of the lent buffer.

use independent::make::Description;
use independent::{ages, listing, listing_length, points, print, Refusal};

/// Three tasks with periods 2, 5 and 3 on the cores 0, 1 and 0; a label from 0 to 1
/// and one from 2 to nobody; the chain 0, 1; core 2 has no task.
fn image() -> Vec<u8> {
    Description {
        cores: 3,
        tasks: vec![(0, 2), (1, 5), (0, 3)],
        labels: vec![(0, vec![1]), (2, vec![])],
        chains: vec![vec![0, 1]],
    }
    .image()
}

const NOT_THERE: Refusal = Refusal { number: 12, place: 0 };

#[test]
fn refused_12_for_points() {
    let image = image();
    assert_eq!(points(&image, 3, 1, 0), Err(NOT_THERE));
    assert_eq!(points(&image, 0, 3, 0), Err(NOT_THERE));
    assert_eq!(points(&image, 0, 1, 1_000_001), Err(NOT_THERE));
    assert_eq!(points(&image, u64::MAX, u64::MAX, u64::MAX), Err(NOT_THERE));
    assert_eq!(points(&image, 1 << 32, 1, 0), Err(NOT_THERE));
    assert_eq!(points(&image, 0, 1, 1_000_000), Ok((5_000_000, 5_000_000)));
    // Before 13: no label goes from 1 to 0.
    assert_eq!(points(&image, 1, 0, 1_000_001), Err(NOT_THERE));
}

#[test]
fn refused_13_for_points() {
    let image = image();
    for (writer, reader) in [(1, 0), (0, 0), (0, 2), (2, 1), (2, 2)] {
        let refusal = Refusal { number: 13, place: 0 };
        assert_eq!(points(&image, writer, reader, 0), Err(refusal));
        assert_eq!(points(&image, writer, reader, 1_000_000), Err(refusal));
    }
}

#[test]
fn refused_12_for_ages() {
    let image = image();
    for chain in [1, 15, 16, u64::MAX] {
        assert_eq!(ages(&image, chain), Err(NOT_THERE));
    }
    assert!(ages(&image, 0).is_ok());
}

#[test]
fn refused_12_for_listing_comes_before_11() {
    let image = image();
    for core in [3, 8, 256, u64::MAX] {
        let mut buffer = [0xaa; 64];
        assert_eq!(listing(&image, core, &mut buffer), Err(NOT_THERE));
        assert_eq!(buffer, [0xaa; 64]);
        assert_eq!(listing(&image, core, &mut []), Err(NOT_THERE));
    }
}

#[test]
fn refused_11_leaves_the_buffer() {
    let image = image();
    for core in 0..3 {
        let length = listing_length(&image, core).unwrap() as usize;
        for room in 0..length {
            let mut buffer = vec![0x5a; room];
            let refusal = Refusal { number: 11, place: 0 };
            assert_eq!(listing(&image, core, &mut buffer), Err(refusal));
            assert_eq!(buffer, vec![0x5a; room]);
        }
    }
}

#[test]
fn listing_fills_only_the_first_bytes() {
    let image = image();
    for core in 0..3 {
        let length = listing_length(&image, core).unwrap() as usize;
        let mut exact = vec![0; length];
        assert_eq!(listing(&image, core, &mut exact), Ok(length));
        for held in [0x00, 0x5a, 0xff] {
            let mut buffer = vec![held; length + 9];
            assert_eq!(listing(&image, core, &mut buffer), Ok(length));
            assert_eq!(buffer[..length], exact);
            assert_eq!(buffer[length..], [held; 9]);
        }
    }
}

#[test]
fn core_without_frames() {
    // Core 2, H 30, no frame: 010, then twenty bits, twenty zeros, five bits of fill.
    let mut buffer = [0xff; 7];
    assert_eq!(listing(&image(), 2, &mut buffer), Ok(6));
    assert_eq!(buffer, [0x40, 0x00, 0x3c, 0x00, 0x00, 0x00, 0xff]);
    let text = print(&image());
    let lines: Vec<&str> = text.lines().collect();
    assert_eq!(lines[lines.len() - 2], "core 2");
}

#[test]
fn printing_room() {
    // Four labels from core 0, period 1, to core 1, period 2, the round set by a third
    // task: 43 + H / 2 * (32 + 4 * 12) bits on either core.
    let with_frames = |frames: u64| {
        Description {
            cores: 2,
            tasks: vec![(0, 1), (1, 2), (0, 2 * frames)],
            labels: vec![(0, vec![1]); 4],
            chains: vec![],
        }
        .image()
    };
    let fits = with_frames(6_553);
    assert_eq!(listing_length(&fits, 0), Ok(65_536));
    assert_eq!(listing_length(&fits, 1), Ok(65_536));
    assert!(print(&fits).starts_with("hyperperiod 13106\ncore 0\n0 W0 W1 W2 W3\n2 W0"));
    let exceeds = with_frames(6_554);
    assert_eq!(listing_length(&exceeds, 1), Ok(65_546));
    assert_eq!(print(&exceeds), "refused 11 0\n");
}

#[test]
fn printing_room_of_any_core() {
    // Writer and reader on the last core alone; the others have no frame.
    let image = Description {
        cores: 8,
        tasks: vec![(7, 1), (7, 1), (0, 1_000_000)],
        labels: vec![(0, vec![1])],
        chains: vec![vec![0, 1]],
    }
    .image();
    assert_eq!(listing_length(&image, 6), Ok(6));
    assert_eq!(print(&image), "refused 11 0\n");
}

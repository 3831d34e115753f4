//! Document 01, "Four errors that come easily": for each of them a table on which a
//! program with that error would answer otherwise than this one does.

use independent::make::Description;
use independent::{ages, points, print, read};

use crate::reference::{ages_of, core_lines, end_of, publishing_point, reading_point, Error};

/// The lines of all cores that the program prints.
fn program_lines(image: &[u8]) -> String {
    let text = print(image);
    let begin = text.find("core").unwrap();
    let end = text.find("chain").unwrap_or(text.len());
    text[begin..end].to_string()
}

/// The program's lines are those written by hand here; without an error the formulas
/// give the same; with the error they give others.
fn assert_error_shows(description: &Description, error: Error, by_hand: &str) {
    let image = description.image();
    let table = read(&image).unwrap();
    assert_eq!(program_lines(&image), by_hand);
    assert_eq!(core_lines(&table, None), by_hand);
    assert_ne!(core_lines(&table, Some(error)), by_hand);
}

#[test]
fn reading_point_by_floor() {
    let error = Some(Error::ReadingPointByFloor);
    let slow_writer = Description { cores: 2, tasks: vec![(0, 5), (1, 2)], ..one_label() };
    let by_hand = "core 0\n0 W0\n5 W0\ncore 1\n0 R0:1\n6 R0:1\n";
    assert_error_shows(&slow_writer, Error::ReadingPointByFloor, by_hand);
    assert_eq!(points(&slow_writer.image(), 0, 1, 1), Ok((5, 6)));
    assert_eq!(reading_point(5, 2, 1, None), 6);
    // The wrong reader is served at 4, before the publication at 5.
    assert_eq!(reading_point(5, 2, 1, error), 4);
    assert_eq!(publishing_point(5, 2, 1), 5);
}

#[test]
fn publishing_for_one_reader() {
    // For the reader with period 5 at 0 and 4, for the one with period 3 at 0, 2, 6, 8
    // and so on: neither reader's publishing points hold the other's.
    let two_readers = Description {
        cores: 2,
        tasks: vec![(0, 2), (1, 5), (1, 3)],
        labels: vec![(0, vec![1, 2])],
        chains: vec![],
    };
    let by_hand = "core 0\n0 W0\n2 W0\n4 W0\n6 W0\n8 W0\n10 W0\n12 W0\n14 W0\n18 W0\n20 W0\n\
                   24 W0\n26 W0\ncore 1\n0 R0:1 R0:2\n3 R0:2\n5 R0:1\n6 R0:2\n9 R0:2\n10 R0:1\n\
                   12 R0:2\n15 R0:1 R0:2\n18 R0:2\n20 R0:1\n21 R0:2\n24 R0:2\n25 R0:1\n27 R0:2\n";
    assert_error_shows(&two_readers, Error::PublishingForOneReader, by_hand);
    let other_order = Description { tasks: vec![(0, 2), (1, 3), (1, 5)], ..two_readers };
    let table = read(&other_order.image()).unwrap();
    let program = program_lines(&other_order.image());
    assert_eq!(program, core_lines(&table, None));
    assert_ne!(program, core_lines(&table, Some(Error::PublishingForOneReader)));
}

#[test]
fn reading_before_writing_in_a_frame() {
    let one_core = Description { cores: 1, tasks: vec![(0, 2), (0, 4)], ..one_label() };
    let by_hand = "core 0\n0 W0 R0:1\n";
    assert_error_shows(&one_core, Error::ReadingBeforeWriting, by_hand);
    // Also where the read is of a lower label than the write.
    let crossed = Description {
        tasks: vec![(0, 2), (0, 2)],
        labels: vec![(0, vec![1]), (1, vec![0])],
        ..one_core
    };
    let by_hand = "core 0\n0 W0 W1 R0:1 R1:0\n";
    assert_error_shows(&crossed, Error::ReadingBeforeWriting, by_hand);
}

#[test]
fn reading_before_writing_in_a_chain() {
    let error = Some(Error::ReadingBeforeWriting);
    for periods in [[3, 7, 3], [5, 10, 20]] {
        let answer = ages(&Description::of_chain(&periods).image(), 0).unwrap();
        assert_eq!(answer, ages_of(&periods, None));
        assert_ne!(answer, ages_of(&periods, error));
    }
    // At 21 both tasks are released; read before written, 21 is missed until 28.
    assert_eq!(end_of(&[3, 7], 21, None), 21);
    assert_eq!(end_of(&[3, 7], 21, error), 28);
    assert_eq!(independent::ages::end_of(&[3, 7], 21), 21);
}

#[test]
fn without_instant_zero() {
    let example = Description { cores: 2, tasks: vec![(0, 2), (1, 5)], ..one_label() };
    let by_hand = "core 0\n0 W0\n4 W0\ncore 1\n0 R0:1\n5 R0:1\n";
    assert_error_shows(&example, Error::WithoutInstantZero, by_hand);
    // Where instant 0 is the only one, the wrong listing is empty.
    let harmonic = Description { tasks: vec![(0, 5), (1, 10)], ..example };
    let by_hand = "core 0\n0 W0\ncore 1\n0 R0:1\n";
    assert_error_shows(&harmonic, Error::WithoutInstantZero, by_hand);
}

fn one_label() -> Description {
    Description { labels: vec![(0, vec![1])], ..Description::of_periods(&[]) }
}

//! Document 01, "The printing program": the program itself, run as a process, and the
//! three questions put by its arguments.

use std::io::Write;
use std::process::{Command, Output, Stdio};

const EXAMPLE: [u8; 16] = [
    0x12, 0x08, 0x08, 0x40, 0x00, 0x01, 0x10, 0x00, 0x05, 0x02, 0x00, 0x00, 0x00, 0x01, 0x00, 0x20,
];

fn run(arguments: &[&str], image: &[u8]) -> Output {
    let mut program = Command::new(env!("CARGO_BIN_EXE_independent"))
        .args(arguments)
        .stdin(Stdio::piped())
        .stdout(Stdio::piped())
        .stderr(Stdio::piped())
        .spawn()
        .unwrap();
    // A program that only says how it is used does not read its input.
    let _ = program.stdin.take().unwrap().write_all(image);
    program.wait_with_output().unwrap()
}

fn assert_prints(arguments: &[&str], image: &[u8], expected: &str) {
    let output = run(arguments, image);
    assert_eq!(String::from_utf8(output.stdout).unwrap(), expected);
    assert!(output.stderr.is_empty());
    assert!(output.status.success());
}

#[test]
fn prints_the_example() {
    let expected = "hyperperiod 10\ncore 0\n0 W0\n4 W0\ncore 1\n0 R0:1\n5 R0:1\n\
                    chain 0 paths 2 long 1 worst 13 best 12 jitter 1\n";
    assert_prints(&[], &EXAMPLE, expected);
}

#[test]
fn prints_refusals() {
    assert_prints(&[], &[], "refused 1 0\n");
    assert_prints(&[], &EXAMPLE[..15], "refused 1 118\n");
    let longer = [EXAMPLE.to_vec(), vec![0; 1_000_000]].concat();
    assert_prints(&[], &longer, "refused 9 128\n");
    assert_prints(&["points", "0", "1", "1"], &longer, "refused 9 128\n");
    assert_prints(&["listing", "0", "0"], &longer, "refused 9 128\n");
    assert_prints(&["ages", "7"], &longer, "refused 9 128\n");
}

#[test]
fn answers_points() {
    assert_prints(&["points", "0", "1", "1"], &EXAMPLE, "4 5\n");
    assert_prints(&["points", "0", "1", "2"], &EXAMPLE, "10 10\n");
    assert_prints(&["points", "1", "0", "2"], &EXAMPLE, "refused 13 0\n");
    let largest = "18446744073709551615";
    assert_prints(&["points", largest, "0", "2"], &EXAMPLE, "refused 12 0\n");
    assert_prints(&["points", "0", "1", "1000001"], &EXAMPLE, "refused 12 0\n");
}

#[test]
fn answers_listings() {
    let core_0 = "00 00 14 00 00 40 00 00 00 20 00 00 00 80 02 00 00\n";
    assert_prints(&["listing", "0"], &EXAMPLE, core_0);
    assert_prints(&["listing", "0", "17"], &EXAMPLE, core_0);
    assert_prints(&["listing", "0", "18446744073709551615"], &EXAMPLE, core_0);
    assert_prints(&["listing", "0", "16"], &EXAMPLE, "refused 11 0\n");
    assert_prints(&["listing", "2", "0"], &EXAMPLE, "refused 12 0\n");
}

#[test]
fn answers_ages() {
    assert_prints(&["ages", "0"], &EXAMPLE, "paths 2 long 1 worst 13 best 12 jitter 1\n");
    assert_prints(&["ages", "1"], &EXAMPLE, "refused 12 0\n");
}

#[test]
fn says_how_it_is_used() {
    for arguments in [
        vec!["other"],
        vec!["points", "0", "1"],
        vec!["points", "0", "1", "1", "1"],
        vec!["points", "0", "1", "x"],
        vec!["listing"],
        vec!["listing", "0", "1", "2"],
        vec!["ages", "-1"],
        vec!["ages", "18446744073709551616"],
        vec![""],
    ] {
        let output = run(&arguments, &EXAMPLE);
        assert_eq!(output.status.code(), Some(2));
        assert!(output.stdout.is_empty());
        assert!(String::from_utf8(output.stderr).unwrap().starts_with("usage: "));
    }
}

//! Programs that print something else are found out.

#![forbid(unsafe_code)]

use program::compare::compare;
use program::images::{example, Image};
use program::input::ways_in;
use program::process::Program;

/// What a script of the shell does with the image of document 01's example differs.
fn differs(script: &str) -> bool {
    let program = Program(["sh", "-c", script].map(str::to_string).to_vec());
    let image = Image { kind: "the example", bytes: example().image() };
    let comparison = compare(&program, &[image]).unwrap();
    assert_eq!(comparison.differences.len() as u64, comparison.differing);
    comparison.differing > 0
}

const LINES: &str = "printf 'hyperperiod 10\\ncore 0\\n0 W0\\n4 W0\\ncore 1\\n0 R0:1\\n5 R0:1\\n\
                     chain 0 paths 2 long 1 worst 13 best 12 jitter 1\\n'";

#[test]
fn wrong_programs() {
    assert!(!differs(LINES));
    for script in ["cat", "true", "false", "echo refused 1 0", "exec no-such-program"] {
        assert!(differs(script), "{script} was not noticed");
    }
    for further in ["; printf ' '", "; false", "; kill -9 $$", "; echo oh >&2"] {
        assert!(differs(&format!("{LINES}{further}")), "{further} was not noticed");
    }
    for (from, to) in
        [("W0", "W1"), ("13", "8"), ("\\n'", "'"), ("5 R", "5  R"), ("core 1", "core")]
    {
        assert!(differs(&LINES.replacen(from, to, 1)), "{to} was not noticed");
    }
}

#[test]
fn one_text_for_every_way() {
    let program = Program(["sh", "-c", LINES].map(str::to_string).to_vec());
    for way in ways_in(&program).unwrap() {
        let example = way.expected.printed.starts_with(b"hyperperiod 10\n");
        assert_eq!(way.did == way.expected, example, "{}", way.what);
    }
}

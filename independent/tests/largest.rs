//! Document 01, "Table image": the largest tables are answered.
//! Each test here is a table that is hard in one respect.

use independent::make::Description;
use independent::random::Random;
use independent::tables::{largest_example, table, Size};
use independent::{ages, listing_length, points, print, read, Refusal};

/// Every task reads every label that it does not write; two labels per task.
fn everyone_reads(periods: &[u64]) -> Description {
    let tasks = periods.len() as u64;
    let others = |writer: u64| (0..tasks).filter(|&task| task != writer).collect();
    Description {
        cores: 8,
        tasks: (0..tasks).map(|task| (task % 8, periods[task as usize])).collect(),
        labels: (0..64).map(|label| (label % tasks, others(label % tasks))).collect(),
        chains: vec![(0..8).collect(); 16],
    }
}

/// Names the work, so that a run that takes long shows which it is.
fn doing<T>(what: &str, work: impl FnOnce() -> T) -> T {
    println!("{what}");
    work()
}

#[test]
fn longest_listing() {
    // All tasks but one have period 1: each of the labels is copied at each tick.
    let mut periods = [1; 32];
    periods[31] = 1_000_000;
    let image = everyone_reads(&periods).image();
    assert_eq!(image.len(), 480);
    // On core 0 stand the tasks 0, 8, 16 and 24 with period 1. They write 8 labels
    // at each tick. Each reads 60 labels of other tasks with period 1 at each tick
    // and 2 labels of task 31 once.
    let copies = 8 * 1_000_000 + 4 * (60 * 1_000_000 + 2);
    let bits: u64 = 43 + 32 * 1_000_000 + 12 * copies;
    let length = doing("length", || listing_length(&image, 0));
    assert_eq!(length, Ok(bits.div_ceil(8)));
    assert_eq!(doing("print", || print(&image)), "refused 11 0\n");
}

#[test]
fn many_different_periods() {
    let periods: Vec<u64> = (1..=720_720).filter(|period| 720_720 % period == 0).take(32).collect();
    let image = everyone_reads(&periods).image();
    assert_eq!(doing("print", || print(&image)), "refused 11 0\n");
    let periods: Vec<u64> =
        (1..=720_720).rev().filter(|period| 720_720 % period == 0).take(32).collect();
    let image = everyone_reads(&periods).image();
    let text = doing("print", || print(&image));
    assert!(text.starts_with("hyperperiod 720720\ncore 0\n"));
}

#[test]
fn longest_chains() {
    // Back and forth between period 1 and period 1,000,000.
    let description = Description {
        cores: 1,
        tasks: vec![(0, 1), (0, 1_000_000)],
        labels: vec![(0, vec![1]), (1, vec![0])],
        chains: vec![vec![0, 1, 0, 1, 0, 1, 0, 1]; 16],
    };
    let image = description.image();
    let answer = doing("ages", || ages(&image, 15)).unwrap();
    // The start 0 is taken at 0 and by the three later slow jobs at 2, 4 and 6 million.
    // All starts up to 1,000,000 but 0 end one million later, and the valve moves
    // another million after that.
    assert_eq!((answer.paths, answer.longest), (1, 6_000_000));
    assert_eq!((answer.worst, answer.best, answer.jitter), (8_000_001, 8_000_001, 0));
    let text = doing("print", || print(&image));
    assert_eq!(text.lines().count(), 1 + 2 + 16);
}

#[test]
fn many_paths() {
    // One path for each of the 999 releases of the reader before 999,999. The worst
    // age has the start furthest before the release that takes it, by 998. The next
    // one is taken 1001 later, and 1001 after that it has come to the valve.
    let image = Description::of_chain(&[999, 1001]).image();
    let answer = doing("ages", || ages(&image, 0)).unwrap();
    assert_eq!((answer.paths, answer.longest), (999, 998));
    assert_eq!((answer.worst, answer.best), (999 + 998 + 2 * 1001, 999 + 2 * 1001));
    // Eight tasks with the own hyperperiod 720,720, slowest period 16.
    let image = Description::of_chain(&[16, 13, 11, 9, 7, 5, 3, 2]).image();
    let answer = doing("ages", || ages(&image, 0)).unwrap();
    assert!(answer.paths > 1_000 && answer.paths <= 720_720 / 16);
}

#[test]
fn farthest_points() {
    let image = Description::of_chain(&[1, 1_000_000]).image();
    let farthest = doing("points", || points(&image, 0, 1, 1_000_000));
    assert_eq!(farthest, Ok((1_000_000_000_000, 1_000_000_000_000)));
    assert_eq!(points(&image, 0, 1, 1_000_001), Err(Refusal::new(12, 0)));
    // 1,000,000 times 1001 is 1002002 times 999 and 2 more.
    let image = Description::of_chain(&[999, 1001]).image();
    assert_eq!(points(&image, 0, 1, 1_000_000), Ok((1_000_999_998, 1_001_000_000)));
}

/// Which of the two the printing program has to say follows from the longest listing of a core.
#[test]
fn random_largest_tables() {
    let mut random = Random::new(1);
    let mut too_long = 0;
    for _ in 0..5 {
        let image = table(&mut random, &Size::largest(1_000_000)).image();
        assert_eq!(image.len(), 480);
        let longest = (0..8).map(|core| listing_length(&image, core).unwrap()).max();
        let text = doing("print", || print(&image));
        if longest > Some(65_536) {
            too_long += 1;
            assert_eq!(text, "refused 11 0\n");
        } else {
            let lines = |word| text.lines().filter(|line| line.starts_with(word)).count();
            assert_eq!((lines("hyperperiod "), lines("core "), lines("chain ")), (1, 8, 16));
        }
        for chain in 0..16 {
            assert!(ages(&image, chain).is_ok());
        }
        assert_eq!(ages(&image, 16), Err(Refusal::new(12, 0)));
    }
    assert!(0 < too_long && too_long < 5, "both have to occur");
}

#[test]
fn the_largest_example() {
    let held = include_bytes!("../../examples/largest.image");
    assert_eq!(held.len(), 480);
    assert_eq!(held[..], largest_example().image());
    assert!(print(held).starts_with("hyperperiod 210\ncore 0\n"));
    for longer in [481, 1_024, 1_025] {
        let image = [&held[..], &vec![0; longer - 480]].concat();
        assert_eq!(read(&image), Err(Refusal::new(9, 3_840)));
    }
}

//! The plain programs say what the independent program says, of random tables, of images that are
//! damaged, and of the benchmark's own tables.

#![forbid(unsafe_code)]

use independent::make::Description;
use independent::random::Random;
use independent::tables::{longest_text, table, Size};
use plain::ages::{ages, ages_by_every_start, Ages};
use plain::listing::listing;
use plain::reading::Refusal;
use plain::tables;
use plain::{buffered, text};

fn refused(refusal: independent::Refusal) -> Refusal {
    (refusal.number, refusal.place)
}

/// What a buffer holds before.
const HELD: u8 = 0xa5;

/// One core, with so many bytes of room; the bytes after the listing are watched too.
fn check_listing(image: &[u8], core: u64, room: usize) {
    let (mut one, mut other) = (vec![HELD; room], vec![HELD; room]);
    let expected = independent::listing(image, core, &mut other).map(|bytes| bytes as u64);
    assert_eq!(listing(image, core, &mut one), expected.map_err(refused));
    assert!(one == other, "core {core} of {image:02x?} differs");
}

/// All cores, and one that is not there: with the room exact, less, more, and none.
fn check_listings(image: &[u8]) {
    let cores = independent::read(image).map_or(0, |table| table.cores);
    for core in 0..=cores {
        let length = independent::listing_length(image, core).unwrap_or(0) as usize;
        for room in [length, length.saturating_sub(1), length + 9, 0] {
            check_listing(image, core, room);
        }
    }
}

/// All chains, and one that is not there.
fn check_ages(image: &[u8]) {
    let chains = independent::read(image).map_or(0, |table| table.chains.len());
    for chain in 0..=chains as u64 {
        let expected = independent::ages(image, chain).map(|ages| Ages {
            paths: ages.paths as u32,
            longest: ages.longest as u32,
            worst: ages.worst as u32,
            best: ages.best as u32,
            jitter: ages.jitter as u32,
        });
        let expected = expected.map_err(refused);
        assert_eq!(ages(image, chain), expected);
        assert_eq!(ages_by_every_start(image, chain), expected);
    }
}

/// All that is printed.
fn check_text(image: &[u8]) {
    let (mut fast, mut buffered) = (Vec::new(), Vec::new());
    text::print(image, &mut fast).unwrap();
    buffered::print(image, &mut buffered).unwrap();
    let expected = independent::print(image);
    assert!(fast == expected.as_bytes(), "the text of {image:02x?} differs");
    assert!(buffered == expected.as_bytes(), "the buffered text of {image:02x?} differs");
}

/// Tables of every size, with longer rounds where they are smaller.
fn any_table(random: &mut Random) -> Description {
    let size = match random.below(8) {
        0 => Size::largest(random.choose(&[1, 10, 30])),
        1 | 2 => Size::any(random, 210),
        _ => {
            let hyperperiod = random.choose(&[12, 100, 1_000, 5_040]);
            Size::small(random, hyperperiod)
        }
    };
    table(random, &size)
}

#[test]
fn random_tables() {
    let mut random = Random::new(7);
    for _ in 0..3_000 {
        let image = any_table(&mut random).image();
        check_listings(&image);
        check_ages(&image);
        check_text(&image);
    }
}

#[test]
fn damaged_images() {
    let mut random = Random::new(8);
    for _ in 0..3_000 {
        let mut image = any_table(&mut random).image();
        image.truncate(random.between(1, image.len() as u64) as usize);
        let byte = random.below(image.len() as u64) as usize;
        image[byte] ^= 1 << random.below(8);
        for core in [0, 7] {
            check_listing(&image, core, 100_000);
        }
        check_ages(&image[..byte]);
        check_text(&image);
    }
}

/// Chains of any periods, with some long rounds among them.
#[test]
fn random_chains() {
    let mut random = Random::new(10);
    for number in 0..6_000 {
        let round =
            random.choose(if number % 100 == 0 { &[510_510, 720_720] } else { &[60, 5_040] });
        let divisors: Vec<u64> = (1..=round).filter(|period| round % period == 0).collect();
        let tasks = random.between(2, 8);
        let periods: Vec<u64> = (0..tasks).map(|_| random.choose(&divisors)).collect();
        check_ages(&Description::of_chain(&periods).image());
    }
}

#[test]
fn long_rounds() {
    let mut random = Random::new(9);
    for _ in 0..20 {
        let size = Size { tasks: 3, ..Size::small(&mut random, 1_000_000) };
        check_listings(&table(&mut random, &size).image());
    }
}

#[test]
fn the_benchmarks_tables() {
    for table in [tables::example(), tables::control_unit(), tables::sparse(), tables::ring()] {
        check_listings(&table.image());
    }
    check_listings(&tables::two_readers().image());
    check_listings(&tables::all_others_read().image());
    for table in [10_000, 1_000_000].map(tables::two_frames) {
        check_listings(&table.image());
        let length = independent::listing_length(&table.image(), 0).unwrap();
        assert_eq!(length, (43u64 + 2 * 32 + 4 * 12).div_ceil(8));
    }
    for table in [tables::example(), tables::of_three(), tables::most_paths(), tables::rare_paths()]
    {
        check_ages(&table.image());
    }
    for table in [tables::dense(22), tables::dense(23), longest_text()] {
        check_text(&table.image());
    }
    assert_eq!(ages(&tables::most_paths().image(), 0).unwrap().paths, 55_440);
    assert_eq!(ages(&tables::rare_paths().image(), 0).unwrap().paths, 999);
}

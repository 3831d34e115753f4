//! How long the proved code takes, in multiples of plain Rust built for release, as fast as it
//! could be written: to read an image, to list the cores of a table, to find the ages of its
//! chains. Both in one run, in turns, the least of many rounds. It prints ratios and is no test of
//! speed; that both say the same is checked first. Where it is built with an earlier archive too
//! (build.rs), each table is also listed by that archive and by today's, in the same way.

#![deny(unsafe_code)]

#[cfg(before)]
#[allow(unsafe_code)]
mod before;
mod proved;
mod timing;

use std::hint::black_box;

use independent::make::Description;
use independent::random::Random;
use independent::tables::{table, Size};
use plain::ages::{ages, ages_by_every_start};
use plain::listing::listing;
use plain::reading::{read, Refusal, NOTHING};
use plain::tables;
use timing::{times, Times};

fn print(what: &str, times: Times) {
    let (Times { proved, other: plain }, ratio) = (times, times.ratio());
    println!("{what}: proved {proved:.0} ns, plain Rust {plain:.0} ns, ratio {ratio:.3}");
}

#[cfg(before)]
fn print_before(what: &str, times: Times) {
    let (Times { proved: now, other: before }, ratio) = (times, times.ratio());
    println!("{what}: before {before:.0} ns, now {now:.0} ns, ratio now/before {ratio:.3}");
}

/// The table is made and kept whole, although only the answer is used.
fn plain_read(image: &[u8]) -> Result<(), Refusal> {
    let mut table = NOTHING;
    let said = read(image, &mut table);
    black_box(&table);
    said
}

fn compare_reading(what: &str, image: &[u8]) {
    for bytes in 0..=image.len() {
        assert_eq!(proved::read(&image[..bytes]), plain_read(&image[..bytes]));
    }
    let ask = |read: fn(&[u8]) -> Result<(), Refusal>| {
        move || {
            _ = black_box(read(black_box(image)));
        }
    };
    let times = times(ask(proved::read), ask(plain_read));
    print(&format!("{what}, {} bytes, read", image.len()), times);
}

/// The proved code and another program list the cores of a table, each into a buffer of so many bytes.
fn list(what: &str, image: &[u8], cores: u64, room: usize, other: proved::Listing) -> Times {
    let [mut ours, mut theirs] = [vec![0xff; room], vec![0xff; room]];
    for core in 0..=cores {
        assert_eq!(proved::listing(image, core, &mut ours), other(image, core, &mut theirs));
        assert!(ours == theirs, "{what}: the listings of core {core} differ");
    }
    let ask = |list: proved::Listing, buffer: &mut [u8]| {
        for core in 0..cores {
            _ = black_box(list(black_box(image), core, buffer));
        }
    };
    times(|| ask(proved::listing, &mut ours), || ask(other, &mut theirs))
}

/// All cores of a table, with room for the longest listing and no more.
fn compare_listing(what: &str, table: &Description) -> Times {
    let (image, cores) = (table.image(), table.cores);
    let lengths = (0..cores).map(|core| independent::listing_length(&image, core));
    let lengths: Vec<u64> = lengths.collect::<Result<_, _>>().expect("the table is valid");
    let room = lengths.iter().max().map_or(0, |&longest| longest as usize);
    let what = format!("{what}, {} bytes listed", lengths.iter().sum::<u64>());
    let times = list(&what, &image, cores, room, listing);
    print(&what, times);
    #[cfg(before)]
    print_before(&what, list(&what, &image, cores, room, before::listing));
    times
}

/// All chains of a table.
fn compare_ages(what: &str, table: &Description, plain: proved::AgesOf) {
    let image = table.image();
    let chains = table.chains.len() as u64;
    for chain in 0..=chains {
        assert_eq!(proved::ages(&image, chain), plain(&image, chain));
    }
    let ask = |ages: proved::AgesOf| {
        let image = &image;
        move || {
            for chain in 0..chains {
                _ = black_box(ages(black_box(image), chain));
            }
        }
    };
    print(&format!("{what}, ages"), times(ask(proved::ages), ask(plain)));
}

fn main() {
    let example = "the example of document 01";
    compare_reading(example, &tables::example().image());
    let mut random = Random::new(1);
    let largest = table(&mut random, &Size::largest(1_000_000)).image();
    assert_eq!((largest.len(), proved::read(&largest)), (480, Ok(())));
    compare_reading("a largest table", &largest);

    compare_listing(example, &tables::example());
    compare_listing("a control unit", &tables::control_unit());
    compare_listing("a sparse round", &tables::sparse());
    compare_listing("a dense round", &tables::dense(10_000));
    compare_listing("fast tasks wanted rarely", &tables::ring());
    compare_listing("64 labels with two readers each", &tables::two_readers());
    compare_listing("64 labels with 31 readers each", &tables::all_others_read());
    let [short, long] = [10_000, 1_000_000].map(|round| {
        compare_listing(&format!("two frames in {round}"), &tables::two_frames(round))
    });
    let (proved, plain) = (long.proved / short.proved, long.other / short.other);
    println!("H a hundred times larger: proved {proved:.2} times, plain Rust {plain:.2} times");

    compare_ages(example, &tables::example(), ages);
    compare_ages("chain 3, 7, 3", &tables::of_three(), ages);
    compare_ages("a chain of 55,440 paths", &tables::most_paths(), ages);
    let (rare, what) = (tables::rare_paths(), "999 paths among 999,999 starts");
    compare_ages(what, &rare, ages);
    compare_ages(&format!("{what}, each tried"), &rare, ages_by_every_start);
}

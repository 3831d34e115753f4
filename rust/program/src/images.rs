//! The images that both programs are given: by kind, each kind so often.

use independent::make::Description;
use independent::random::Random;
use independent::tables::{largest_example, table, Size};

use crate::damage::{any_bytes, changed, cut, filled, flipped, longer, other_periods};
use crate::limits::{beyond, longest_text, within};

pub struct Image {
    pub kind: &'static str,
    pub bytes: Vec<u8>,
}

/// The example of document 01.
pub fn example() -> Description {
    Description {
        cores: 2,
        tasks: vec![(0, 2), (1, 5)],
        labels: vec![(0, vec![1])],
        chains: vec![vec![0, 1]],
    }
}

/// Tables that stand for limits and for document 01's cases.
fn examples() -> Vec<Description> {
    let mut tables = vec![
        example(),
        largest_example(),
        longest_text(),
        Description::of_periods(&[1]),
        Description::of_periods(&[1_000_000]),
        Description::of_periods(&[1_000_001]),
        Description::of_periods(&[1, 1]),
        Description::of_periods(&[999, 1_001]),
        Description::of_periods(&[1_000, 1_001]),
        // The most paths that a chain can have; and few among many starts.
        Description::of_chain(&[5, 7, 9, 11, 16, 17, 3, 2]),
        Description::of_chain(&[1, 999, 1_001]),
        Description::of_chain(&[3, 7, 3]),
        Description::of_chain(&[5, 10, 20]),
        Description::of_chain(&[5, 2]),
        // 1,000,000 frames.
        Description { labels: vec![(0, vec![1])], ..Description::of_periods(&[1, 1, 1_000_000]) },
    ];
    for labels in [64, 65] {
        let labels = vec![(0, vec![]); labels];
        tables.push(Description { labels, ..Description::of_periods(&[7]) });
    }
    // Starts of one digit to six.
    tables.extend((0..6).map(|zeros| Description {
        labels: vec![(0, vec![1])],
        ..Description::of_periods(&[10u64.pow(zeros), 5 * 10u64.pow(zeros)])
    }));
    tables
}

/// A valid table of so many cores and tasks, with few or many labels and chains.
fn of_shape(random: &mut Random, cores: u64, tasks: u64) -> Description {
    let labels = random.choose(&[0, 1, 2, 9, 10, 11, 63, 64]);
    let chains = random.choose(&[0, 1, 2, 9, 10, 11, 15, 16]);
    // Mostly printable: the more labels, the shorter the round.
    let rounds: &[u64] = if labels < 9 { &[1, 10, 360, 5_040, 1_000_000] } else { &[1, 10, 60] };
    let full = tasks > 1 && random.below(2) == 0;
    let hyperperiod = random.choose(rounds);
    table(random, &Size { cores, tasks, labels, chains, hyperperiod, full })
}

/// All images, the same for the same seed.
pub fn images(seed: u64) -> Vec<Image> {
    let mut random = Random::new(seed);
    let mut images = Vec::new();
    let mut add = |kind, bytes| images.push(Image { kind, bytes });
    add("the empty image", Vec::new());
    examples().iter().for_each(|table| add("examples and limits", table.image()));
    within().iter().for_each(|table| add("a listing of 65,536 bytes", table.image()));
    beyond().iter().for_each(|table| add("a listing of 65,537 bytes", table.image()));
    let bytes = example().image();
    (1..bytes.len()).for_each(|length| add("the example cut", bytes[..length].to_vec()));
    for cores in 1..=8 {
        for tasks in 1..=32 {
            let table = of_shape(&mut random, cores, tasks);
            add("valid tables", table.image());
        }
    }
    for number in 0..100 {
        let hyperperiod = random.choose(&[10, 100, 360, 5_040]);
        let size = match number % 10 {
            0 => Size::largest(hyperperiod),
            1..=4 => Size::any(&mut random, hyperperiod),
            _ => Size::small(&mut random, hyperperiod),
        };
        let table = table(&mut random, &size);
        add("cut after some bytes", cut(&mut random, &table));
        add("bytes added", longer(&mut random, &table));
        add("a bit flipped", flipped(&mut random, &table));
        add("fields at any value", changed(&mut random, &table));
        add("a fill bit set", filled(&mut random, &table));
        add("other periods", other_periods(&mut random, &table));
        add("random bytes", any_bytes(&mut random));
    }
    images
}

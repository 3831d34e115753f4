//! The program beside the formulas on random valid tables, up to the largest: what is
//! read, the points, the listings in both forms, the ages.

use independent::make::Description;
use independent::random::Random;
use independent::tables::{table, Size};
use independent::{ages, listing, listing_length, points, print, read, Table};

use crate::decode::core_text;
use crate::reference::{self, core_lines, lcm, publishing_point, reading_point};

/// What was read is what was described.
fn assert_read(description: &Description, read: &Table) {
    let task = |task: &independent::Task| (task.core, task.period);
    assert_eq!(read.cores, description.cores);
    assert_eq!(read.tasks.iter().map(task).collect::<Vec<_>>(), description.tasks);
    assert_eq!(read.labels.len(), description.labels.len());
    for (label, described) in read.labels.iter().zip(&description.labels) {
        assert_eq!(label.writer as u64, described.0);
        assert_eq!(numbers(&label.readers), described.1);
    }
    let chains: Vec<Vec<u64>> = read.chains.iter().map(|chain| numbers(chain)).collect();
    assert_eq!(chains, description.chains);
    let periods = description.tasks.iter().map(|task| task.1);
    assert_eq!(read.hyperperiod, periods.fold(1, lcm));
}

fn numbers(tasks: &[usize]) -> Vec<u64> {
    tasks.iter().map(|&task| task as u64).collect()
}

/// The lines of all cores, out of the bytes of their listings.
fn decoded_lines(image: &[u8], table: &Table) -> String {
    let mut lines = String::new();
    for core in 0..table.cores {
        let length = listing_length(image, core).unwrap() as usize;
        let mut buffer = vec![0xff; length + 1];
        assert_eq!(listing(image, core, &mut buffer), Ok(length));
        assert_eq!(buffer.pop(), Some(0xff));
        let (text, hyperperiod) = core_text(&buffer);
        assert_eq!(hyperperiod, table.hyperperiod);
        lines += &text;
    }
    lines
}

fn chain_lines(table: &Table) -> String {
    let mut lines = String::new();
    for (number, chain) in table.chains.iter().enumerate() {
        let ages = reference::ages_of(&table.periods_along(chain), None);
        lines += &format!("chain {number} {ages}\n");
    }
    lines
}

fn assert_points(image: &[u8], table: &Table, random: &mut Random) {
    for label in &table.labels {
        for &reader in &label.readers {
            let (writer_period, reader_period) =
                (table.tasks[label.writer].period, table.tasks[reader].period);
            let n = random.choose(&[0, 1, 2, 3, 1_000_000]).min(random.below(2_000_000));
            let expected = (
                publishing_point(writer_period, reader_period, n),
                reading_point(writer_period, reader_period, n, None),
            );
            assert_eq!(points(image, label.writer as u64, reader as u64, n), Ok(expected));
        }
    }
}

/// Everything that is answered about a table, beside the formulas.
fn assert_answers(description: &Description, random: &mut Random) {
    let image = description.image();
    let table = read(&image).unwrap();
    assert_read(description, &table);
    assert_points(&image, &table, random);
    let lines = core_lines(&table, None);
    assert_eq!(decoded_lines(&image, &table), lines);
    let fits = (0..table.cores).all(|core| listing_length(&image, core).unwrap() <= 65_536);
    let text = match fits {
        true => format!("hyperperiod {}\n{lines}{}", table.hyperperiod, chain_lines(&table)),
        false => "refused 11 0\n".to_string(),
    };
    assert_eq!(print(&image), text);
}

#[test]
fn small_tables() {
    let mut random = Random::new(2);
    for _ in 0..2_000 {
        let size = Size::small(&mut random, 60);
        assert_answers(&table(&mut random, &size), &mut random);
    }
}

#[test]
fn tables_of_any_size() {
    let mut random = Random::new(3);
    for most in [1, 2, 7, 12, 36, 60, 100, 360, 1_000, 2_310] {
        for _ in 0..3 {
            let size = Size::any(&mut random, most);
            assert_answers(&table(&mut random, &size), &mut random);
        }
        assert_answers(&table(&mut random, &Size::largest(most)), &mut random);
    }
}

#[test]
fn points_and_ages_of_large_hyperperiods() {
    let mut random = Random::new(4);
    for _ in 0..40 {
        let size = Size::any(&mut random, 1_000_000);
        let description = table(&mut random, &size);
        let image = description.image();
        let table = read(&image).unwrap();
        assert_read(&description, &table);
        if let Some(label) = table.labels.iter().position(|label| !label.readers.is_empty()) {
            let labels = vec![table.labels[label].clone()];
            assert_points(&image, &Table { labels, ..table.clone() }, &mut random);
        }
        for (number, chain) in table.chains.iter().enumerate().take(4) {
            let expected = reference::ages_of(&table.periods_along(chain), None);
            assert_eq!(ages(&image, number as u64), Ok(expected));
        }
    }
}

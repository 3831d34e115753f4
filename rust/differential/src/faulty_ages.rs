//! Programs that answer for the ages of a chain as the proved code does but for one fault each.

use independent::hyperperiod::hyperperiod;
use independent::read;

use crate::faulty::{program, Program};
use crate::question::Question;
use crate::said::{by_proved_code, Said};

/// What is said of a chain is altered.
fn ages(fault: &str, alter: impl Fn(&mut Said, &[u8], u64) + 'static) -> Program {
    program(fault, move |image, question, proved| {
        let mut said = proved.clone();
        if let Question::Ages { chain } = question {
            alter(&mut said, image, chain);
        }
        said
    })
}

/// Paths, longest, worst, best and jitter are altered, by the chain's periods and the table's H.
fn values(fault: &str, alter: impl Fn([u64; 5], &[u64], u64) -> [u64; 5] + 'static) -> Program {
    ages(fault, move |said, image, chain| {
        if let &[paths, longest, worst, best, jitter] = &said.values[..] {
            let table = read(image).expect("the image is accepted");
            let periods = table.periods_along(&table.chains[chain as usize]);
            let values = [paths, longest, worst, best, jitter];
            said.values = alter(values, &periods, table.hyperperiod).to_vec();
        }
    })
}

/// The period of a chain's last task.
fn last_of(periods: &[u64]) -> u64 {
    periods[periods.len() - 1]
}

/// The end of a start, by the time from a middle task's release to what it publishes.
fn end_of(periods: &[u64], start: u64, waits: fn(u64) -> u64) -> u64 {
    let (last, middle) = periods[1..].split_last().expect("a chain has two tasks");
    let taken = |tick: u64, period: &u64| tick.next_multiple_of(*period) + waits(*period);
    middle.iter().fold(start, taken).next_multiple_of(*last)
}

/// The ages of some periods where a start counts by its end and the next one's.
fn by_rule(periods: &[u64], counts: fn(u64, u64) -> bool, waits: fn(u64) -> u64) -> [u64; 5] {
    let round = hyperperiod(periods.iter().copied()).expect("the table's H is a multiple");
    let [first, last] = [periods[0], last_of(periods)];
    let [mut paths, mut longest, mut worst, mut best] = [0, 0, 0, u64::MAX];
    for start in (0..round).step_by(first as usize) {
        let [end, next] = [start, start + first].map(|start| end_of(periods, start, waits));
        if counts(end, next) {
            let age = first + next - start + last;
            paths += 1;
            longest = longest.max(end - start);
            worst = worst.max(age);
            best = best.min(age);
        }
    }
    [paths, longest, worst, best, worst - best]
}

pub fn faulty_ages() -> Vec<Program> {
    vec![
        values("an invented path count", |[paths, longest, worst, best, jitter], _, _| {
            [paths + 1, longest, worst, best, jitter]
        }),
        values("paths over the table's H", |[paths, longest, worst, best, jitter], periods, h| {
            let round = hyperperiod(periods.iter().copied()).expect("it is the table's or less");
            [paths * (h / round), longest, worst, best, jitter]
        }),
        values("a path for every start", |_, periods, _| {
            by_rule(periods, |end, next| end <= next, |period| period)
        }),
        values("a middle task publishes at its release", |_, periods, _| {
            by_rule(periods, |end, next| end < next, |_| 0)
        }),
        values("the first two tasks only", |_, periods, _| {
            by_rule(&periods[..2], |end, next| end < next, |period| period)
        }),
        values("ages without T1", |[paths, longest, worst, best, jitter], periods, _| {
            [paths, longest, worst - periods[0], best - periods[0], jitter]
        }),
        values("the last period left out", |[paths, longest, worst, best, jitter], periods, _| {
            let last = last_of(periods);
            [paths, longest, worst - last, best - last, jitter]
        }),
        values("T1 for the last period", |[paths, longest, worst, best, jitter], periods, _| {
            let [first, last] = [periods[0], last_of(periods)];
            [paths, longest, worst - last + first, best - last + first, jitter]
        }),
        values("the last period in worst", |[paths, longest, worst, best, jitter], periods, _| {
            let last = last_of(periods);
            [paths, longest, worst, best - last, jitter + last]
        }),
        values("the last period in long", |[paths, longest, worst, best, jitter], periods, _| {
            [paths, longest + last_of(periods), worst, best, jitter]
        }),
        values("the length for the age", |[paths, longest, _, best, _], _, _| {
            [paths, longest, longest, best, longest.abs_diff(best)]
        }),
        values("jitter as worst", |[paths, longest, worst, best, _], _, _| {
            [paths, longest, worst, best, worst]
        }),
        values("worst and best exchanged", |[paths, longest, worst, best, jitter], _, _| {
            [paths, longest, best, worst, jitter]
        }),
        values("paths of 15 bits", |[paths, longest, worst, best, jitter], _, _| {
            [paths % (1 << 15), longest, worst, best, jitter]
        }),
        ages("chain 0 for one that is not there", |said, image, _| {
            if said.number == 12 {
                *said = by_proved_code(image, Question::Ages { chain: 0 });
            }
        }),
        ages("a chain of 32 bits", |said, image, chain| {
            *said = by_proved_code(image, Question::Ages { chain: chain % (1 << 32) });
        }),
        ages("no chain is there", |said, _, _| {
            if said.number == 0 {
                *said = Said::refused(Question::Ages { chain: 0 }, 12, 0);
            }
        }),
    ]
}

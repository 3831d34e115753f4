//! The next points of a core's pairs of tasks, one for each pair and kind. A slower task's points
//! are all its releases; a faster one's lie beside those of the slower: a writer's last release at
//! or before it, a reader's first release at or after it. From point to point that is one step, and
//! a period more where what is left over of the slower period has added up to one: no division.

/// From point to point.
#[derive(Clone, Copy)]
pub struct Steps {
    step: u32,
    /// What is left over, each time and so far, and the period that it adds up to.
    over: u32,
    sum: u32,
    period: u32,
}

impl Steps {
    const NONE: Steps = Steps { step: 0, over: 0, sum: 0, period: 1 };

    /// The points of a task with the period `own` beside a task with the period `other`.
    #[inline(always)]
    fn new(own: u32, other: u32, sum: u32) -> Steps {
        if own >= other {
            return Steps { step: own, ..Steps::NONE };
        }
        let over = other % own;
        Steps { step: other - over, over, sum, period: own }
    }

    /// Publishing points.
    #[inline(always)]
    pub fn of_writer(writer: u32, reader: u32) -> Steps {
        Steps::new(writer, reader, 0)
    }

    /// Reading points.
    #[inline(always)]
    pub fn of_reader(writer: u32, reader: u32) -> Steps {
        Steps::new(reader, writer, reader - 1)
    }

    #[inline(always)]
    fn after(&mut self, point: u32) -> u32 {
        let sum = self.sum + self.over;
        let whole = if sum < self.period { 0 } else { self.period };
        self.sum = sum - whole;
        point + self.step + whole
    }
}

/// A pair of tasks as one of the two has it.
#[derive(Clone, Copy)]
pub struct Pair {
    pub steps: Steps,
    /// The labels from the writer to the reader, label 0 in the lowest bit, and how many they are.
    pub labels: u64,
    pub count: u8,
    pub writer: u8,
    /// The reader's bit in a readers field.
    pub reader: u32,
}

const SIZE: usize = 4;

/// Some pairs with their next points, and the least of these.
#[derive(Clone, Copy)]
pub struct Group {
    least: u32,
    next: [u32; SIZE],
    pairs: [Pair; SIZE],
}

impl Group {
    pub const EMPTY: Group = Group {
        least: u32::MAX,
        next: [u32::MAX; SIZE],
        pairs: [Pair { steps: Steps::NONE, labels: 0, count: 0, writer: 0, reader: 0 }; SIZE],
    };

    /// How many groups hold so many pairs.
    pub fn holding(pairs: u32) -> usize {
        pairs.div_ceil(SIZE as u32) as usize
    }
}

/// Puts a pair in place, the first of its points being 0.
#[inline(always)]
pub fn put(groups: &mut [Group], place: usize, pair: Pair) {
    if let Some(group) = groups.get_mut(place / SIZE) {
        group.least = 0;
        group.next[place % SIZE] = 0;
        group.pairs[place % SIZE] = pair;
    }
}

/// Hands on each pair that has a point now, goes on to its next one, and answers the least of all
/// next points.
#[inline(always)]
pub fn advance(groups: &mut [Group], now: u32, mut due: impl FnMut(&Pair)) -> u32 {
    let mut least = u32::MAX;
    for group in groups {
        if group.least == now {
            let mut next = u32::MAX;
            for (point, pair) in group.next.iter_mut().zip(&mut group.pairs) {
                if *point == now {
                    due(pair);
                    *point = pair.steps.after(now);
                }
                next = next.min(*point);
            }
            group.least = next;
        }
        least = least.min(group.least);
    }
    least
}

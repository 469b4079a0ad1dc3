//! Slow versions of the rules, straight from their definitions, and a tiny generator of cases.
#![allow(dead_code)]

use independent::graph::{CONSUMPTION, CYCLE, Channel, Lists, PREFIX, PRODUCTION, Task};

/// A small generator with a fixed seed (xorshift).
pub struct Dice(u64);

impl Dice {
    /// A generator from a seed other than 0.
    pub fn new(seed: u64) -> Dice {
        Dice(seed)
    }

    /// A number from low to high, both included.
    pub fn from(&mut self, low: u64, high: u64) -> u64 {
        self.0 ^= self.0 << 13;
        self.0 ^= self.0 >> 7;
        self.0 ^= self.0 << 17;
        low + (self.0 >> 11) % (high - low + 1)
    }

    /// The same as a field of a record.
    pub fn field(&mut self, low: u32, high: u32) -> u32 {
        self.from(low.into(), high.into()) as u32
    }
}

/// A task in plain numbers.
pub fn task(period: u32, offset: u32, deadline: u32, worst: u32, priority: u8) -> Task {
    Task {
        period,
        offset,
        deadline,
        worst,
        priority,
    }
}

/// The demand of rule "Response".
pub fn demand(tasks: &[Task], i: usize, w: u64) -> u64 {
    let mut sum = u64::from(tasks[i].worst);
    for j in tasks {
        if j.priority < tasks[i].priority {
            let period = u64::from(j.period);
            sum += u64::from(j.worst) * w.div_ceil(period);
        }
    }
    sum
}

/// Rule "Response", each w tried.
pub fn response(tasks: &[Task], i: usize) -> Option<u32> {
    (1..=tasks[i].deadline).find(|&w| demand(tasks, i, w.into()) <= w.into())
}

/// Rule "Rates": job m's rate.
pub fn rate(lists: &Lists, m: u64) -> u64 {
    let m = m as usize;
    let prefix = &lists[PREFIX];
    let cycle = &lists[CYCLE];
    if m < prefix.len() {
        prefix[m].into()
    } else {
        cycle[(m - prefix.len()) % cycle.len()].into()
    }
}

/// X(m) and Y(m), added up one by one.
pub fn sum(lists: &Lists, m: u64) -> i64 {
    (0..m).map(|job| rate(lists, job) as i64).sum()
}

/// Rule "Jobs": the release of job k.
pub fn release(task: &Task, k: u64) -> u64 {
    u64::from(task.offset) + k * u64::from(task.period)
}

/// Rule "Jobs": the deadline of job k.
pub fn deadline(task: &Task, k: u64) -> u64 {
    release(task, k) + u64::from(task.deadline)
}

/// The number of jobs with deadline ≤ r, each job looked at.
pub fn done(task: &Task, r: u64) -> u64 {
    (0..=r).filter(|&job| deadline(task, job) <= r).count() as u64
}

/// A channel with its two tasks.
#[derive(Clone, Debug)]
pub struct Pair {
    pub producer: Task,
    pub consumer: Task,
    pub channel: Channel,
}

impl Pair {
    /// Rule "Underflow" over all consumer jobs released up to a last tick.
    pub fn underflow(&self, last: u64) -> Option<u64> {
        let (puts, takes) = self.lists();
        (0..)
            .take_while(|&k| release(&self.consumer, k) <= last)
            .find(|&k| {
                let p = done(&self.producer, release(&self.consumer, k));
                i64::from(self.channel.initial) + sum(puts, p) < sum(takes, k + 1)
            })
    }

    /// Rule "Overflow" over all producer jobs released up to a last tick.
    pub fn overflow(&self, last: u64) -> Option<u64> {
        let (puts, takes) = self.lists();
        let size = i64::from(self.channel.size);
        (0..)
            .take_while(|&j| release(&self.producer, j) <= last)
            .find(|&j| {
                let q = done(&self.consumer, release(&self.producer, j));
                i64::from(self.channel.initial) + sum(puts, j + 1) - sum(takes, q) > size
            })
    }

    /// The lists of production and of consumption.
    pub fn lists(&self) -> (&Lists, &Lists) {
        let sides = &self.channel.sides;
        (&sides[PRODUCTION], &sides[CONSUMPTION])
    }
}

/// What the generator of channels may go up to.
pub struct Limits {
    pub period: u32,
    pub offset: u32,
    pub prefix: u64,
    pub cycle: u64,
    pub tokens: u32,
}

/// A random balanced channel.
pub fn pair(dice: &mut Dice, most: &Limits) -> Pair {
    let mut any_task = || {
        let period = dice.field(1, most.period);
        task(
            period,
            dice.field(0, most.offset),
            dice.field(1, period),
            1,
            1,
        )
    };
    let (producer, consumer) = (any_task(), any_task());
    let lengths = [dice.from(1, most.cycle), dice.from(1, most.cycle)];
    let a = lengths[0] * u64::from(producer.period);
    let b = lengths[1] * u64::from(consumer.period);
    let common = (1..=a)
        .rev()
        .find(|&c| a.is_multiple_of(c) && b.is_multiple_of(c))
        .unwrap();
    let times = dice.from(0, 3).min(1 + dice.from(0, 2));
    let mut side = |length: u64, total: u64| {
        let prefix = dice.from(0, most.prefix);
        let first = (0..prefix).map(|_| dice.field(0, most.tokens) as u16);
        let first: Vec<u16> = first.collect();
        let mut cycle = vec![0; length as usize];
        for _ in 0..total {
            cycle[dice.from(0, length - 1) as usize] += 1;
        }
        [first, cycle]
    };
    let sides = [
        side(lengths[0], times * a / common),
        side(lengths[1], times * b / common),
    ];
    let room = most.tokens * 4;
    let initial = dice.field(0, room);
    let channel = Channel {
        producer: 0,
        consumer: 1,
        initial,
        size: initial + dice.field(0, room),
        sides,
    };
    Pair {
        producer,
        consumer,
        channel,
    }
}

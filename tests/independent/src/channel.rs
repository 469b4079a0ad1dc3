//! Rules "Rates", "Jobs", "Balance", "Window length", "Underflow" and "Overflow": tests 13 to 17.

use crate::Reply;
use crate::graph::{CONSUMPTION, CYCLE, Channel, Graph, Lists, PREFIX, PRODUCTION, Task};

/// Rule "Window length": the most jobs of the smaller period that L may hold.
const WINDOW: u64 = 65_536;

/// One side of a channel: its task's times, and the sums of its rates.
pub struct Side {
    period: u64,
    offset: u64,
    deadline: u64,
    /// Place i holds the sum of the first i prefix entries.
    prefix: Vec<u64>,
    /// Place i holds the sum of the first i cycle entries.
    cycle: Vec<u64>,
}

impl Side {
    /// The side that this task and these lists make.
    pub fn new(task: &Task, lists: &Lists) -> Side {
        Side {
            period: u64::from(task.period),
            offset: u64::from(task.offset),
            deadline: u64::from(task.deadline),
            prefix: sums(&lists[PREFIX]),
            cycle: sums(&lists[CYCLE]),
        }
    }

    /// The number of prefix entries.
    fn prefix_length(&self) -> u64 {
        self.prefix.len() as u64 - 1
    }

    /// The number of cycle entries, at least 1 by test 7.
    fn cycle_length(&self) -> u64 {
        self.cycle.len() as u64 - 1
    }

    /// The sum of the cycle.
    fn cycle_sum(&self) -> u64 {
        self.cycle[self.cycle.len() - 1]
    }

    /// Rule "Jobs": job k is released at offset + k × period.
    fn release(&self, k: u64) -> u64 {
        self.offset + k * self.period
    }

    /// Rule "Jobs": the deadline of job k is its release plus the deadline field.
    fn deadline(&self, k: u64) -> u64 {
        self.release(k) + self.deadline
    }

    /// P and Q of the rules: the number of jobs with deadline ≤ r.
    fn done_by(&self, r: u64) -> u64 {
        match r.checked_sub(self.deadline(0)) {
            None => 0,
            Some(since) => since / self.period + 1,
        }
    }

    /// Rule "Rates", X(m) and Y(m): prefix entries first, then the cycle over and over.
    fn sum_of_first(&self, m: u64) -> u64 {
        match m.checked_sub(self.prefix_length()) {
            None => self.prefix[m as usize],
            Some(past) => {
                let rounds = past / self.cycle_length();
                let rest = past % self.cycle_length();
                let prefix_sum = self.prefix[self.prefix.len() - 1];
                prefix_sum + rounds * self.cycle_sum() + self.cycle[rest as usize]
            }
        }
    }
}

/// The sums of the first 0, 1, 2, ... entries of a list.
fn sums(list: &[u16]) -> Vec<u64> {
    let first = |i: usize| list[..i].iter().map(|&tokens| u64::from(tokens)).sum();
    (0..=list.len()).map(first).collect()
}

/// Rule "Balance": production cycle sum × consumption cycle length × T_consumer, and the same the other way round.
pub fn balanced(producer: &Side, consumer: &Side) -> bool {
    producer.cycle_sum() * consumer.cycle_length() * consumer.period
        == consumer.cycle_sum() * producer.cycle_length() * producer.period
}

/// Rule "Window length": L, the least common multiple of the two periods × cycle lengths.
pub fn window(producer: &Side, consumer: &Side) -> u64 {
    let a = producer.period * producer.cycle_length();
    let b = consumer.period * consumer.cycle_length();
    a / greatest_common_divisor(a, b) * b
}

/// Euclid's greatest common divisor of two numbers from 1 up.
fn greatest_common_divisor(a: u64, b: u64) -> u64 {
    if b == 0 {
        a
    } else {
        greatest_common_divisor(b, a % b)
    }
}

/// Rule "Window length": too long if L divided by the smaller period is above 65,536.
pub fn window_too_long(producer: &Side, consumer: &Side) -> bool {
    window(producer, consumer) / producer.period.min(consumer.period) > WINDOW
}

/// How many jobs of a balanced channel's one side, from 0, stand for all of that side's jobs without end.
///
/// Let `own` be the side whose jobs k are looked at and `other` the side whose finished jobs are counted.
/// Call k settled if k is at least own's prefix length, and job k is released at or after the deadline of
/// other's job whose number is other's prefix length. All jobs after a settled one are settled too.
/// Compare a settled job k with job k + L / T_own, released L later (L is a multiple of both periods).
/// - At k at least one job of other is done, so L later exactly L / T_other more are done.
/// - At k the done jobs already include other's whole prefix, and L / T_other is a whole number of
///   its cycles, so other's sum grows by (L / (T_other × cycle length)) × cycle sum.
/// - The first k jobs of own already include own's whole prefix, so own's sum grows alike.
/// - Balance says that these growths are equal: multiply its two sides by L, then divide them by both
///   periods and both cycle lengths.
///
/// So the fill that the rule compares is the same at k and at k + L / T_own: from the first settled job on,
/// one window of L / T_own jobs repeats for ever. The jobs before it, and that one window, are enough,
/// also for the first broken one.
pub fn jobs_to_look_at(own: &Side, other: &Side) -> u64 {
    let moment = other.deadline(other.prefix_length());
    let released_late_enough = moment.saturating_sub(own.offset).div_ceil(own.period);
    let settled = released_late_enough.max(own.prefix_length());
    settled + window(own, other) / own.period
}

/// Rule "Underflow": the first consumer job k with initial + X(P) < Y(k+1).
pub fn first_underflow(initial: u32, producer: &Side, consumer: &Side) -> Option<u64> {
    (0..jobs_to_look_at(consumer, producer)).find(|&k| {
        let p = producer.done_by(consumer.release(k));
        u64::from(initial) + producer.sum_of_first(p) < consumer.sum_of_first(k + 1)
    })
}

/// Rule "Overflow": the first producer job j with initial + X(j+1) − Y(Q) > size (Y(Q) added on both sides).
pub fn first_overflow(initial: u32, size: u32, producer: &Side, consumer: &Side) -> Option<u64> {
    (0..jobs_to_look_at(producer, consumer)).find(|&j| {
        let q = consumer.done_by(producer.release(j));
        u64::from(initial) + producer.sum_of_first(j + 1)
            > u64::from(size) + consumer.sum_of_first(q)
    })
}

/// Tests 13 to 17, in that order, on one channel of a graph.
pub fn judge(graph: &Graph, number: usize) -> Result<(), Reply> {
    let channel: &Channel = &graph.channels[number];
    let side = |task: u8, lists| Side::new(&graph.tasks[usize::from(task)], lists);
    let producer = side(channel.producer, &channel.sides[PRODUCTION]);
    let consumer = side(channel.consumer, &channel.sides[CONSUMPTION]);
    if channel.initial > channel.size {
        return Err(Reply::new(13, number));
    }
    if !balanced(&producer, &consumer) {
        return Err(Reply::new(14, number));
    }
    if window_too_long(&producer, &consumer) {
        return Err(Reply::new(15, number));
    }
    if let Some(k) = first_underflow(channel.initial, &producer, &consumer) {
        return Err(Reply::with_job(16, number, k));
    }
    if let Some(j) = first_overflow(channel.initial, channel.size, &producer, &consumer) {
        return Err(Reply::with_job(17, number, j));
    }
    Ok(())
}

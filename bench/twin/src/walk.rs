//! The taker's first job that is short, by walking every job: what the cases save is measured
//! against this.

use crate::side::Side;

/// Once both prefixes are past, giver and taker do the same again after each window, so the jobs
/// released up to one window later decide for all.
pub fn first_short(taker: &Side, giver: &Side, stock: u64, window: u64) -> Option<u64> {
    let settled = |side: &Side| side.release(side.rates.prefix_len as u64);
    let end = settled(taker).max(settled(giver) + giver.deadline) + window;
    let (mut takes, mut gives) = (flow(taker), flow(giver));
    let mut spare = stock;
    let (mut release, mut done) = (taker.offset, giver.end(0));
    let mut job = 0;
    while release < end {
        while done <= release {
            spare += gives.next();
            done += giver.period;
        }
        let take = takes.next();
        if spare < take {
            return Some(job);
        }
        spare -= take;
        job += 1;
        release += taker.period;
    }
    None
}

/// The rates of jobs 0, 1, 2 and so on without end: the entries still to come before the cycle
/// starts over.
struct Flow<'a> {
    rest: &'a [u16],
    cycle: &'a [u16],
}

fn flow<'a>(side: &Side<'a>) -> Flow<'a> {
    Flow {
        rest: side.rates.prefix(),
        cycle: side.rates.cycle(),
    }
}

impl Flow<'_> {
    fn next(&mut self) -> u64 {
        if self.rest.is_empty() {
            self.rest = self.cycle;
        }
        let (&rate, rest) = self.rest.split_first().expect("a cycle has an entry");
        self.rest = rest;
        rate.into()
    }
}

//! The taker's first job that is short, by stretches and cases.
//!
//! Underflow: the consumer takes tokens, the stock is the initial ones. Overflow: the producer
//! takes room, and the stock is the room at first.

use crate::side::Side;

pub fn first_short(taker: &Side, giver: &Side, stock: u64, window: u64) -> Option<u64> {
    let jobs = reach(taker, giver, stock, window);
    let (mut job, mut ended, mut end) = (0, 0, giver.end(0));
    while job < jobs {
        let release = taker.release(job);
        let more = passed(end, giver.period, release);
        ended += more;
        end += more * giver.period;
        let next = job + 1 + passed(release + taker.period, taker.period, end - 1);
        let have = stock + giver.total(ended);
        if have < taker.total(next) {
            return Some(first_above(taker, have, job, next));
        }
        job = next;
    }
    None
}

/// How many jobs have to be searched.
fn reach(taker: &Side, giver: &Side, stock: u64, window: u64) -> u64 {
    let over = giver.end(giver.rates.prefix_len as u64);
    let settled = over.saturating_sub(taker.offset) / taker.period + 1;
    let first = settled.max(taker.rates.prefix_len as u64);
    let all = first + window / taker.period;
    let cases = (taker.rates.cycle_len * giver.rates.cycle_len) as u64;
    if 8 * all <= cases || case_short(taker, giver, stock, window) {
        return all;
    }
    first
}

/// How many of the ticks first, first + period and so on are no later than this one.
fn passed(first: u64, period: u64, tick: u64) -> u64 {
    if tick < first {
        0
    } else if tick < first + period {
        1
    } else {
        (tick + period - first) / period
    }
}

/// The first job from `low` on with which the total is above `have`, by halves.
fn first_above(side: &Side, have: u64, mut low: u64, to: u64) -> u64 {
    let mut high = to - 1;
    while low < high {
        let mid = low + (high - low) / 2;
        if have < side.total(mid + 1) {
            high = mid;
        } else {
            low = mid + 1;
        }
    }
    low
}

/// One of the cases is short: a place in the taker's cycle against one in the giver's.
fn case_short(taker: &Side, giver: &Side, stock: u64, window: u64) -> bool {
    let step = taker.span() * giver.span() / window;
    let start = taker.rates.prefix_len;
    (start..start + taker.rates.cycle_len).any(|place| {
        let tick = taker.release(place as u64);
        row_short(giver, stock, step, tick, taker.sums[place + 1])
    })
}

fn row_short(giver: &Side, stock: u64, step: u64, tick: u64, wants: u64) -> bool {
    let (span, turn) = (giver.span(), giver.turn());
    let start = giver.rates.prefix_len;
    let pace = giver.period % step;
    let mut end = giver.end(start as u64);
    let mut rest = (end + step - 1 - tick % step) % step;
    for sum in &giver.sums[start..start + giver.rates.cycle_len] {
        let before = rest + 1;
        let has = stock + sum;
        if before <= giver.period && has * span + turn * (tick + before) < wants * span + turn * end
        {
            return true;
        }
        end += giver.period;
        rest += pace;
        if rest >= step {
            rest -= step;
        }
    }
    false
}

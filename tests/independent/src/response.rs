//! Rules "Response" and "Load": tests 11 and 12.

use crate::graph::Task;

/// The whole processor, in the parts that shares are counted in.
const WHOLE: u64 = 1 << 32;

/// A task of smaller priority number, seen at some w.
struct Above {
    worst: u64,
    period: u64,
    /// C_j / T_j in parts of WHOLE, rounded down.
    share: u64,
    /// C_j × ⌈w / T_j⌉.
    work: u64,
    /// T_j × ⌈w / T_j⌉: up to here the work stays what it is.
    until: u64,
}

impl Above {
    /// The task j at w = 0, where ⌈w / T_j⌉ is 0.
    fn new(j: &Task) -> Above {
        let (worst, period) = (u64::from(j.worst), u64::from(j.period));
        Above {
            worst,
            period,
            share: worst * WHOLE / period,
            work: 0,
            until: 0,
        }
    }

    /// Goes on to a larger w. Up to `until` the quotient rounded up is the same, so there is nothing to do.
    fn go_on_to(&mut self, w: u64) {
        if w > self.until {
            let jobs = w.div_ceil(self.period);
            self.work = self.worst * jobs;
            self.until = self.period * jobs;
        }
    }
}

/// Rule "Response": the least w from 1 to D_i whose demand is at most w, or none (late).
///
/// The loop keeps: no v below w has a demand of at most v. So the first w that has one is the least.
/// Where w itself has a larger demand, it moves to the bound that `next` gives, and that keeps this.
pub fn response(tasks: &[Task], i: usize) -> Option<u32> {
    let smaller = tasks.iter().filter(|j| j.priority < tasks[i].priority);
    let mut above: Vec<Above> = smaller.map(Above::new).collect();
    let own = u64::from(tasks[i].worst);
    let (mut w, mut leap) = (1, 0);
    while w <= u64::from(tasks[i].deadline) {
        above.iter_mut().for_each(|a| a.go_on_to(w));
        let demand = own + above.iter().map(|a| a.work).sum::<u64>();
        if demand <= w {
            return u32::try_from(w).ok();
        }
        let further = next(own, &above, demand, w + leap)?;
        (w, leap) = (further, further - w);
    }
    None
}

/// Given a w that is below its demand, a bound above w that no fitting x lies below; none if no x fits at all.
///
/// Why: demand never falls as w grows, so x > w fits only if x ≥ demand(x) ≥ demand(w): the first bound.
/// For the second, split the tasks above into two heaps in any way. For every x ≥ w each task asks at
/// least its work at w, and also at least x × its share / WHOLE (the quotient of the rule is rounded up,
/// the share down). Take the first figure for one heap and the second for the other: x fits only if
/// held + x × flowing / WHOLE ≤ x, that is x ≥ held × WHOLE / (WHOLE − flowing).
/// If flowing is the whole or more, no x fits, as held is at least C_i ≥ 1.
/// Which heap a task stands in is only a matter of speed: here those flow whose work grows before `reach`,
/// a guess of the next bound (as far from w as the last step went).
fn next(own: u64, above: &[Above], demand: u64, reach: u64) -> Option<u64> {
    let mut held = own;
    let mut flowing = 0;
    for a in above {
        if a.until < reach {
            flowing += a.share;
        } else {
            held += a.work;
        }
    }
    if flowing >= WHOLE {
        return None;
    }
    let second = (held * WHOLE).div_ceil(WHOLE - flowing);
    Some(demand.max(second))
}

/// Rule "Load", test 12: the sum over tasks of ⌊C × 1,000,000 / T⌋ is above 1,000,000.
pub fn load_too_high(tasks: &[Task]) -> bool {
    let millionths = |t: &Task| u64::from(t.worst) * 1_000_000 / u64::from(t.period);
    tasks.iter().map(millionths).sum::<u64>() > 1_000_000
}

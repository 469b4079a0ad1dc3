//! One side of a channel: when its task's jobs run and what each moves.

use crate::graph::{Graph, Rates, Task};

pub struct Side<'a> {
    pub offset: u64,
    pub period: u64,
    pub deadline: u64,
    pub rates: &'a Rates,
    /// What the first jobs move: at place i, the first i, up to prefix and one turn.
    pub sums: [u64; Graph::PREFIX + Graph::CYCLE + 1],
}

impl<'a> Side<'a> {
    pub fn of(task: &Task, rates: &'a Rates) -> Side<'a> {
        let mut sums = [0; Graph::PREFIX + Graph::CYCLE + 1];
        let mut sum = 0;
        let entries = rates.prefix().iter().chain(rates.cycle());
        for (place, &rate) in sums[1..].iter_mut().zip(entries) {
            sum += u64::from(rate);
            *place = sum;
        }
        Side {
            offset: task.offset.into(),
            period: task.period.into(),
            deadline: task.deadline.into(),
            rates,
            sums,
        }
    }

    /// What one turn of the cycle moves.
    pub fn turn(&self) -> u64 {
        let prefix = self.rates.prefix_len;
        self.sums[prefix + self.rates.cycle_len] - self.sums[prefix]
    }

    /// The ticks that one turn of the cycle takes.
    pub fn span(&self) -> u64 {
        self.period * self.rates.cycle_len as u64
    }

    pub fn release(&self, job: u64) -> u64 {
        self.offset + job * self.period
    }

    /// The first tick behind a job's window.
    pub fn end(&self, job: u64) -> u64 {
        self.release(job) + self.deadline
    }

    /// What the first m jobs move.
    pub fn total(&self, m: u64) -> u64 {
        let (prefix, cycle) = (self.rates.prefix_len, self.rates.cycle_len);
        if m <= (prefix + cycle) as u64 {
            return self.sums[m as usize];
        }
        let past = m - prefix as u64;
        let place = prefix + (past % cycle as u64) as usize;
        self.sums[place] + past / cycle as u64 * self.turn()
    }
}

//! Tests 11 and 12: response times and load.

use crate::graph::{Graph, Task};

/// R of a task: the least w from 1 to its deadline whose demand is at most w, if there is one.
pub fn response(task: &Task, tasks: &[Task]) -> Option<u32> {
    let mut costs = [0; Graph::TASKS];
    let mut periods = [0; Graph::TASKS];
    let mut count = 0;
    for other in tasks.iter().filter(|t| t.priority < task.priority) {
        costs[count] = other.worst;
        periods[count] = other.period;
        count += 1;
    }
    let (costs, periods) = (&costs[..count], &periods[..count]);
    (1..=task.deadline).find(|&w| demand(task.worst, costs, periods, w) <= u64::from(w))
}

/// The task's own worst time and, of every task that interferes, C × ⌈w / T⌉; w is at least 1.
fn demand(own: u32, costs: &[u32], periods: &[u32], w: u32) -> u64 {
    let pairs = costs.iter().zip(periods);
    pairs.fold(u64::from(own), |sum, (&cost, &period)| {
        sum + u64::from(cost) * (u64::from((w - 1) / period) + 1)
    })
}

/// The sum of ⌊C × 1,000,000 / T⌋ is above 1,000,000.
pub fn overloaded(tasks: &[Task]) -> bool {
    let share = |t: &Task| u64::from(t.worst) * 1_000_000 / u64::from(t.period);
    tasks.iter().map(share).sum::<u64>() > 1_000_000
}

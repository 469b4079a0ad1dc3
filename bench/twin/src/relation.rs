//! Test 10: what a relation says of two tasks.

use crate::graph::{Relation, Task};

/// d × T_p = n × T_q and n × (O_q − O_p) = φ × T_p, in signed whole numbers.
pub fn holds(relation: &Relation, tasks: &[Task]) -> bool {
    let p = &tasks[usize::from(relation.p)];
    let q = &tasks[usize::from(relation.q)];
    let (n, d) = (i64::from(relation.n), i64::from(relation.d));
    let (period, other) = (i64::from(p.period), i64::from(q.period));
    let shift = i64::from(q.offset) - i64::from(p.offset);
    d * period == n * other && n * shift == i64::from(relation.phi) * period
}

//! Rule "Relations" and test 10.

use crate::graph::{Graph, Relation, Task};

/// Rule "Relations": d × T_p = n × T_q, and n × (O_q − O_p) = φ × T_p, in signed whole numbers.
pub fn holds(relation: &Relation, p: &Task, q: &Task) -> bool {
    let n = i64::from(relation.n);
    let d = i64::from(relation.d);
    let phase = i64::from(relation.phase);
    let (period_p, period_q) = (i64::from(p.period), i64::from(q.period));
    let (offset_p, offset_q) = (i64::from(p.offset), i64::from(q.offset));
    d * period_p == n * period_q && n * (offset_q - offset_p) == phase * period_p
}

/// Test 10: the first relation that is false.
pub fn first_false(graph: &Graph) -> Option<usize> {
    graph.relations.iter().position(|relation| {
        let p = &graph.tasks[usize::from(relation.p)];
        let q = &graph.tasks[usize::from(relation.q)];
        !holds(relation, p, q)
    })
}

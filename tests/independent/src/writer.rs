//! The writer: the bytes of a graph, in the one order that the reader takes.

use crate::graph::{Channel, Graph, Relation, Task};

/// The file of a graph: kinds in rising order, rates by rising (channel, side, part).
pub fn bytes_of(graph: &Graph) -> Vec<u8> {
    let mut out = Vec::new();
    for task in &graph.tasks {
        put_task(&mut out, task);
    }
    for channel in &graph.channels {
        put_channel(&mut out, channel);
    }
    for (number, channel) in (0u8..).zip(&graph.channels) {
        put_rates(&mut out, number, channel);
    }
    for relation in &graph.relations {
        put_relation(&mut out, relation);
    }
    out
}

/// Kind 1: period, offset, deadline, worst time (4 each), priority (1).
fn put_task(out: &mut Vec<u8>, task: &Task) {
    out.push(1);
    out.extend(task.period.to_be_bytes());
    out.extend(task.offset.to_be_bytes());
    out.extend(task.deadline.to_be_bytes());
    out.extend(task.worst.to_be_bytes());
    out.push(task.priority);
}

/// Kind 2: producer, consumer (1 each), initial, size (4 each).
fn put_channel(out: &mut Vec<u8>, channel: &Channel) {
    out.extend([2, channel.producer, channel.consumer]);
    out.extend(channel.initial.to_be_bytes());
    out.extend(channel.size.to_be_bytes());
}

/// Kind 3, once per entry: channel, side, part (1 each), tokens (2).
fn put_rates(out: &mut Vec<u8>, number: u8, channel: &Channel) {
    for (side, lists) in (0u8..).zip(&channel.sides) {
        for (part, list) in (0u8..).zip(lists) {
            for tokens in list {
                out.extend([3, number, side, part]);
                out.extend(tokens.to_be_bytes());
            }
        }
    }
}

/// Kind 4: p, q (1 each), n (4), phase (4, signed two's complement), d (4).
fn put_relation(out: &mut Vec<u8>, relation: &Relation) {
    out.extend([4, relation.p, relation.q]);
    out.extend(relation.n.to_be_bytes());
    out.extend(relation.phase.to_be_bytes());
    out.extend(relation.d.to_be_bytes());
}

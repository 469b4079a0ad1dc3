//! The reader: tests 1 to 5 at each record from the front, then 6 and 7.

use crate::graph::{Channel, Graph, Relation, Task};
use crate::reply::Reply;

/// The length of a record's body by its kind; 0 is no kind.
const BODY: [usize; 5] = [0, 17, 10, 5, 14];

/// What the reader finds and the graph; on a refusal the graph is the empty one.
pub fn read(file: &[u8]) -> (Reply, Graph) {
    let mut graph = Graph::empty();
    let reply = match records(file, &mut graph).and_then(|()| complete(&graph)) {
        Ok(()) => Reply::accepted(graph.task_count),
        Err(refusal) => {
            graph = Graph::empty();
            refusal
        }
    };
    (reply, graph)
}

/// Tests 1 to 5 at each record, which is then put into the graph.
fn records(file: &[u8], graph: &mut Graph) -> Result<(), Reply> {
    let mut at = 0;
    let mut floor = [0; 4];
    while at < file.len() {
        let kind = file[at];
        let refuse = |number| Err(Reply::at(number, at));
        if !(1..=4).contains(&kind) {
            return refuse(1);
        }
        let end = at + 1 + BODY[usize::from(kind)];
        let Some(body) = file.get(at + 1..end) else {
            return refuse(2);
        };
        let rank = rank(kind, body);
        if rank < floor {
            return refuse(3);
        }
        floor = rank;
        if let Err(number) = add(graph, kind, body) {
            return refuse(number);
        }
        at = end;
    }
    Ok(())
}

/// What never goes down: the kind and, among rates, the triple (channel, side, part).
fn rank(kind: u8, body: &[u8]) -> [u8; 4] {
    match kind {
        3 => [3, body[0], body[1], body[2]],
        _ => [kind, 0, 0, 0],
    }
}

/// Tests 4 and 5 at a record of a known kind; a good one joins the graph.
fn add(graph: &mut Graph, kind: u8, body: &[u8]) -> Result<(), u32> {
    match kind {
        1 => add_task(graph, body),
        2 => add_channel(graph, body),
        3 => add_rate(graph, body),
        _ => add_relation(graph, body),
    }
}

fn add_task(graph: &mut Graph, body: &[u8]) -> Result<(), u32> {
    let task = Task {
        period: word(body, 0),
        offset: word(body, 4),
        deadline: word(body, 8),
        worst: word(body, 12),
        priority: body[16],
    };
    if !task.in_range() {
        return Err(4);
    }
    *graph.tasks.get_mut(graph.task_count).ok_or(5u32)? = task;
    graph.task_count += 1;
    Ok(())
}

fn add_channel(graph: &mut Graph, body: &[u8]) -> Result<(), u32> {
    let channel = Channel {
        producer: body[0],
        consumer: body[1],
        initial: word(body, 2),
        size: word(body, 6),
        ..Channel::default()
    };
    if !channel.in_range(graph.task_count) {
        return Err(4);
    }
    *graph.channels.get_mut(graph.channel_count).ok_or(5u32)? = channel;
    graph.channel_count += 1;
    Ok(())
}

fn add_rate(graph: &mut Graph, body: &[u8]) -> Result<(), u32> {
    let (channel, side, part) = (usize::from(body[0]), body[1], body[2]);
    if channel >= graph.channel_count || side > 1 || part > 1 {
        return Err(4);
    }
    let tokens = u16::from_be_bytes([body[3], body[4]]);
    let rates = &mut graph.channels[channel].sides[usize::from(side)];
    if rates.push(part, tokens) {
        Ok(())
    } else {
        Err(5)
    }
}

fn add_relation(graph: &mut Graph, body: &[u8]) -> Result<(), u32> {
    let relation = Relation {
        p: body[0],
        q: body[1],
        n: word(body, 2),
        phi: word(body, 6) as i32,
        d: word(body, 10),
    };
    if !relation.in_range(graph.task_count) {
        return Err(4);
    }
    *graph.relations.get_mut(graph.relation_count).ok_or(5u32)? = relation;
    graph.relation_count += 1;
    Ok(())
}

/// The big-endian number of four bytes that stands at a place of a body.
fn word(body: &[u8], at: usize) -> u32 {
    u32::from_be_bytes([body[at], body[at + 1], body[at + 2], body[at + 3]])
}

/// Tests 6 and 7.
fn complete(graph: &Graph) -> Result<(), Reply> {
    if graph.task_count == 0 {
        return Err(Reply::at(6, 0));
    }
    match graph.empty_cycle() {
        Some(place) => Err(Reply::at(7, place)),
        None => Ok(()),
    }
}

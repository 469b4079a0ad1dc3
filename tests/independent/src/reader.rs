//! The reader: tests 1 to 5 at each record from the front, then 6 and 7.

use crate::Reply;
use crate::graph::{
    CHANNELS, CYCLE, Channel, ENTRIES, Graph, MOST, RELATIONS, Relation, TASKS, Task,
};

/// Body bytes by kind, from the table of section "Graph files".
const BODY: [usize; 5] = [0, 17, 10, 5, 14];

/// One record: a kind and its fields.
enum Record {
    Task(Task),
    Channel(Channel),
    Rate { triple: [u8; 3], tokens: u16 },
    Relation(Relation),
}

/// What rule 3 remembers of the records before: the last kind and the last rate's triple.
#[derive(Default)]
struct Before {
    kind: u8,
    triple: [u8; 3],
}

/// Tests 1 to 7: the graph, or the refusal.
pub fn read(file: &[u8]) -> Result<Graph, Reply> {
    let mut graph = Graph::default();
    let mut before = Before::default();
    let mut at = 0;
    while at < file.len() {
        let record = record_at(file, at, &mut before)?;
        if !in_range(&record, &graph) {
            return Err(Reply::new(4, at));
        }
        if !has_room(&record, &graph) {
            return Err(Reply::new(5, at));
        }
        add(record, &mut graph);
        at += 1 + BODY[usize::from(before.kind)];
    }
    if graph.tasks.is_empty() {
        return Err(Reply::new(6, 0));
    }
    match empty_cycle(&graph) {
        Some(place) => Err(Reply::new(7, place)),
        None => Ok(graph),
    }
}

/// Tests 1, 2 and 3 at the record whose kind stands at this byte offset.
fn record_at(file: &[u8], at: usize, before: &mut Before) -> Result<Record, Reply> {
    let kind = file[at];
    if !(1..=4).contains(&kind) {
        return Err(Reply::new(1, at));
    }
    let Some(body) = file[at + 1..].get(..BODY[usize::from(kind)]) else {
        return Err(Reply::new(2, at));
    };
    let record = fields(kind, body);
    let mut goes_down = kind < before.kind;
    if let Record::Rate { triple, .. } = record {
        goes_down |= triple < before.triple;
        before.triple = triple;
    }
    before.kind = kind;
    if goes_down {
        return Err(Reply::new(3, at));
    }
    Ok(record)
}

/// The fields of a body, in the order of the table of kinds.
fn fields(kind: u8, body: &[u8]) -> Record {
    match kind {
        1 => Record::Task(Task {
            period: four(body, 0),
            offset: four(body, 4),
            deadline: four(body, 8),
            worst: four(body, 12),
            priority: body[16],
        }),
        2 => Record::Channel(Channel {
            producer: body[0],
            consumer: body[1],
            initial: four(body, 2),
            size: four(body, 6),
            ..Channel::default()
        }),
        3 => Record::Rate {
            triple: [body[0], body[1], body[2]],
            tokens: u16::from_be_bytes([body[3], body[4]]),
        },
        _ => Record::Relation(Relation {
            p: body[0],
            q: body[1],
            n: four(body, 2),
            phase: four(body, 6).cast_signed(),
            d: four(body, 10),
        }),
    }
}

/// A big-endian number of four bytes.
fn four(body: &[u8], at: usize) -> u32 {
    u32::from_be_bytes([body[at], body[at + 1], body[at + 2], body[at + 3]])
}

/// Test 4: every field in its range, every number naming a record already read.
fn in_range(record: &Record, graph: &Graph) -> bool {
    let is_task = |number: u8| usize::from(number) < graph.tasks.len();
    match record {
        Record::Task(t) => {
            (1..=MOST).contains(&t.period)
                && t.offset <= MOST
                && (1..=t.period).contains(&t.deadline)
                && (1..=t.deadline).contains(&t.worst)
                && t.priority >= 1
        }
        Record::Channel(c) => {
            is_task(c.producer) && is_task(c.consumer) && c.initial <= MOST && c.size <= MOST
        }
        Record::Rate { triple, .. } => {
            let [channel, side, part] = *triple;
            usize::from(channel) < graph.channels.len() && side <= 1 && part <= 1
        }
        Record::Relation(r) => {
            is_task(r.p)
                && is_task(r.q)
                && (1..=MOST).contains(&r.n)
                && r.phase.unsigned_abs() <= MOST
                && (1..=MOST).contains(&r.d)
        }
    }
}

/// Test 5: the count, or the list that the rate appends to, allows one more.
fn has_room(record: &Record, graph: &Graph) -> bool {
    match record {
        Record::Task(_) => graph.tasks.len() < TASKS,
        Record::Channel(_) => graph.channels.len() < CHANNELS,
        Record::Rate { triple, .. } => {
            let [channel, side, part] = triple.map(usize::from);
            graph.channels[channel].sides[side][part].len() < ENTRIES[part]
        }
        Record::Relation(_) => graph.relations.len() < RELATIONS,
    }
}

/// Puts a record that passed 1 to 5 at the end of what it belongs to.
fn add(record: Record, graph: &mut Graph) {
    match record {
        Record::Task(task) => graph.tasks.push(task),
        Record::Channel(channel) => graph.channels.push(channel),
        Record::Rate { triple, tokens } => {
            let [channel, side, part] = triple.map(usize::from);
            graph.channels[channel].sides[side][part].push(tokens);
        }
        Record::Relation(relation) => graph.relations.push(relation),
    }
}

/// Test 7: the smallest 2 × channel + side whose cycle has no entries.
fn empty_cycle(graph: &Graph) -> Option<usize> {
    (0..2 * graph.channels.len())
        .find(|place| graph.channels[place / 2].sides[place % 2][CYCLE].is_empty())
}

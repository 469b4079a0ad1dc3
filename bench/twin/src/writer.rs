//! The writer: the one file that reads as a graph.

use crate::graph::{Channel, Graph, Rates, Relation, Task};
use crate::reply::Reply;

/// Fills the first bytes of `out` with the graph's file and keeps the rest; on 18 and 19 it
/// writes nothing.
pub fn write(graph: &Graph, out: &mut [u8]) -> Reply {
    if !graph.well_formed() {
        return Reply::at(18, 0);
    }
    let needed = file_len(graph);
    if out.len() < needed {
        return Reply::at(19, needed);
    }
    put_graph(graph, &mut Out { bytes: out, at: 0 });
    Reply::accepted(graph.task_count)
}

fn file_len(graph: &Graph) -> usize {
    let sides = graph.channels().iter().flat_map(|c| &c.sides);
    let rates: usize = sides.map(|s| s.prefix_len + s.cycle_len).sum();
    18 * graph.task_count + 11 * graph.channel_count + 6 * rates + 15 * graph.relation_count
}

/// The output and how far it is filled.
struct Out<'a> {
    bytes: &'a mut [u8],
    at: usize,
}

impl Out<'_> {
    fn put(&mut self, bytes: &[u8]) {
        self.bytes[self.at..self.at + bytes.len()].copy_from_slice(bytes);
        self.at += bytes.len();
    }

    fn word(&mut self, number: u32) {
        self.put(&number.to_be_bytes());
    }
}

fn put_graph(graph: &Graph, out: &mut Out) {
    for task in graph.tasks() {
        put_task(task, out);
    }
    for channel in graph.channels() {
        put_channel(channel, out);
    }
    for (index, channel) in graph.channels().iter().enumerate() {
        for (side, rates) in channel.sides.iter().enumerate() {
            put_rates(index as u8, side as u8, rates, out);
        }
    }
    for relation in graph.relations() {
        put_relation(relation, out);
    }
}

fn put_task(task: &Task, out: &mut Out) {
    out.put(&[1]);
    out.word(task.period);
    out.word(task.offset);
    out.word(task.deadline);
    out.word(task.worst);
    out.put(&[task.priority]);
}

fn put_channel(channel: &Channel, out: &mut Out) {
    out.put(&[2, channel.producer, channel.consumer]);
    out.word(channel.initial);
    out.word(channel.size);
}

fn put_rates(channel: u8, side: u8, rates: &Rates, out: &mut Out) {
    for (part, list) in [rates.prefix(), rates.cycle()].into_iter().enumerate() {
        for tokens in list {
            out.put(&[3, channel, side, part as u8]);
            out.put(&tokens.to_be_bytes());
        }
    }
}

fn put_relation(relation: &Relation, out: &mut Out) {
    out.put(&[4, relation.p, relation.q]);
    out.word(relation.n);
    out.word(relation.phi as u32);
    out.word(relation.d);
}

//! Small harm: to a graph, so that one rule is just broken, to records, and to bytes.

use crate::record::Record;
use crate::rng::Rng;
use crate::sketch::Sketch;

/// Breaks one rule of a graph that has what it takes: 7, 8, 10, 11, 13, 14, 16 or 17.
pub fn spoil(rng: &mut Rng, sketch: &mut Sketch) {
    let harms = [
        no_cycle,
        twin_priority,
        false_relation,
        late_task,
        initial_above_size,
        unbalanced,
        short_of_tokens,
        short_of_room,
    ];
    rng.pick(&harms)(rng, sketch);
}

fn no_cycle(rng: &mut Rng, sketch: &mut Sketch) {
    if let Some(channel) = any(rng, sketch.links.len()) {
        sketch.links[channel].sides[rng.index(2)].cycle.clear();
    }
}

fn twin_priority(rng: &mut Rng, sketch: &mut Sketch) {
    let count = sketch.tasks.len();
    let (from, to) = (rng.index(count), rng.index(count));
    sketch.tasks[to].priority = sketch.tasks[from].priority;
}

/// One number of a relation is off by one, or its tasks change places.
fn false_relation(rng: &mut Rng, sketch: &mut Sketch) {
    let Some(index) = any(rng, sketch.relations.len()) else {
        return;
    };
    let relation = &mut sketch.relations[index];
    match rng.below(6) {
        0 => relation.n += 1,
        1 => relation.d += 1,
        2 => relation.phi += 1,
        3 => relation.phi -= 1,
        4 => relation.phi = -relation.phi,
        _ => std::mem::swap(&mut relation.p, &mut relation.q),
    }
}

/// A worst time or a deadline as far as it goes.
fn late_task(rng: &mut Rng, sketch: &mut Sketch) {
    let index = rng.index(sketch.tasks.len());
    let task = &mut sketch.tasks[index];
    if rng.percent(50) {
        task.worst = task.deadline;
    } else {
        task.deadline = task.worst + rng.below(3).min((task.period - task.worst).into()) as u32;
    }
}

fn initial_above_size(rng: &mut Rng, sketch: &mut Sketch) {
    if let Some(channel) = any(rng, sketch.links.len()) {
        let link = &mut sketch.links[channel];
        link.size = link.initial;
        link.initial += 1;
    }
}

fn unbalanced(rng: &mut Rng, sketch: &mut Sketch) {
    if let Some(channel) = any(rng, sketch.links.len()) {
        let cycle = &mut sketch.links[channel].sides[rng.index(2)].cycle;
        let place = rng.index(cycle.len());
        cycle[place] ^= 1;
    }
}

/// One initial token less than a channel needs.
fn short_of_tokens(rng: &mut Rng, sketch: &mut Sketch) {
    if let Some(channel) = any(rng, sketch.links.len()) {
        sketch.fit(channel, 0);
        let link = &mut sketch.links[channel];
        link.initial = link.initial.saturating_sub(1);
    }
}

/// One place less than a channel needs.
fn short_of_room(rng: &mut Rng, sketch: &mut Sketch) {
    if let Some(channel) = any(rng, sketch.links.len()) {
        sketch.fit(channel, 0);
        let link = &mut sketch.links[channel];
        link.size = link.size.saturating_sub(1);
    }
}

/// An index of a list, if it has entries; often the last.
fn any(rng: &mut Rng, len: usize) -> Option<usize> {
    let last = len.checked_sub(1)?;
    Some(if rng.percent(15) {
        last
    } else {
        rng.index(len)
    })
}

/// The values at which some range or count ends, and their neighbours.
const EDGES: [u32; 25] = [
    0,
    1,
    2,
    15,
    16,
    17,
    31,
    32,
    33,
    63,
    64,
    65,
    254,
    255,
    65_535,
    65_536,
    999_999,
    1_000_000,
    1_000_001,
    0x7fff_ffff,
    0x8000_0000,
    u32::MAX,
    -999_999i32 as u32,
    -1_000_000i32 as u32,
    -1_000_001i32 as u32,
];

/// Puts one field of one record on an edge, next to its own value, or next to the field before,
/// which bounds it where it is a deadline or a worst time.
pub fn edge(rng: &mut Rng, records: &mut [Record]) {
    let Some(index) = any(rng, records.len()) else {
        return;
    };
    let fields = &mut records[index].fields;
    let place = rng.index(fields.len());
    let near = rng.pick(&[u32::MAX, 0, 1]);
    fields[place] = match rng.below(4) {
        0 => fields[place].wrapping_add(near),
        1 => fields[place.saturating_sub(1)].wrapping_add(near),
        2 if place == 2 => fields[0].wrapping_add(near),
        _ => rng.pick(&EDGES),
    };
}

/// Harms the order or the number of the records.
pub fn reorder(rng: &mut Rng, records: &mut Vec<Record>) {
    let Some(index) = any(rng, records.len()) else {
        return;
    };
    let other = rng.index(records.len());
    let next = (index + 1).min(records.len() - 1);
    match rng.below(5) {
        0 => records.swap(index, other),
        1 => records.swap(index, next),
        2 => drop(records.remove(index)),
        3 => records.insert(index, records[index].clone()),
        _ => records.insert(index, records[other].clone()),
    }
}

/// Harms up to three bytes: flips, swaps, insertions, deletions.
pub fn bytes(rng: &mut Rng, file: &mut Vec<u8>) {
    for _ in 0..rng.within(1, 3) {
        let Some(at) = any(rng, file.len()) else {
            return;
        };
        let other = rng.index(file.len());
        match rng.below(6) {
            0 => file[at] ^= 1 << rng.below(8),
            1 => file[at] = rng.byte(),
            2 => file[at] = rng.below(6) as u8,
            3 => file.swap(at, other),
            4 => file.insert(at, rng.below(6) as u8),
            _ => drop(file.remove(at)),
        }
    }
}

/// Cuts a file off anywhere.
pub fn cut(rng: &mut Rng, file: &mut Vec<u8>) {
    let len = rng.index(file.len() + 1);
    file.truncate(len);
}

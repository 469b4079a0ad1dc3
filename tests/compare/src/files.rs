//! Every sort of file that the checkers are asked about.

use crate::damage;
use crate::record::{self, Record};
use crate::rng::Rng;
use crate::sketch::{self, Link, Lists, Relation, Shape, Sketch, Task};

/// A sort's name, how many of ten thousand files are of it, and how one is made.
pub type Sort = (&'static str, u64, fn(&mut Rng) -> Vec<u8>);

pub const SORTS: [Sort; 17] = [
    ("valid", 2950, valid),
    ("large", 250, large),
    ("spoilt", 2500, spoilt),
    ("edge", 1500, edge),
    ("reordered", 600, reordered),
    ("damaged", 500, damaged),
    ("truncated", 400, truncated),
    ("counts", 150, counts),
    ("loose", 500, loose),
    ("random", 200, random),
    ("window", 200, window),
    ("wrapped", 100, wrapped),
    ("full", 10, full),
    ("far", 15, far),
    ("deep", 40, deep),
    ("slow", 15, slow),
    ("long", 70, long),
];

/// The next file and the index of its sort.
pub fn next(rng: &mut Rng) -> (usize, Vec<u8>) {
    let mut mark = rng.below(SORTS.iter().map(|sort| sort.1).sum());
    for (index, (_, share, make)) in SORTS.iter().enumerate() {
        if mark < *share {
            return (index, make(rng));
        }
        mark -= share;
    }
    unreachable!("the mark is below the sum")
}

fn small(rng: &mut Rng) -> Shape {
    let tasks = 1 + rng.index(6);
    let load = 2 * tasks as u64;
    Shape {
        tasks,
        links: rng.index(5),
        relations: rng.index(4),
        prefix: rng.pick(&[2, 3, 16]),
        cycle: rng.pick(&[1, 2, 4, 4, 8]),
        base: rng.within(load, 6 * load),
    }
}

fn sketch(rng: &mut Rng) -> Sketch {
    let shape = small(rng);
    Sketch::new(rng, &shape)
}

/// Few records; nearly all accepted.
fn valid(rng: &mut Rng) -> Vec<u8> {
    record::file(&sketch(rng).records())
}

/// Many records; half of them harmed, most others accepted.
fn large(rng: &mut Rng) -> Vec<u8> {
    let shape = Shape {
        tasks: rng.pick(&[8, 20, 31, 32]),
        links: rng.pick(&[8, 30, 63, 64]),
        relations: rng.pick(&[0, 20, 63, 64]),
        prefix: 16,
        cycle: rng.pick(&[4, 32]),
        base: rng.within(70, 300),
    };
    let mut sketch = Sketch::new(rng, &shape);
    if rng.percent(50) {
        damage::spoil(rng, &mut sketch);
    }
    record::file(&sketch.records())
}

/// One rule just broken.
fn spoilt(rng: &mut Rng) -> Vec<u8> {
    let mut shape = small(rng);
    shape.links += 1;
    shape.relations += 1;
    let mut sketch = Sketch::new(rng, &shape);
    damage::spoil(rng, &mut sketch);
    record::file(&sketch.records())
}

/// One field at the edge of some range. Few tasks, since a deadline may become a million.
fn edge(rng: &mut Rng) -> Vec<u8> {
    let mut shape = small(rng);
    shape.tasks = shape.tasks.min(3);
    shape.links = shape.links.min(2);
    let mut records = Sketch::new(rng, &shape).records();
    damage::edge(rng, &mut records);
    record::file(&records)
}

fn reordered(rng: &mut Rng) -> Vec<u8> {
    let mut records = sketch(rng).records();
    damage::reorder(rng, &mut records);
    record::file(&records)
}

fn damaged(rng: &mut Rng) -> Vec<u8> {
    let mut file = valid(rng);
    damage::bytes(rng, &mut file);
    file
}

fn truncated(rng: &mut Rng) -> Vec<u8> {
    let mut file = valid(rng);
    match rng.below(8) {
        0 => file.clear(),
        _ => damage::cut(rng, &mut file),
    }
    file
}

/// Each count at its limit or one less, and mostly one of them one more.
fn counts(rng: &mut Rng) -> Vec<u8> {
    let mut counts = [32, 64, 64, 16, 32].map(|limit| limit - rng.index(2));
    if rng.percent(80) {
        counts[rng.index(5)] += 1;
    }
    let [tasks, links, relations, prefix, cycle] = counts;
    let mut sketch = even(tasks);
    sketch.relations = vec![same(); relations];
    sketch.links = (0..links).map(|_| idle(rng, &[1, 2, 32])).collect();
    sketch.links[rng.index(links)] = idle(rng, &[cycle]);
    sketch.links[rng.index(links)].sides[rng.index(2)].prefix = vec![0; prefix];
    let mut records = sketch.records();
    match rng.below(8) {
        0 => damage::edge(rng, &mut records),
        1 => damage::reorder(rng, &mut records),
        _ => {}
    }
    record::file(&records)
}

/// A channel that moves nothing, with cycles of some of these lengths.
fn idle(rng: &mut Rng, lens: &[usize]) -> Link {
    let sides = [0; 2].map(|_| Lists {
        prefix: vec![],
        cycle: vec![0; rng.pick(lens)],
    });
    Link {
        producer: rng.index(31),
        consumer: rng.index(31),
        initial: rng.below(2),
        size: 1,
        sides,
    }
}

/// So many tasks, all alike but for their priorities.
fn even(count: usize) -> Sketch {
    Sketch {
        tasks: (0..count)
            .map(|place| task(64, 64, 1, 1 + place as u64))
            .collect(),
        ..Sketch::default()
    }
}

/// A relation of task 0 to itself.
fn same() -> Relation {
    Relation {
        n: 7,
        d: 7,
        ..Relation::default()
    }
}

/// Records in order with fields that need not fit each other.
fn loose(rng: &mut Rng) -> Vec<u8> {
    let mut records: Vec<Record> = (0..rng.within(1, 12)).map(|_| loose_record(rng)).collect();
    if rng.percent(90) {
        records.sort_by_key(Record::rank);
    }
    record::file(&records)
}

fn loose_record(rng: &mut Rng) -> Record {
    let mut up_to = |high: u64| rng.below(high + 1) as u32;
    match up_to(3) {
        0 => {
            let period = 1 + up_to(40);
            let deadline = 1 + up_to(period.into());
            let fields = [period, up_to(50), deadline, 1 + up_to(2), 1 + up_to(20)];
            Record::new(1, &fields)
        }
        1 => Record::new(2, &[up_to(1), up_to(1), up_to(9), 5 + up_to(20)]),
        2 => Record::new(3, &[up_to(1), up_to(1), up_to(1), up_to(3)]),
        _ => Record::new(
            4,
            &[up_to(1), up_to(1), 1 + up_to(3), up_to(3), 1 + up_to(3)],
        ),
    }
}

/// Bytes without sense, half of them with a kind in front.
fn random(rng: &mut Rng) -> Vec<u8> {
    let len = rng.pick(&[1, 5, 20, 100, 1000]);
    let mut file: Vec<u8> = (0..rng.index(len + 1)).map(|_| rng.byte()).collect();
    if !file.is_empty() && rng.percent(50) {
        file[0] = rng.within(1, 4) as u8;
    }
    file
}

/// One channel whose window is near 65,536 of the shorter period.
fn window(rng: &mut Rng) -> Vec<u8> {
    let turns = rng.pick(&[1, 8]);
    let lens = [0; 2].map(|_| (rng.index(3), 1 + rng.index(turns)));
    let (scale, short) = (rng.within(1, 3), rng.within(2, 6));
    let target = rng.within(65_533, 65_540);
    let long = target.div_ceil(lens[1].1 as u64);
    let (short, long) = (scale * short, scale * long);
    let tasks = [short, long].map(|period| (period, rng.below(2 * period)));
    let mut sketch = pair(rng, tasks);
    let flip = rng.index(2);
    let link = sketch::link(rng, &sketch.tasks, flip, 1 - flip, lens);
    sketch.links.push(link);
    if rng.percent(50) {
        damage::spoil(rng, &mut sketch);
    }
    record::file(&sketch.records())
}

/// Balance or a relation that holds for the lowest 32 bits of the products alone.
fn wrapped(rng: &mut Rng) -> Vec<u8> {
    let half = 1 << 16;
    let offset = rng.below(2) * half;
    let mut sketch = pair(rng, [(half, 0), (half, offset)]);
    let few = rng.within(1, 20) as u32;
    let near = rng.pick(&[0, 0, 1]);
    let (d, phi) = match rng.below(3) {
        0 => (few + half as u32, 0),
        1 => (few, half as i32),
        _ => (few, few as i32 * (offset / half) as i32),
    };
    sketch.relations.push(Relation {
        p: 0,
        q: 1,
        n: few,
        phi: phi + near,
        d,
    });
    if rng.percent(50) {
        let cycle = vec![1 << 15; 2 * rng.within(1, 8) as usize];
        let mut link = idle(rng, &[2, 4]);
        (link.producer, link.consumer) = (0, 1);
        link.sides[rng.index(2)].cycle = cycle;
        sketch.links.push(link);
        sketch.relations.clear();
    }
    record::file(&sketch.records())
}

/// As many tokens as one channel can move: the totals pass 32 bits.
fn full(rng: &mut Rng) -> Vec<u8> {
    let mut sketch = pair(rng, [(65_534, 0), (65_535, 0)]);
    let side = |tokens| Lists {
        prefix: vec![65_535; 16],
        cycle: vec![tokens],
    };
    let mut link = Link {
        producer: 0,
        consumer: 1,
        initial: 0,
        size: 0,
        sides: [side(65_534), side(65_535)],
    };
    if rng.percent(50) {
        (link.producer, link.consumer) = (1, 0);
        link.sides.swap(0, 1);
    }
    sketch.links.push(link);
    sketch.fit(0, 0);
    if rng.percent(50) {
        damage::spoil(rng, &mut sketch);
    }
    record::file(&sketch.records())
}

/// One channel with a start so late that the broken job, if any, is far along.
fn far(rng: &mut Rng) -> Vec<u8> {
    let short = rng.within(2, 9);
    let most = rng.pick(&[3, 2000]);
    let long = short * rng.within(1, most);
    let mut offsets = [rng.within(300_000, 1_000_000), rng.below(1000)];
    rng.shuffle(&mut offsets);
    let mut sketch = pair(rng, [(short, offsets[0]), (long, offsets[1])]);
    let lens = [0; 2].map(|_| (rng.index(17), 1 + rng.index(3)));
    let flip = rng.index(2);
    let link = sketch::link(rng, &sketch.tasks, flip, 1 - flip, lens);
    sketch.links.push(link);
    if rng.percent(60) {
        damage::spoil(rng, &mut sketch);
    }
    record::file(&sketch.records())
}

/// One channel whose fill drifts through a long window, mostly with a token or a place too few: the
/// broken job is anywhere, often near the window's end.
fn deep(rng: &mut Rng) -> Vec<u8> {
    let turns = rng.pick(&[1, 3, 32]);
    let lens = [0; 2].map(|_| (rng.index(17), 1 + rng.index(turns)));
    let most = 65_536 / (lens[0].1 * lens[1].1) as u64;
    let short = rng.within(most / 2, most).max(8);
    let long = short + rng.within(1, 3);
    let offsets = [rng.below(2 * short), rng.below(2 * long)];
    let mut sketch = pair(rng, [(short, offsets[0]), (long, offsets[1])]);
    let flip = rng.index(2);
    let mut link = sketch::link(rng, &sketch.tasks, flip, 1 - flip, lens);
    match rng.below(3) {
        0 => {}
        1 => link.size = link.size.saturating_sub(1),
        _ => {
            link.initial = link.initial.saturating_sub(1);
            link.size = link.size.saturating_sub(1);
        }
    }
    sketch.links.push(link);
    record::file(&sketch.records())
}

/// Two tasks of given periods and offsets, with little to do.
fn pair(rng: &mut Rng, times: [(u64, u64); 2]) -> Sketch {
    let mut priority = 0;
    let tasks = times.map(|(period, offset)| {
        priority += 1;
        Task {
            period: period as u32,
            offset: offset.min(1_000_000) as u32,
            deadline: rng.within(2.min(period), period) as u32,
            worst: 1,
            priority,
        }
    });
    Sketch {
        tasks: tasks.to_vec(),
        ..Sketch::default()
    }
}

/// A few tasks, the last with a deadline up to a million and as much to do as it can, or a tick
/// more or less.
fn slow(rng: &mut Rng) -> Vec<u8> {
    let count = rng.below(4);
    let deadline = rng.pick(&[300_000, 999_999, 1_000_000]);
    let mut left = deadline + rng.below(3) - 1;
    let mut tasks = Vec::new();
    for place in 0..count {
        let period = rng.within(10, 3000);
        let worst = (period / (2 * count)).max(1);
        left -= worst * deadline.div_ceil(period);
        tasks.push(task(period, period, worst, 1 + place));
    }
    let worst = left.min(deadline);
    tasks.push(task(1_000_000, deadline, worst, 200));
    rng.shuffle(&mut tasks);
    let sketch = Sketch {
        tasks,
        ..Sketch::default()
    };
    record::file(&sketch.records())
}

fn task(period: u64, deadline: u64, worst: u64, priority: u64) -> Task {
    Task {
        period: period as u32,
        offset: 0,
        deadline: deadline as u32,
        worst: worst as u32,
        priority: priority as u8,
    }
}

/// The longest file there is or one like it, perhaps with more behind it, perhaps harmed.
fn long(rng: &mut Rng) -> Vec<u8> {
    let mut sketch = even(32);
    for place in 0..64 {
        let full = |tokens| Lists {
            prefix: vec![tokens; 16],
            cycle: vec![tokens; 32],
        };
        let tokens = rng.below(200) as u16;
        sketch.links.push(Link {
            producer: rng.index(32),
            consumer: place % 32,
            initial: 0,
            size: 0,
            sides: [full(tokens), full(tokens)],
        });
        sketch.fit(place, 0);
    }
    sketch.relations = vec![same(); 64];
    let mut file = record::file(&sketch.records());
    match rng.below(6) {
        0 => damage::bytes(rng, &mut file),
        1 => damage::cut(rng, &mut file),
        2 => lengthen(rng, &mut file),
        3 => file.extend((0..rng.below(40)).map(|_| rng.byte())),
        _ => {}
    }
    file
}

/// Up to 200,000 bytes: relations without end, or what comes.
fn lengthen(rng: &mut Rng, file: &mut Vec<u8>) {
    let len = file.len() + rng.index(160_000);
    if rng.percent(50) {
        let last: Vec<u8> = file[file.len() - 15..].to_vec();
        while file.len() < len {
            file.extend_from_slice(&last);
        }
    } else {
        file.resize_with(len, || rng.byte());
    }
}

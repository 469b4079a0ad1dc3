//! The files that are measured: each kind in growing sizes, the last one the largest or typical.

use compare::record;
use compare::rng::Rng;
use compare::sketch::{self, Link, Lists, Relation, Shape, Sketch, Task};

const MILLION: u64 = 1_000_000;

/// A file, its size in the unit of its case, and the number that it must get.
#[derive(Clone)]
pub struct Sample {
    pub size: String,
    pub file: Vec<u8>,
    pub number: u32,
}

fn sized(size: impl ToString, sketch: &Sketch) -> Sample {
    Sample {
        size: size.to_string(),
        file: record::file(&sketch.records()),
        number: 0,
    }
}

fn task(period: u64, offset: u64, deadline: u64, worst: u64, priority: usize) -> Task {
    Task {
        period: period as u32,
        offset: offset as u32,
        deadline: deadline as u32,
        worst: worst as u32,
        priority: priority as u8,
    }
}

/// All tasks, channels and relations there can be, with so many entries in each list that the
/// rate records are as many as said. 6,144 make the longest file, of 39,104 bytes.
pub fn long() -> Vec<Sample> {
    let sizes = [768, 1536, 3072, 6144];
    sizes.map(|size| sized(size, &full(size / 128))).to_vec()
}

fn full(rates: usize) -> Sketch {
    let lists = Lists {
        prefix: vec![1; rates / 3],
        cycle: vec![1; rates - rates / 3],
    };
    let link = |place: usize| Link {
        producer: place % 32,
        consumer: (place + 1) % 32,
        initial: 2,
        size: 4,
        sides: [lists.clone(), lists.clone()],
    };
    let same = Relation {
        n: 1,
        d: 1,
        ..Relation::default()
    };
    Sketch {
        tasks: (1..=32).map(|p| task(64, 0, 64, 1, p)).collect(),
        links: (0..64).map(link).collect(),
        relations: vec![same; 64],
    }
}

/// Accepted graphs with periods from a thousand ticks up, half loaded; the third is typical.
pub fn typical() -> Vec<Sample> {
    let sizes = [(6, 10, 5), (12, 20, 10), (24, 40, 20), (32, 64, 64)];
    let graph = |(tasks, links, relations)| {
        let size = format!("{tasks}/{links}/{relations}");
        sized(size, &accepted(tasks, links, relations))
    };
    sizes.map(graph).to_vec()
}

fn accepted(tasks: usize, links: usize, relations: usize) -> Sketch {
    let shape = Shape {
        tasks,
        links,
        relations,
        prefix: 3,
        cycle: 4,
        base: 1000,
    };
    let mut rng = Rng::new(24);
    loop {
        let sketch = Sketch::new(&mut rng, &shape);
        let file = record::file(&sketch.records());
        if twin::check_file(&file, &mut [0; 32]).number == 0 {
            return sketch;
        }
    }
}

/// 32 tasks whose response times are all close to the deadline, which is as said.
pub fn response() -> Vec<Sample> {
    let sizes = [125_000, 250_000, 500_000, 1_000_000];
    sizes.map(|size| sized(size, &slow(32, size))).to_vec()
}

/// The same with a deadline of 250,000 and so many tasks.
pub fn response_tasks() -> Vec<Sample> {
    let sizes = [4, 8, 16, 32];
    let graph = |size| sized(size, &slow(size, 250_000));
    sizes.map(graph).to_vec()
}

/// The first task takes nearly all the time, and each other one a little of the rest.
fn slow(tasks: usize, deadline: u64) -> Sketch {
    let little = deadline / 1000;
    let first = deadline - little * (tasks as u64 - 1);
    let worst = |place| if place == 1 { first } else { little };
    let tasks = (1..=tasks).map(|p| task(deadline, 0, deadline, worst(p), p));
    Sketch {
        tasks: tasks.collect(),
        ..Sketch::default()
    }
}

/// 64 channels with a window of so many jobs; 65,536 is the longest.
pub fn windows() -> Vec<Sample> {
    let sizes = [64, 512, 4096, 65_536];
    sizes.map(|size| sized(size, &ratio(size))).to_vec()
}

/// The widest windows: accepted, and with a token or a place too few in the last channel.
pub fn worst() -> Vec<Sample> {
    let graphs = [
        ("2 and 131,072", ratio(65_536)),
        ("65,535 and 65,536", still()),
        ("65,534 and 65,535", near()),
        ("32 x 32 entries", cycles()),
    ];
    let both = |(name, sketch): (&str, Sketch)| {
        let refused = Sample {
            size: format!("{name}, refused"),
            ..refused(sketch.clone())
        };
        [sized(name, &sketch), refused]
    };
    graphs.into_iter().flat_map(both).collect()
}

/// Graph A of the specification, and the longest file.
pub fn whole() -> Vec<Sample> {
    let a = Sample {
        size: "A".into(),
        file: include_bytes!("../../samples/A.graph").to_vec(),
        number: 0,
    };
    vec![a, sized("longest", &full(48))]
}

/// The last channel with one token less at the start, or with one place less if it moves nothing.
fn refused(mut sketch: Sketch) -> Sample {
    let last = sketch.links.last_mut().expect("a channel");
    let number = match last.initial {
        0 => {
            last.sides[1].prefix = [[0; 15].as_slice(), &[1]].concat();
            16
        }
        _ => {
            last.initial -= 1;
            last.size -= 1;
            16
        }
    };
    Sample {
        number,
        ..sized("", &sketch)
    }
}

/// 64 channels alike from the first task to the second, each with just what it needs.
fn alike(tasks: [Task; 2], sides: [Lists; 2]) -> Sketch {
    let link = Link {
        producer: 0,
        consumer: 1,
        initial: 0,
        size: 0,
        sides,
    };
    let mut sketch = Sketch {
        tasks: tasks.to_vec(),
        links: vec![link],
        relations: vec![],
    };
    sketch.fit(0, 0);
    sketch.links = vec![sketch.links[0].clone(); 64];
    sketch
}

/// The producer is as slow as the window allows and starts last, in proportion; the consumer runs
/// every second tick and takes a token in every 32nd job. Prefixes are full.
fn ratio(window: u64) -> Sketch {
    let slow = 2 * window;
    let start = MILLION * window / 65_536;
    let given = (window / 32) as u16;
    let mut cycle = vec![0; 32];
    cycle[31] = 1;
    let production = Lists {
        prefix: vec![given; 16],
        cycle: vec![given],
    };
    let consumption = Lists {
        prefix: vec![0; 16],
        cycle,
    };
    let tasks = [task(slow, start, slow, 1, 2), task(2, 0, 2, 1, 1)];
    alike(tasks, [production, consumption])
}

/// Periods that differ by a tick, in channels that move nothing: only so are they in balance.
fn still() -> Sketch {
    let lists = || Lists {
        prefix: vec![0; 16],
        cycle: vec![0],
    };
    let tasks = [65_535, 65_536].map(|period| task(period, 0, period, 1, period as usize - 65_534));
    alike(tasks, [lists(), lists()])
}

/// Periods that differ by a tick, with as many tokens as a job can move: the fill drifts through
/// the whole window.
fn near() -> Sketch {
    let lists = |tokens| Lists {
        prefix: vec![],
        cycle: vec![tokens],
    };
    let tasks = [65_534, 65_535].map(|period| task(period, 0, period, 1, period as usize - 65_533));
    alike(tasks, [lists(65_534), lists(65_535)])
}

/// Full lists of uneven entries, and a window of 65,536 jobs.
fn cycles() -> Sketch {
    let tasks = [2047, 2048].map(|period| task(period, 0, period, 1, period as usize - 2046));
    let mut rng = Rng::new(3);
    let mut link = sketch::link(&mut rng, &tasks, 0, 1, [(16, 32), (16, 32)]);
    while link.sides[0].cycle.iter().all(|&tokens| tokens == 0) {
        link = sketch::link(&mut rng, &tasks, 0, 1, [(16, 32), (16, 32)]);
    }
    alike(tasks, link.sides)
}

//! Graphs that are mostly accepted: tasks with time to spare, relations that hold, balanced
//! channels whose initial tokens and size are what they need or a little more.

use crate::record::Record;
use crate::rng::Rng;

const MILLION: u64 = 1_000_000;

#[derive(Clone, Copy, Debug, Default)]
pub struct Task {
    pub period: u32,
    pub offset: u32,
    pub deadline: u32,
    pub worst: u32,
    pub priority: u8,
}

#[derive(Clone, Copy, Debug, Default)]
pub struct Relation {
    pub p: u8,
    pub q: u8,
    pub n: u32,
    pub phi: i32,
    pub d: u32,
}

/// The entries of one side of a channel.
#[derive(Clone, Debug, Default)]
pub struct Lists {
    pub prefix: Vec<u16>,
    pub cycle: Vec<u16>,
}

#[derive(Clone, Debug)]
pub struct Link {
    pub producer: usize,
    pub consumer: usize,
    pub initial: u64,
    pub size: u64,
    pub sides: [Lists; 2],
}

#[derive(Clone, Debug, Default)]
pub struct Sketch {
    pub tasks: Vec<Task>,
    pub links: Vec<Link>,
    pub relations: Vec<Relation>,
}

/// How large a graph gets.
pub struct Shape {
    pub tasks: usize,
    pub links: usize,
    pub relations: usize,
    pub prefix: usize,
    pub cycle: usize,
    /// Periods are this times a small number.
    pub base: u64,
}

impl Sketch {
    pub fn new(rng: &mut Rng, shape: &Shape) -> Sketch {
        let mut sketch = Sketch {
            tasks: tasks(rng, shape),
            ..Sketch::default()
        };
        for _ in 0..shape.links {
            let producer = rng.index(shape.tasks);
            let consumer = rng.index(shape.tasks);
            let lens = [0; 2].map(|_| lengths(rng, shape));
            let link = link(rng, &sketch.tasks, producer, consumer, lens);
            sketch.links.push(link);
        }
        for _ in 0..shape.relations {
            let (p, q) = (rng.index(shape.tasks), rng.index(shape.tasks));
            let other = relation(rng, &sketch.tasks, p, q);
            let found = other.or_else(|| relation(rng, &sketch.tasks, p, p));
            sketch.relations.extend(found);
        }
        sketch
    }

    pub fn records(&self) -> Vec<Record> {
        let mut records: Vec<Record> = self.tasks.iter().map(task_record).collect();
        records.extend(self.links.iter().map(link_record));
        for (channel, link) in self.links.iter().enumerate() {
            for (side, lists) in link.sides.iter().enumerate() {
                for (part, list) in [&lists.prefix, &lists.cycle].into_iter().enumerate() {
                    let rate = |&tokens| Record::rate(channel, side, part, tokens);
                    records.extend(list.iter().map(rate));
                }
            }
        }
        records.extend(self.relations.iter().map(relation_record));
        records
    }

    /// Gives a channel the initial tokens and the size that it just needs, and `spare` of each.
    pub fn fit(&mut self, channel: usize, spare: u64) {
        fit(&self.tasks, &mut self.links[channel], spare);
    }
}

fn task_record(t: &Task) -> Record {
    let fields = [t.period, t.offset, t.deadline, t.worst, t.priority.into()];
    Record::new(1, &fields)
}

fn link_record(l: &Link) -> Record {
    let (producer, consumer) = (l.producer as u32, l.consumer as u32);
    Record::new(2, &[producer, consumer, l.initial as u32, l.size as u32])
}

fn relation_record(r: &Relation) -> Record {
    Record::new(4, &[r.p.into(), r.q.into(), r.n, r.phi as u32, r.d])
}

/// Tasks whose load is at most about a half, so that few are late.
fn tasks(rng: &mut Rng, shape: &Shape) -> Vec<Task> {
    let mut tasks: Vec<Task> = (0..shape.tasks).map(|_| task(rng, shape)).collect();
    let mut priorities: Vec<u8> = (1..=255).collect();
    rng.shuffle(&mut priorities);
    priorities.truncate(tasks.len());
    if rng.percent(80) {
        priorities.sort_unstable();
        let mut order: Vec<usize> = (0..tasks.len()).collect();
        order.sort_by_key(|&t| tasks[t].deadline);
        for (task, priority) in order.into_iter().zip(&priorities) {
            tasks[task].priority = *priority;
        }
    } else {
        for (task, priority) in tasks.iter_mut().zip(&priorities) {
            task.priority = *priority;
        }
    }
    tasks
}

fn task(rng: &mut Rng, shape: &Shape) -> Task {
    let period = (shape.base * rng.pick(&[1, 1, 2, 2, 3, 4, 6, 8, 12])).min(MILLION);
    let worst = rng.within(1, (period / (2 * shape.tasks as u64)).max(1));
    let deadline = match rng.below(4) {
        0 => rng.within(worst.max(period / 2), period),
        _ => period,
    };
    let offset = match rng.below(3) {
        0 => 0,
        1 => shape.base * rng.below(9),
        _ => rng.below(3 * period),
    };
    Task {
        period: period as u32,
        offset: offset.min(MILLION) as u32,
        deadline: deadline as u32,
        worst: worst as u32,
        priority: 0,
    }
}

/// How many entries prefix and cycle get: few, mostly, and sometimes as many as they may.
fn lengths(rng: &mut Rng, shape: &Shape) -> (usize, usize) {
    let prefix = if rng.percent(60) { 0 } else { shape.prefix };
    let prefix = rng.index(prefix + 1);
    (prefix, 1 + rng.index(shape.cycle))
}

/// A balanced channel that just has what it needs, or a little more.
pub fn link(
    rng: &mut Rng,
    tasks: &[Task],
    producer: usize,
    consumer: usize,
    lens: [(usize, usize); 2],
) -> Link {
    let spans = [
        u64::from(tasks[producer].period) * lens[0].1 as u64,
        u64::from(tasks[consumer].period) * lens[1].1 as u64,
    ];
    let common = gcd(spans[0], spans[1]);
    let most = (0..2).map(|s| 60_000 * lens[s].1 as u64 / (spans[s] / common));
    let most = most.min().expect("two sides");
    let most = if rng.percent(10) { most } else { most.min(6) };
    let times = rng.below(most + 1);
    let sides = [0, 1].map(|s| Lists {
        prefix: (0..lens[s].0).map(|_| rng.below(5) as u16).collect(),
        cycle: shares(rng, lens[s].1, times * (spans[s] / common)),
    });
    let mut link = Link {
        producer,
        consumer,
        initial: 0,
        size: 0,
        sides,
    };
    let spare = if rng.percent(60) { 0 } else { rng.below(4) };
    fit(tasks, &mut link, spare);
    link
}

/// A sum in so many shares, none above what a rate can be.
fn shares(rng: &mut Rng, count: usize, sum: u64) -> Vec<u16> {
    let mut rest = sum;
    let mut shares = Vec::new();
    for left in (0..count as u64).rev() {
        let least = rest.saturating_sub(left * 65_535);
        let most = rest.min(65_535).max(least);
        let even = (rest / (left + 1)).clamp(least, most);
        let share = match rng.below(3) {
            _ if left == 0 => rest,
            0 => rng.within(least, most),
            _ => even,
        };
        shares.push(share as u16);
        rest -= share;
    }
    shares
}

fn fit(tasks: &[Task], link: &mut Link, spare: u64) {
    let producer = (&tasks[link.producer], &link.sides[0]);
    let consumer = (&tasks[link.consumer], &link.sides[1]);
    link.initial = (need(consumer, producer) + spare).min(MILLION);
    link.size = (link.initial + need(producer, consumer) + spare).min(MILLION);
}

/// The least stock with which no job of the taker is short, by the rules' own formulas over
/// enough jobs.
fn need(taker: (&Task, &Lists), giver: (&Task, &Lists)) -> u64 {
    let (given, taken) = (totals(giver), totals(taker));
    let mut need = 0i64;
    for job in 0..jobs(taker, giver) {
        let release = u64::from(taker.0.offset) + job * u64::from(taker.0.period);
        let ended = ended(giver.0, release);
        need = need.max(taken.of(job + 1) as i64 - given.of(ended) as i64);
    }
    need as u64
}

/// The jobs of the taker that are looked at, within reason.
fn jobs(taker: (&Task, &Lists), giver: (&Task, &Lists)) -> u64 {
    let spans = [taker, giver].map(|(t, l)| u64::from(t.period) * l.cycle.len() as u64);
    let start = [taker, giver]
        .map(|(t, l)| u64::from(t.offset) + u64::from(t.period) * (l.prefix.len() as u64 + 2));
    let window = spans[0] / gcd(spans[0], spans[1]) * spans[1];
    let ticks = start[0].max(start[1]) + window;
    (ticks / u64::from(taker.0.period)).min(1_200_000)
}

/// The jobs of a task whose deadline is at most t.
fn ended(task: &Task, t: u64) -> u64 {
    let first = u64::from(task.offset) + u64::from(task.deadline);
    if t < first {
        return 0;
    }
    (t - first) / u64::from(task.period) + 1
}

/// Sums of the first rates: over the prefix and one turn of the cycle.
struct Totals {
    prefix: Vec<u64>,
    cycle: Vec<u64>,
}

fn totals((_, lists): (&Task, &Lists)) -> Totals {
    let sums = |list: &[u16]| -> Vec<u64> {
        let sum = |n| list[..n].iter().map(|&rate| u64::from(rate)).sum();
        (0..=list.len()).map(sum).collect()
    };
    Totals {
        prefix: sums(&lists.prefix),
        cycle: sums(&lists.cycle),
    }
}

impl Totals {
    /// The sum of the first m rates.
    fn of(&self, m: u64) -> u64 {
        let (prefix, cycle) = (self.prefix.len() - 1, self.cycle.len() - 1);
        if m <= prefix as u64 {
            return self.prefix[m as usize];
        }
        let past = m - prefix as u64;
        let (turns, rest) = (past / cycle as u64, past % cycle as u64);
        self.prefix[prefix] + turns * self.cycle[cycle] + self.cycle[rest as usize]
    }
}

/// A relation that holds between two tasks, if one is in range; it need not be reduced.
fn relation(rng: &mut Rng, tasks: &[Task], p: usize, q: usize) -> Option<Relation> {
    let (a, b) = (&tasks[p], &tasks[q]);
    let (first, second) = (u64::from(a.period), u64::from(b.period));
    let common = gcd(first, second);
    let shift = i64::from(b.offset) - i64::from(a.offset);
    let least = common / gcd(common, shift.unsigned_abs());
    let times = least * rng.within(1, 3);
    let (n, d) = (first / common * times, second / common * times);
    let phi = times as i64 * shift / common as i64;
    let fits = n <= MILLION && d <= MILLION && phi.unsigned_abs() <= MILLION;
    fits.then_some(Relation {
        p: p as u8,
        q: q as u8,
        n: n as u32,
        phi: phi as i32,
        d: d as u32,
    })
}

fn gcd(a: u64, b: u64) -> u64 {
    if b == 0 { a } else { gcd(b, a % b) }
}

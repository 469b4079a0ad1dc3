//! The largest cases: right, and their time printed (run with --nocapture to see it).

mod slow;

use independent::channel::{Side, balanced, first_overflow, first_underflow, window};
use independent::graph::{Channel, Task};
use independent::response::response;
use slow::{Dice, Pair, deadline, rate, release, task};
use std::time::Instant;

/// Rule "Underflow" for consumer jobs up to a last tick, the tokens added up along the way.
fn underflow_along(pair: &Pair, last: u64) -> Option<u64> {
    let (puts, takes) = pair.lists();
    let (mut done, mut fill) = (0, i64::from(pair.channel.initial));
    for k in 0.. {
        let r = release(&pair.consumer, k);
        if r > last {
            break;
        }
        while deadline(&pair.producer, done) <= r {
            fill += rate(puts, done) as i64;
            done += 1;
        }
        fill -= rate(takes, k) as i64;
        if fill < 0 {
            return Some(k);
        }
    }
    None
}

/// Rule "Overflow" for producer jobs up to a last tick, the tokens added up along the way.
fn overflow_along(pair: &Pair, last: u64) -> Option<u64> {
    let (puts, takes) = pair.lists();
    let (mut done, mut fill) = (0, i64::from(pair.channel.initial));
    for j in 0.. {
        let r = release(&pair.producer, j);
        if r > last {
            break;
        }
        while deadline(&pair.consumer, done) <= r {
            fill -= rate(takes, done) as i64;
            done += 1;
        }
        fill += rate(puts, j) as i64;
        if fill > i64::from(pair.channel.size) {
            return Some(j);
        }
    }
    None
}

/// Judges a pair, prints the time, and compares with the runs along the jobs.
fn judge(name: &str, pair: &Pair) -> (Option<u64>, Option<u64>) {
    let (puts, takes) = pair.lists();
    let start = Instant::now();
    let producer = Side::new(&pair.producer, puts);
    let consumer = Side::new(&pair.consumer, takes);
    assert!(balanced(&producer, &consumer));
    let length = window(&producer, &consumer);
    let channel = &pair.channel;
    let found = (
        first_underflow(channel.initial, &producer, &consumer),
        first_overflow(channel.initial, channel.size, &producer, &consumer),
    );
    println!("{name}: {:?}, {found:?}", start.elapsed());
    let last = 3_500_000 + 3 * length;
    let along = (underflow_along(pair, last), overflow_along(pair, last));
    assert_eq!(found, along);
    found
}

/// A side of period 1 with 32 cycle entries that hold 1 token in all, its prefix 16 zeros.
fn fast_side(offset: u32) -> (Task, [Vec<u16>; 2]) {
    let mut cycle = vec![0; 32];
    cycle[31] = 1;
    (task(1, offset, 1, 1, 1), [vec![0; 16], cycle])
}

/// A side of period 65,536 with as many tokens over time: 2,048 a job, also in its prefix of 16.
fn slow_side(offset: u32) -> (Task, [Vec<u16>; 2]) {
    let lists = [vec![2_048; 16], vec![2_048]];
    (task(65_536, offset, 65_536, 1, 2), lists)
}

/// The pair that two sides and two fills make.
fn pair_of(
    producer: (Task, [Vec<u16>; 2]),
    consumer: (Task, [Vec<u16>; 2]),
    initial: u32,
    size: u32,
) -> Pair {
    let channel = Channel {
        producer: 0,
        consumer: 1,
        initial,
        size,
        sides: [producer.1, consumer.1],
    };
    Pair {
        producer: producer.0,
        consumer: consumer.0,
        channel,
    }
}

/// Windows of 65,536 jobs, and two million jobs before them.
#[test]
fn largest_channels() {
    let million = 1_000_000;
    let late_producer = |initial| pair_of(slow_side(million), fast_side(0), initial, million);
    let late_consumer = |size| pair_of(fast_side(0), slow_side(million), 100_000, size);
    // The consumer takes 33,297 tokens before the first producer job's deadline, tick 1,065,536.
    assert_eq!(judge("late producer", &late_producer(40_000)).0, None);
    assert!(judge("late producer, too few", &late_producer(31_000)).0 > Some(900_000));
    assert_eq!(judge("late consumer", &late_consumer(200_000)).1, None);
    assert!(judge("late consumer, too small", &late_consumer(132_000)).1 > Some(900_000));
    judge(
        "together",
        &pair_of(slow_side(0), fast_side(0), 5_000, million),
    );
}

/// Judges the last task, prints the time, and compares with trying each w.
fn answer(name: &str, list: &[Task]) -> Option<u32> {
    let start = Instant::now();
    let found = response(list, list.len() - 1);
    println!("{name}: {:?}, {found:?}", start.elapsed());
    assert_eq!(found, slow::response(list, list.len() - 1), "{list:?}");
    found
}

/// Tasks in order of priority from pairs of period and worst time, each deadline its period.
fn in_order(list: &[(u32, u32)]) -> Vec<Task> {
    let number = |(place, &(period, worst)): (usize, &(u32, u32))| {
        task(period, 0, period, worst, place as u8 + 1)
    };
    list.iter().enumerate().map(number).collect()
}

/// Deadlines of a million ticks where a search by small steps takes long.
#[test]
fn longest_responses() {
    let m = 1_000_000;
    assert_eq!(answer("no room", &in_order(&[(1, 1), (m, 1)])), None);
    answer(
        "2 3 7 43",
        &in_order(&[(2, 1), (3, 1), (7, 1), (43, 1), (m, 550)]),
    );
    answer(
        "1 in 1,000 left",
        &in_order(&[(1_000, 999), (m, 1), (m, 900)]),
    );
    answer(
        "1 in 10,000 left",
        &in_order(&[(10_000, 9_999), (m, 1), (m, 90)]),
    );
    let five = [(2, 1), (3, 1), (7, 1), (43, 1), (1_840, 1)];
    for worst in [1, 3, 5, 8] {
        let mut list = five.to_vec();
        list.push((m, worst));
        answer("1 in 98,000 left", &in_order(&list));
    }
}

/// Tasks of short periods and worst time 1 that leave as little as the last two periods allow.
fn nearly_all(dice: &mut Dice) -> Vec<(u32, u32)> {
    let (whole, m) = (1_000_000_000_000, 1_000_000);
    let longest = dice.field(30, 100);
    let (mut list, mut left) = (Vec::new(), whole);
    while list.len() < 29 {
        let least = (whole / left.max(1) + 1).min(m) as u32;
        if least > 30_000 {
            break;
        }
        let period = dice.field(least.max(2), least.max(longest));
        left -= whole / u64::from(period) + 1;
        list.push((period, 1));
    }
    for _ in 0..2 {
        let period = whole / left.max(1) + dice.from(1, 2);
        if period < m {
            left -= whole / period + 1;
            list.push((period as u32, 1));
        }
    }
    list
}

/// Up to 31 tasks above that leave next to nothing: the slowest of many.
#[test]
fn many_tasks_above() {
    let mut dice = Dice::new(16);
    let mut times = Vec::new();
    for _ in 0..3_000 {
        let mut list = nearly_all(&mut dice);
        list.push((1_000_000, dice.field(1, 20)));
        let list = in_order(&list);
        let start = Instant::now();
        response(&list, list.len() - 1);
        times.push((start.elapsed(), list));
    }
    times.sort_by_key(|(time, _)| *time);
    let above = times.iter().filter(|(time, _)| time.as_millis() > 0);
    println!("the middle one of 3,000: {:?}", times[1_500].0);
    println!("a millisecond or more: {}", above.count());
    for (_, list) in &times[2_995..] {
        answer("one of the slowest", list);
    }
}

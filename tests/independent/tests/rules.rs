//! The fast functions against slow ones written from the definitions.

mod slow;

use independent::channel::{
    Side, balanced, first_overflow, first_underflow, jobs_to_look_at, window,
};
use independent::graph::Task;
use independent::response::response;
use slow::{Dice, Limits, Pair, deadline, pair, rate, release, task};
use std::collections::HashSet;

/// Random tasks with priorities 1, 2, 3, ... in a random order.
fn tasks(dice: &mut Dice, count: usize, period: u32, share: u32) -> Vec<Task> {
    let mut list: Vec<Task> = Vec::new();
    for number in 0..count {
        let period = dice.field(1, period);
        let deadline = dice.field(1, period).max(dice.field(1, period));
        let worst = dice.field(1, deadline.div_ceil(share));
        list.push(task(period, 0, deadline, worst, number as u8 + 1));
    }
    for last in (1..count).rev() {
        let other = dice.from(0, last as u64) as usize;
        let priority = list[last].priority;
        list[last].priority = list[other].priority;
        list[other].priority = priority;
    }
    list
}

/// Rule "Response" against trying each w.
#[test]
fn response_is_the_least_w() {
    let mut dice = Dice::new(11);
    let (mut found, mut late) = (0, 0);
    for round in 0..20_000 {
        let count = dice.from(1, 8) as usize;
        let period = [6, 40, 400, 3_000][round % 4];
        let share = dice.field(1, 12);
        let list = tasks(&mut dice, count, period, share);
        for i in 0..count {
            let slowly = slow::response(&list, i);
            assert_eq!(response(&list, i), slowly, "task {i} of {list:?}");
            match slowly {
                Some(_) => found += 1,
                None => late += 1,
            }
        }
    }
    assert!(found > 10_000 && late > 10_000, "{found} {late}");
}

/// Rule "Response" where the tasks above leave little and the search is long.
#[test]
fn response_under_heavy_load() {
    let mut dice = Dice::new(12);
    let (mut found, mut late) = (0, 0);
    for _ in 0..4_000 {
        let longest = dice.field(5, 60);
        let (mut list, mut left) = (Vec::new(), 1_000_000);
        for priority in 1..=31 {
            let period = dice.field(2, longest);
            let worst = dice.field(1, 3).min(period);
            let share = worst * 1_000_000 / period + 1;
            if share < left {
                left -= share;
                list.push(task(period, 0, period, worst, priority));
            }
        }
        let deadline = dice.field(10, 20_000);
        list.push(task(20_000, 0, deadline, dice.field(1, 4), 255));
        let last = list.len() - 1;
        let slowly = slow::response(&list, last);
        assert_eq!(response(&list, last), slowly, "{list:?}");
        match slowly {
            Some(_) => found += 1,
            None => late += 1,
        }
    }
    assert!(found > 500 && late > 100, "{found} {late}");
}

/// The two sides of a pair.
fn sides(pair: &Pair) -> (Side, Side) {
    let (puts, takes) = pair.lists();
    (
        Side::new(&pair.producer, puts),
        Side::new(&pair.consumer, takes),
    )
}

/// The fast verdicts on a balanced pair: rules "Underflow" and "Overflow".
fn fast(pair: &Pair) -> (Option<u64>, Option<u64>) {
    let (producer, consumer) = sides(pair);
    assert!(balanced(&producer, &consumer), "{pair:?}");
    let channel = &pair.channel;
    (
        first_underflow(channel.initial, &producer, &consumer),
        first_overflow(channel.initial, channel.size, &producer, &consumer),
    )
}

/// Rules "Underflow" and "Overflow" against a long run of jobs, each counted one by one.
#[test]
fn underflow_and_overflow_over_a_long_run() {
    let mut dice = Dice::new(13);
    let most = Limits {
        period: 7,
        offset: 30,
        prefix: 4,
        cycle: 4,
        tokens: 9,
    };
    let (mut passed, mut under, mut over, mut late_job) = (0, 0, 0, 0);
    for _ in 0..8_000 {
        let pair = pair(&mut dice, &most);
        let (producer, consumer) = sides(&pair);
        let length = window(&producer, &consumer);
        if length > 90 {
            continue;
        }
        let last = 30 + 7 * 6 + 3 * length;
        let slowly = (pair.underflow(last), pair.overflow(last));
        assert_eq!(fast(&pair), slowly, "{pair:?}");
        match slowly {
            (None, None) => passed += 1,
            (Some(job), _) => {
                under += 1;
                late_job += i32::from(job > 5);
            }
            (None, Some(job)) => {
                over += 1;
                late_job += i32::from(job > 5);
            }
        }
    }
    assert!(
        passed > 300 && under > 300 && over > 300 && late_job > 100,
        "{passed} {under} {over} {late_job}"
    );
}

/// The jobs of a task that are released before an end.
fn jobs_before(task: &Task, end: u64) -> u64 {
    (0..)
        .take_while(|&job| release(task, job) < end)
        .count()
        .try_into()
        .unwrap()
}

/// All ways to choose one tick of each job's window, for the first jobs of a task.
fn all_moments(task: &Task, jobs: u64) -> Vec<Vec<u64>> {
    let mut ways = vec![Vec::new()];
    for job in 0..jobs {
        let mut longer = Vec::new();
        for way in &ways {
            for tick in release(task, job)..deadline(task, job) {
                let mut with = way.clone();
                with.push(tick);
                longer.push(with);
            }
        }
        ways = longer;
    }
    ways
}

/// Whether one choice of moments breaks the channel before an end, in some order within the ticks.
fn choice_breaks(pair: &Pair, puts: &[u64], takes: &[u64], end: u64) -> bool {
    let wrong = |fill: i64| fill < 0 || fill > i64::from(pair.channel.size);
    let mut fill = i64::from(pair.channel.initial);
    let mut broken = wrong(fill);
    let (mut put_next, mut take_next) = (0, 0);
    for tick in 0..end {
        let mut put = 0;
        if puts.get(put_next) == Some(&tick) {
            put = rate(pair.lists().0, put_next as u64) as i64;
            put_next += 1;
        }
        let mut take = 0;
        if takes.get(take_next) == Some(&tick) {
            take = rate(pair.lists().1, take_next as u64) as i64;
            take_next += 1;
        }
        broken |= wrong(fill + put) || wrong(fill - take) || wrong(fill + put - take);
        fill += put - take;
    }
    broken
}

/// Whether any choice of the moments of the jobs released before an end breaks the channel before it.
fn some_choice_breaks(pair: &Pair, end: u64) -> bool {
    let puts = all_moments(&pair.producer, jobs_before(&pair.producer, end));
    let takes = all_moments(&pair.consumer, jobs_before(&pair.consumer, end));
    puts.iter()
        .any(|puts| takes.iter().any(|t| choice_breaks(pair, puts, t, end)))
}

/// Sometimes an initial fill above the size, so that test 13 has its turn.
fn shrink_sometimes(dice: &mut Dice, pair: &mut Pair) {
    if dice.from(0, 9) == 0 {
        pair.channel.size = dice.field(0, pair.channel.initial);
    }
}

/// A channel passes 13, 16 and 17 exactly when no choice of moments breaks it.
#[test]
fn passes_exactly_when_no_choice_breaks() {
    let mut dice = Dice::new(14);
    let most = Limits {
        period: 3,
        offset: 2,
        prefix: 1,
        cycle: 2,
        tokens: 3,
    };
    let (mut passed, mut broken) = (0, 0);
    for _ in 0..4_000 {
        let mut pair = pair(&mut dice, &most);
        shrink_sometimes(&mut dice, &mut pair);
        let (producer, consumer) = sides(&pair);
        let puts = jobs_to_look_at(&producer, &consumer);
        let takes = jobs_to_look_at(&consumer, &producer);
        let end = release(&pair.producer, puts).max(release(&pair.consumer, takes));
        if end > 13 {
            continue;
        }
        let passes = pair.channel.initial <= pair.channel.size && fast(&pair) == (None, None);
        assert_eq!(passes, !some_choice_breaks(&pair, end + 2), "{pair:?}");
        match passes {
            true => passed += 1,
            false => broken += 1,
        }
    }
    assert!(passed > 200 && broken > 200, "{passed} {broken}");
}

/// A moment of a channel: the tick, the fill, and the jobs of each side that have acted.
type Moment = (u64, i64, u64, u64);

/// The moments after one tick, over all choices in it; none if a choice breaks the channel.
fn after_tick(pair: &Pair, (tick, fill, puts, takes): Moment) -> Option<Vec<Moment>> {
    let wrong = |fill: i64| fill < 0 || fill > i64::from(pair.channel.size);
    let choices = |task: &Task, next: u64| {
        let may = release(task, next) <= tick;
        let must = deadline(task, next) == tick + 1;
        [(!must).then_some(false), may.then_some(true)]
    };
    let mut after = Vec::new();
    for put in choices(&pair.producer, puts).into_iter().flatten() {
        for take in choices(&pair.consumer, takes).into_iter().flatten() {
            let more = i64::from(put) * rate(pair.lists().0, puts) as i64;
            let less = i64::from(take) * rate(pair.lists().1, takes) as i64;
            if wrong(fill + more) || wrong(fill - less) || wrong(fill + more - less) {
                return None;
            }
            let acted = (puts + u64::from(put), takes + u64::from(take));
            after.push((tick + 1, fill + more - less, acted.0, acted.1));
        }
    }
    Some(after)
}

/// Whether any choice breaks the channel before an end: all moments that choices lead to, each looked at once.
fn some_path_breaks(pair: &Pair, end: u64) -> bool {
    let start = i64::from(pair.channel.initial);
    if start > i64::from(pair.channel.size) {
        return true;
    }
    let mut now = HashSet::from([(0, start, 0, 0)]);
    for _ in 0..end {
        let mut after = HashSet::new();
        for moment in now {
            match after_tick(pair, moment) {
                None => return true,
                Some(moments) => after.extend(moments),
            }
        }
        now = after;
    }
    false
}

/// The same over more ticks and larger channels, where choices that meet in one moment go on as one.
#[test]
fn passes_exactly_when_no_path_breaks() {
    let mut dice = Dice::new(15);
    let most = Limits {
        period: 6,
        offset: 20,
        prefix: 3,
        cycle: 3,
        tokens: 6,
    };
    let (mut passed, mut broken) = (0, 0);
    for _ in 0..6_000 {
        let mut pair = pair(&mut dice, &most);
        shrink_sometimes(&mut dice, &mut pair);
        let passes = pair.channel.initial <= pair.channel.size && fast(&pair) == (None, None);
        let (producer, consumer) = sides(&pair);
        let end = 20 + 6 * 5 + 2 * window(&producer, &consumer);
        assert_eq!(passes, !some_path_breaks(&pair, end), "{pair:?}");
        match passes {
            true => passed += 1,
            false => broken += 1,
        }
    }
    assert!(passed > 300 && broken > 300, "{passed} {broken}");
}

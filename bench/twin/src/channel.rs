//! Tests 13 to 17: one channel.

use crate::graph::{Channel, Task};
use crate::reply::Reply;
use crate::side::Side;

/// L divided by the smaller period may be no more than this.
const WINDOW: u64 = 65_536;

/// The taker's first job that is short, by the giver, the stock and the window's length.
pub type Search = fn(&Side, &Side, u64, u64) -> Option<u64>;

/// The first of tests 13 to 17 that refuses channel number `index`.
pub fn refusal(index: usize, channel: &Channel, tasks: &[Task], search: Search) -> Option<Reply> {
    if channel.initial > channel.size {
        return Some(Reply::at(13, index));
    }
    let producer = Side::of(&tasks[usize::from(channel.producer)], &channel.sides[0]);
    let consumer = Side::of(&tasks[usize::from(channel.consumer)], &channel.sides[1]);
    if producer.turn() * consumer.span() != consumer.turn() * producer.span() {
        return Some(Reply::at(14, index));
    }
    let window = producer.span() / common(producer.span(), consumer.span()) * consumer.span();
    if WINDOW < window / producer.period.min(consumer.period) {
        return Some(Reply::at(15, index));
    }
    let broken = |number, job| Reply {
        number,
        place: index as u64,
        job,
    };
    let room = u64::from(channel.size - channel.initial);
    if let Some(job) = search(&consumer, &producer, channel.initial.into(), window) {
        return Some(broken(16, job));
    }
    search(&producer, &consumer, room, window).map(|job| broken(17, job))
}

/// The greatest common divisor.
fn common(a: u64, b: u64) -> u64 {
    if b == 0 { a } else { common(b, a % b) }
}

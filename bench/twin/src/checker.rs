//! The whole check: the tests in their order, and the report.

use crate::channel::{self, Search};
use crate::graph::{Graph, Task};
use crate::reader::read;
use crate::reply::Reply;
use crate::{cases, relation, response, walk};

/// Judges a file. On 0 the report's first places hold R of tasks 0, 1, 2 and so on; any other
/// number leaves it untouched.
pub fn check_file(file: &[u8], report: &mut [u32]) -> Reply {
    check_by(file, report, cases::first_short)
}

/// The same, but each channel by walking every job of both sides.
pub fn check_file_by_jobs(file: &[u8], report: &mut [u32]) -> Reply {
    check_by(file, report, walk::first_short)
}

fn check_by(file: &[u8], report: &mut [u32], search: Search) -> Reply {
    match read(file) {
        (Reply { number: 0, .. }, graph) => judge(&graph, report, search),
        (refusal, _) => refusal,
    }
}

fn judge(graph: &Graph, report: &mut [u32], search: Search) -> Reply {
    match verdict(graph, report.len(), search) {
        Ok(times) => {
            let count = graph.task_count;
            report[..count].copy_from_slice(&times[..count]);
            Reply::accepted(count)
        }
        Err(refusal) => refusal,
    }
}

/// Tests 8 to 17 of a well-formed graph, and the response times where none refuses.
fn verdict(graph: &Graph, room: usize, search: Search) -> Result<[u32; Graph::TASKS], Reply> {
    let tasks = graph.tasks();
    let refuse = |number, place| Err(Reply::at(number, place));
    if let Some(place) = seen_before(tasks) {
        return refuse(8, place);
    }
    if room < tasks.len() {
        return refuse(9, tasks.len());
    }
    let mut relations = graph.relations().iter();
    if let Some(place) = relations.position(|r| !relation::holds(r, tasks)) {
        return refuse(10, place);
    }
    let mut times = [0; Graph::TASKS];
    for (place, task) in tasks.iter().enumerate() {
        times[place] = response::response(task, tasks).ok_or(Reply::at(11, place))?;
    }
    if response::overloaded(tasks) {
        return refuse(12, 0);
    }
    let mut channels = graph.channels().iter().enumerate();
    match channels.find_map(|(index, c)| channel::refusal(index, c, tasks, search)) {
        Some(refusal) => Err(refusal),
        None => Ok(times),
    }
}

/// The first task whose priority an earlier one has.
fn seen_before(tasks: &[Task]) -> Option<usize> {
    let mut seen = [false; 256];
    let mut again = |t: &Task| std::mem::replace(&mut seen[usize::from(t.priority)], true);
    tasks.iter().position(&mut again)
}

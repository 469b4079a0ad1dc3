//! A checker of graph files, written from the words of document 01 alone.

pub mod channel;
pub mod graph;
pub mod reader;
pub mod relation;
pub mod response;
pub mod writer;

pub use graph::Graph;
pub use reader::read;

/// The reply: number, place and job, as in the table "Numbers of the reply".
#[derive(Clone, Copy, PartialEq, Eq, Debug)]
pub struct Reply {
    pub number: u32,
    pub place: u64,
    pub job: u64,
}

impl Reply {
    /// A reply whose job is 0 ("job is 0 unless the table says otherwise").
    pub fn new(number: u32, place: usize) -> Reply {
        Reply::with_job(number, place, 0)
    }

    /// A reply that names a job (numbers 16 and 17).
    pub fn with_job(number: u32, place: usize, job: u64) -> Reply {
        Reply {
            number,
            place: place as u64,
            job,
        }
    }
}

/// Reads the file and writes its graph back: 1 to 7, then 19, then 0. (18 cannot arise: this graph was read from a file.)
pub fn rewrite(file: &[u8], out: &mut [u8]) -> Reply {
    let graph = match read(file) {
        Ok(graph) => graph,
        Err(refusal) => return refusal,
    };
    let bytes = writer::bytes_of(&graph);
    match out.get_mut(..bytes.len()) {
        None => Reply::new(19, bytes.len()),
        Some(first) => {
            first.copy_from_slice(&bytes);
            Reply::new(0, graph.tasks.len())
        }
    }
}

/// All tests, 1 to 17 in the order of the section "Numbers of the reply".
pub fn check(file: &[u8], report: &mut [u32]) -> Reply {
    match judge(file, report.len()) {
        Err(refusal) => refusal,
        Ok(times) => {
            report[..times.len()].copy_from_slice(&times);
            Reply::new(0, times.len())
        }
    }
}

/// Tests 1 to 12, each over all its items, then 13 to 17 channel by channel; gives R of every task.
fn judge(file: &[u8], places: usize) -> Result<Vec<u32>, Reply> {
    let graph = read(file)?;
    let tasks = &graph.tasks;
    if let Some(later) = priority_seen_before(&graph) {
        return Err(Reply::new(8, later));
    }
    if places < tasks.len() {
        return Err(Reply::new(9, tasks.len()));
    }
    if let Some(false_one) = relation::first_false(&graph) {
        return Err(Reply::new(10, false_one));
    }
    let mut times = Vec::new();
    for task in 0..tasks.len() {
        times.push(response::response(tasks, task).ok_or(Reply::new(11, task))?);
    }
    if response::load_too_high(tasks) {
        return Err(Reply::new(12, 0));
    }
    for number in 0..graph.channels.len() {
        channel::judge(&graph, number)?;
    }
    Ok(times)
}

/// Test 8: the first task whose priority an earlier task has.
fn priority_seen_before(graph: &Graph) -> Option<usize> {
    let tasks = &graph.tasks;
    (0..tasks.len()).find(|&later| {
        tasks[..later]
            .iter()
            .any(|earlier| earlier.priority == tasks[later].priority)
    })
}

//! Measures the proved checker against its twin in plain Rust, in one run: bench [NAME...].
//! Where channels are measured, a further column has plain Rust that walks every job.
//!
//! All are called in turn on the same file; the time of each is the least of several rounds,
//! per call, as the processor counts it for this thread. Buffers are made once and not cleared
//! between calls.

mod cases;
mod clock;

use cases::Sample;
use compare::verified::{self, Reply};
use std::hint::black_box;

/// The fewest and the most rounds of a file.
const ROUNDS: (u32, u32) = (3, 100);
/// A round repeats its call for at least so many seconds, and a file's rounds end after so many.
const ROUND: f64 = 0.004;
const FILE: f64 = 4.0;

/// What is called: a file in, a reply out.
type Call = fn(&[u8], &mut Buffers) -> Reply;

/// The twin's reply, as the proved checker's stands.
fn told(twin::Reply { number, place, job }: twin::Reply) -> Reply {
    Reply { number, place, job }
}

/// What the calls write to.
struct Buffers {
    report: [u32; 32],
    out: Vec<u8>,
}

struct Case {
    name: &'static str,
    unit: &'static str,
    goal: &'static str,
    samples: fn() -> Vec<Sample>,
    verified: Call,
    /// The twin, and where channels are measured plain Rust that walks every job.
    plain: &'static [Call],
}

const READ: (Call, &[Call]) = (
    |file, _| verified::read(file),
    &[|file, _| told(black_box(twin::read(file)).0)],
);
const REWRITE: (Call, &[Call]) = (
    |file, to| verified::rewrite(file, &mut to.out),
    &[|file, to| told(twin::write(&twin::read(file).1, &mut to.out))],
);
const CHECK: Call = |file, to| verified::check(file, &mut to.report);
const TWIN: Call = |file, to| told(twin::check_file(file, &mut to.report));
const BY_JOBS: Call = |file, to| told(twin::check_file_by_jobs(file, &mut to.report));
const TASKS: (Call, &[Call]) = (CHECK, &[TWIN]);
const CHANNELS: (Call, &[Call]) = (CHECK, &[TWIN, BY_JOBS]);

const CASES: [Case; 8] = [
    case("read", "rate records", "at most 5", cases::long, READ),
    case("rewrite", "rate records", "none", cases::long, REWRITE),
    case(
        "typical",
        "tasks/channels/relations",
        "at most 1.5 at 24/40/20",
        cases::typical,
        CHANNELS,
    ),
    case(
        "response",
        "deadline, 32 tasks",
        "at most 1.25",
        cases::response,
        TASKS,
    ),
    case(
        "tasks",
        "tasks, deadline 250,000",
        "at most 1.25",
        cases::response_tasks,
        TASKS,
    ),
    case(
        "window",
        "jobs in the window of each of 64 channels",
        "flat, at most 2",
        cases::windows,
        CHANNELS,
    ),
    case(
        "worst",
        "64 channels, accepted and refused in the last",
        "1,000 us (refused 1,500), at most 2",
        cases::worst,
        CHANNELS,
    ),
    case(
        "whole",
        "graph A, and the longest file",
        "no slower than every job",
        cases::whole,
        CHANNELS,
    ),
];

const fn case(
    name: &'static str,
    unit: &'static str,
    goal: &'static str,
    samples: fn() -> Vec<Sample>,
    (verified, plain): (Call, &'static [Call]),
) -> Case {
    Case {
        name,
        unit,
        goal,
        samples,
        verified,
        plain,
    }
}

fn main() {
    let names: Vec<String> = std::env::args().skip(1).collect();
    println!(
        "processor time per call, least of up to {} rounds in turn; buffers not cleared",
        ROUNDS.1
    );
    for case in &CASES {
        if names.is_empty() || names.iter().any(|name| name == case.name) {
            measure(case);
        }
    }
}

fn measure(case: &Case) {
    println!("\n{} by {} (goal: {})", case.name, case.unit, case.goal);
    let every = if case.plain.len() > 1 {
        "every job us"
    } else {
        ""
    };
    println!(
        "{:>24} {:>8} {:>16} {:>12} {:>12} {:>6} {every:>14}",
        "size", "bytes", "reply", "verified us", "twin us", "ratio"
    );
    let mut buffers = Buffers {
        report: [0; 32],
        out: vec![0; 40_000],
    };
    for sample in (case.samples)() {
        let reply = agree(case, &sample, &mut buffers);
        let least = times(case, &sample.file, &mut buffers);
        let ratio = least[0] / least[1];
        print!(
            "{:>24} {:>8} {:>16} {:>12.1} {:>12.1} {ratio:>6.2}",
            sample.size,
            sample.file.len(),
            format!("{} {} {}", reply.number, reply.place, reply.job),
            least[0],
            least[1]
        );
        let every = least.get(2).map(|us| format!("{us:.1}"));
        println!(" {:>14}", every.unwrap_or_default());
    }
}

/// All must give the same reply, with the number that the sample says.
fn agree(case: &Case, sample: &Sample, buffers: &mut Buffers) -> Reply {
    let verified = (case.verified)(&sample.file, buffers);
    assert_eq!(verified.number, sample.number, "{}", sample.size);
    for plain in case.plain {
        assert_eq!(verified, plain(&sample.file, buffers), "{}", sample.size);
    }
    verified
}

/// The least time of a call of each, in microseconds.
fn times(case: &Case, file: &[u8], buffers: &mut Buffers) -> Vec<f64> {
    let all: Vec<Call> = [case.verified].iter().chain(case.plain).copied().collect();
    let start = clock::seconds();
    let calls: Vec<u32> = all.iter().map(|&call| calls(call, file, buffers)).collect();
    let mut least = vec![f64::MAX; all.len()];
    for done in 0..ROUNDS.1 {
        if done >= ROUNDS.0 && clock::seconds() - start > FILE {
            break;
        }
        for (place, &call) in all.iter().enumerate() {
            least[place] = least[place].min(round(call, file, buffers, calls[place]));
        }
    }
    least
}

/// How many calls make a round long enough.
fn calls(call: Call, file: &[u8], buffers: &mut Buffers) -> u32 {
    let start = clock::seconds();
    let mut calls = 0;
    while clock::seconds() - start < ROUND {
        black_box(call(black_box(file), buffers));
        calls += 1;
    }
    calls
}

fn round(call: Call, file: &[u8], buffers: &mut Buffers, calls: u32) -> f64 {
    let start = clock::seconds();
    for _ in 0..calls {
        black_box(call(black_box(file), buffers));
    }
    (clock::seconds() - start) * 1e6 / f64::from(calls)
}

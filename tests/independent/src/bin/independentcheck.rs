//! The program: judges the first 65,536 bytes of standard input and prints the reply.

use independent::check;
use independent::graph::TASKS;
use std::io::{self, Read, Write};

/// The first line holds number, place and job; on 0 a line per task follows with its index and R.
fn main() -> io::Result<()> {
    let mut file = Vec::new();
    io::stdin().lock().take(65_536).read_to_end(&mut file)?;
    let mut report = [0; TASKS];
    let reply = check(&file, &mut report);
    let mut out = io::stdout().lock();
    writeln!(out, "{} {} {}", reply.number, reply.place, reply.job)?;
    if reply.number == 0 {
        for (task, time) in (0..reply.place).zip(report) {
            writeln!(out, "{task} {time}")?;
        }
    }
    out.flush()
}

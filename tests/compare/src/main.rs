//! Compares the proved checker with the independent one: compare [FILES [SEED]].
//!
//! Each file goes through check, rewrite and read on both sides; replies and whole buffers, with
//! the places around them that belong to nobody, must be the same. The first difference is
//! printed with its file and ends the run.

use compare::rng::Rng;
use compare::{files, verified};
use independent::Reply;
use std::env;
use std::process::ExitCode;

const FILES: u64 = 120_000;
const SEED: u64 = 20_240_229;
/// Places before and behind each lent buffer that must stay.
const MARGIN: usize = 8;
/// Numbers that a check of a file can give. A load above one leaves some task late, so 12 never
/// shows; 18 and 19 are the writer's.
const SHOWN: [usize; 17] = [0, 1, 2, 3, 4, 5, 6, 7, 8, 9, 10, 11, 13, 14, 15, 16, 17];

fn main() -> ExitCode {
    let mut words = env::args()
        .skip(1)
        .map(|word| word.parse().expect("a number"));
    let count = words.next().unwrap_or(FILES);
    let seed = words.next().unwrap_or(SEED);
    let mut rng = Rng::new(seed);
    let mut tally = Tally::default();
    for index in 0..count {
        let (sort, file) = files::next(&mut rng);
        if let Err(difference) = compare(&mut rng, &file, sort, &mut tally) {
            let name = files::SORTS[sort].0;
            println!("file {index} of seed {seed} ({name}): {difference}");
            println!("{}", hex(&file));
            return ExitCode::FAILURE;
        }
    }
    tally.print(count, seed);
    tally.verdict(count)
}

/// How often each number came, and how many files each sort made.
#[derive(Default)]
struct Tally {
    checks: [u64; 20],
    writes: [u64; 20],
    sorts: [(u64, u64); files::SORTS.len()],
}

impl Tally {
    fn print(&self, count: u64, seed: u64) {
        println!("{count} files of seed {seed}: no difference");
        for (sort, (made, accepted)) in files::SORTS.iter().zip(&self.sorts) {
            println!("  {:10} {made:7} files, {accepted:7} accepted", sort.0);
        }
        println!("check: {}", numbers(&self.checks));
        println!("rewrite: {}", numbers(&self.writes));
    }

    /// A run in which some number hardly shows compares less than it says.
    fn verdict(&self, count: u64) -> ExitCode {
        let rare = SHOWN.iter().find(|&&n| self.checks[n] < count / 1000);
        let rare = rare.or([0, 19].iter().find(|&&n| self.writes[n] < count / 1000));
        match rare {
            Some(number) => {
                println!("too few files give {number}");
                ExitCode::FAILURE
            }
            None => ExitCode::SUCCESS,
        }
    }
}

fn numbers(counts: &[u64]) -> String {
    let shown = counts.iter().enumerate().filter(|(_, count)| **count > 0);
    let words: Vec<String> = shown.map(|(n, count)| format!("{n}:{count}")).collect();
    words.join(" ")
}

/// Asks both checkers; the difference, if there is one.
fn compare(rng: &mut Rng, file: &[u8], sort: usize, tally: &mut Tally) -> Result<(), String> {
    let before = file.to_vec();
    let reply = compare_check(rng, file)?;
    tally.checks[reply.number as usize] += 1;
    tally.sorts[sort].0 += 1;
    tally.sorts[sort].1 += u64::from(reply.number == 0);
    let reply = compare_rewrite(rng, file)?;
    tally.writes[reply.number as usize] += 1;
    same("read", read(file), verified::read(file))?;
    same("the file itself", &before[..], file)
}

fn compare_check(rng: &mut Rng, file: &[u8]) -> Result<Reply, String> {
    let places = match rng.below(3) {
        0 => rng.index(41),
        1 => 32,
        _ => file
            .iter()
            .step_by(18)
            .take_while(|&&kind| kind == 1)
            .count()
            .min(40),
    };
    let mut ours = pattern(rng, places, |number| number as u32);
    let mut theirs = ours.clone();
    let reply = independent::check(file, inner(&mut ours));
    same("check", reply, verified::check(file, inner(&mut theirs)))?;
    same("the report", ours, theirs)?;
    Ok(reply)
}

fn compare_rewrite(rng: &mut Rng, file: &[u8]) -> Result<Reply, String> {
    let len = match rng.below(8) {
        0 => 0,
        1 => file.len().saturating_sub(1),
        2 => rng.index(file.len() + 1),
        3 => file.len() + 1 + rng.index(40),
        _ => file.len(),
    };
    let mut ours = pattern(rng, len, |number| (number >> 8) as u8);
    let mut theirs = ours.clone();
    let reply = independent::rewrite(file, inner(&mut ours));
    same(
        "rewrite",
        reply,
        verified::rewrite(file, inner(&mut theirs)),
    )?;
    same("the output", &ours, &theirs)?;
    if reply.number == 0 {
        same(
            "the file written back",
            file,
            &inner(&mut theirs)[..file.len()],
        )?;
    }
    Ok(reply)
}

/// The reply to reading a file: the refusal, or the number of tasks.
fn read(file: &[u8]) -> Reply {
    match independent::read(file) {
        Ok(graph) => Reply::new(0, graph.tasks.len()),
        Err(refusal) => refusal,
    }
}

/// A buffer of so many places within margins, filled with numbers that no checker would write.
fn pattern<T>(rng: &mut Rng, places: usize, cast: fn(u64) -> T) -> Vec<T> {
    let mut number = rng.draw();
    let mut step = || {
        number = number.wrapping_mul(0x9e37_79b9_7f4a_7c15).wrapping_add(1);
        cast(number)
    };
    (0..places + 2 * MARGIN).map(|_| step()).collect()
}

/// The part of a buffer that is lent.
fn inner<T>(buffer: &mut [T]) -> &mut [T] {
    let end = buffer.len() - MARGIN;
    &mut buffer[MARGIN..end]
}

fn same<T: PartialEq + std::fmt::Debug>(what: &str, ours: T, verified: T) -> Result<(), String> {
    if ours == verified {
        return Ok(());
    }
    Err(format!(
        "{what} differs\n  independent {ours:?}\n  verified    {verified:?}"
    ))
}

fn hex(file: &[u8]) -> String {
    file.iter().map(|byte| format!("{byte:02x}")).collect()
}

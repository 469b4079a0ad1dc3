//! The proved checker's C functions, as safe ones.

pub use independent::Reply;

unsafe extern "C" {
    fn ghadibosh_check(
        file: *const u8,
        file_len: usize,
        report: *mut u32,
        report_len: usize,
        place: *mut u64,
        job: *mut u64,
    ) -> u32;

    fn ghadibosh_rewrite(
        file: *const u8,
        file_len: usize,
        out: *mut u8,
        out_len: usize,
        place: *mut u64,
        job: *mut u64,
    ) -> u32;

    fn ghadibosh_read(file: *const u8, file_len: usize, place: *mut u64, job: *mut u64) -> u32;
}

/// What place and job hold before a call: a call that leaves one alone shows.
const UNSET: u64 = 0xa5a5_a5a5_a5a5_a5a5;

fn reply(call: impl FnOnce(*mut u64, *mut u64) -> u32) -> Reply {
    let (mut place, mut job) = (UNSET, UNSET);
    let number = call(&mut place, &mut job);
    Reply { number, place, job }
}

/// Judges a file; on 0 the report's first places hold the response times.
pub fn check(file: &[u8], report: &mut [u32]) -> Reply {
    let (to, room) = (report.as_mut_ptr(), report.len());
    // SAFETY: both slices are valid for their lengths, and place and job are locals.
    reply(|p, j| unsafe { ghadibosh_check(file.as_ptr(), file.len(), to, room, p, j) })
}

/// Reads a file and writes it back: the reader's reply if it refuses, else the writer's.
pub fn rewrite(file: &[u8], out: &mut [u8]) -> Reply {
    let (to, room) = (out.as_mut_ptr(), out.len());
    // SAFETY: both slices are valid for their lengths, and place and job are locals.
    reply(|p, j| unsafe { ghadibosh_rewrite(file.as_ptr(), file.len(), to, room, p, j) })
}

/// Reads a file.
pub fn read(file: &[u8]) -> Reply {
    // SAFETY: the slice is valid for its length, and place and job are locals.
    reply(|p, j| unsafe { ghadibosh_read(file.as_ptr(), file.len(), p, j) })
}

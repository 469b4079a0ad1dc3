//! Judges a graph file: judge FILE. Prints number, place and job, then on 0 a line for each task with its index and R.

#[link(name = "exports", kind = "static")]
unsafe extern "C" {
    fn ghadibosh_check(
        file: *const u8,
        file_len: usize,
        report: *mut u32,
        report_len: usize,
        place: *mut u64,
        job: *mut u64,
    ) -> u32;
}

fn main() {
    let name = std::env::args().nth(1).expect("a file's name");
    let file = std::fs::read(name).expect("a file that can be read");
    let (mut report, mut place, mut job) = ([0; 32], 0, 0);
    let (to, room) = (report.as_mut_ptr(), report.len());
    // SAFETY: each pointer is valid for its length, and nothing that is written to overlaps.
    let number =
        unsafe { ghadibosh_check(file.as_ptr(), file.len(), to, room, &mut place, &mut job) };
    println!("{number} {place} {job}");
    if number == 0 {
        for (task, time) in report.iter().take(place as usize).enumerate() {
            println!("{task} {time}");
        }
    }
}

//! The reply: a number, a place and a job.

#[derive(Clone, Copy, Debug, PartialEq, Eq)]
pub struct Reply {
    pub number: u32,
    pub place: u64,
    pub job: u64,
}

impl Reply {
    /// A reply whose job is 0: all but 16 and 17.
    pub fn at(number: u32, place: usize) -> Reply {
        Reply {
            number,
            place: place as u64,
            job: 0,
        }
    }

    /// Accepted, read or written: the place is the number of tasks.
    pub fn accepted(tasks: usize) -> Reply {
        Reply::at(0, tasks)
    }
}

//! The twin: the proved checker's algorithms in plain Rust, proved nowhere. The benchmark measures
//! the proved checker against it; what is right is told by the independent checker, not by this.

mod cases;
mod channel;
mod checker;
mod graph;
mod reader;
mod relation;
mod reply;
mod response;
mod side;
mod walk;
mod writer;

pub use checker::{check_file, check_file_by_jobs};
pub use graph::Graph;
pub use reader::read;
pub use reply::Reply;
pub use writer::write;

//! The graph that a file holds, and the limits of section "Graph files".

/// Tasks 1..32.
pub const TASKS: usize = 32;
/// Channels 0..64.
pub const CHANNELS: usize = 64;
/// Relations 0..64.
pub const RELATIONS: usize = 64;
/// Entries of a list by part: a prefix 0..16, a cycle 1..32.
pub const ENTRIES: [usize; 2] = [16, 32];
/// The largest period, offset, initial, size, n, d and absolute phase.
pub const MOST: u32 = 1_000_000;

/// Side 0 of a channel.
pub const PRODUCTION: usize = 0;
/// Side 1 of a channel.
pub const CONSUMPTION: usize = 1;
/// Part 0 of a side.
pub const PREFIX: usize = 0;
/// Part 1 of a side.
pub const CYCLE: usize = 1;

/// Record kind 1.
#[derive(Clone, Debug, Default, PartialEq, Eq)]
pub struct Task {
    pub period: u32,
    pub offset: u32,
    pub deadline: u32,
    pub worst: u32,
    pub priority: u8,
}

/// One side's two lists of tokens, by part: prefix, cycle.
pub type Lists = [Vec<u16>; 2];

/// Record kind 2, with the rates (kind 3) that name it, by side: production, consumption.
#[derive(Clone, Debug, Default, PartialEq, Eq)]
pub struct Channel {
    pub producer: u8,
    pub consumer: u8,
    pub initial: u32,
    pub size: u32,
    pub sides: [Lists; 2],
}

/// Record kind 4.
#[derive(Clone, Debug, Default, PartialEq, Eq)]
pub struct Relation {
    pub p: u8,
    pub q: u8,
    pub n: u32,
    pub phase: i32,
    pub d: u32,
}

/// A whole graph: tasks, channels and relations, numbered from 0 in file order.
#[derive(Clone, Debug, Default, PartialEq, Eq)]
pub struct Graph {
    pub tasks: Vec<Task>,
    pub channels: Vec<Channel>,
    pub relations: Vec<Relation>,
}

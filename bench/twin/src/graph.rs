//! A graph in memory: fixed places, the first `count` of each array in use, zero behind them.

#[derive(Clone, Copy, Debug, Default, PartialEq, Eq)]
pub struct Task {
    pub period: u32,
    pub offset: u32,
    pub deadline: u32,
    pub worst: u32,
    pub priority: u8,
}

/// The rates of one side of a channel.
#[derive(Clone, Copy, Debug, Default, PartialEq, Eq)]
pub struct Rates {
    pub prefix: [u16; Graph::PREFIX],
    pub prefix_len: usize,
    pub cycle: [u16; Graph::CYCLE],
    pub cycle_len: usize,
}

#[derive(Clone, Copy, Debug, Default, PartialEq, Eq)]
pub struct Channel {
    pub producer: u8,
    pub consumer: u8,
    pub initial: u32,
    pub size: u32,
    /// Side 0 is production, side 1 consumption.
    pub sides: [Rates; 2],
}

#[derive(Clone, Copy, Debug, Default, PartialEq, Eq)]
pub struct Relation {
    pub p: u8,
    pub q: u8,
    pub n: u32,
    pub phi: i32,
    pub d: u32,
}

#[derive(Clone, Debug, PartialEq, Eq)]
pub struct Graph {
    pub tasks: [Task; Graph::TASKS],
    pub task_count: usize,
    pub channels: [Channel; Graph::CHANNELS],
    pub channel_count: usize,
    pub relations: [Relation; Graph::RELATIONS],
    pub relation_count: usize,
}

/// The largest period, offset, initial, size, n and d, and the bound of φ on either side.
const MILLION: u32 = 1_000_000;

impl Graph {
    pub const TASKS: usize = 32;
    pub const CHANNELS: usize = 64;
    pub const RELATIONS: usize = 64;
    pub const PREFIX: usize = 16;
    pub const CYCLE: usize = 32;

    pub fn empty() -> Graph {
        Graph {
            tasks: [Task::default(); Graph::TASKS],
            task_count: 0,
            channels: [Channel::default(); Graph::CHANNELS],
            channel_count: 0,
            relations: [Relation::default(); Graph::RELATIONS],
            relation_count: 0,
        }
    }

    pub fn tasks(&self) -> &[Task] {
        &self.tasks[..self.task_count]
    }

    pub fn channels(&self) -> &[Channel] {
        &self.channels[..self.channel_count]
    }

    pub fn relations(&self) -> &[Relation] {
        &self.relations[..self.relation_count]
    }

    /// 2 × channel + side of the first cycle without entries.
    pub fn empty_cycle(&self) -> Option<usize> {
        let sides = self.channels().iter().flat_map(|c| &c.sides);
        sides.into_iter().position(|s| s.cycle_len == 0)
    }

    /// Some file reads as this graph.
    pub fn well_formed(&self) -> bool {
        self.counts_fit()
            && self.tasks().iter().all(Task::in_range)
            && self.channels().iter().all(|c| self.channel_fits(c))
            && self.relations().iter().all(|r| r.in_range(self.task_count))
            && zero(&self.tasks[self.task_count..])
            && zero(&self.channels[self.channel_count..])
            && zero(&self.relations[self.relation_count..])
    }

    fn counts_fit(&self) -> bool {
        (1..=Graph::TASKS).contains(&self.task_count)
            && self.channel_count <= Graph::CHANNELS
            && self.relation_count <= Graph::RELATIONS
    }

    fn channel_fits(&self, channel: &Channel) -> bool {
        channel.in_range(self.task_count) && channel.sides.iter().all(Rates::well_formed)
    }
}

impl Task {
    pub fn in_range(&self) -> bool {
        (1..=MILLION).contains(&self.period)
            && self.offset <= MILLION
            && (1..=self.period).contains(&self.deadline)
            && (1..=self.deadline).contains(&self.worst)
            && self.priority >= 1
    }
}

impl Channel {
    pub fn in_range(&self, tasks: usize) -> bool {
        usize::from(self.producer) < tasks
            && usize::from(self.consumer) < tasks
            && self.initial <= MILLION
            && self.size <= MILLION
    }
}

impl Relation {
    pub fn in_range(&self, tasks: usize) -> bool {
        usize::from(self.p) < tasks
            && usize::from(self.q) < tasks
            && (1..=MILLION).contains(&self.n)
            && (1..=MILLION).contains(&self.d)
            && self.phi.unsigned_abs() <= MILLION
    }
}

impl Rates {
    pub fn prefix(&self) -> &[u16] {
        &self.prefix[..self.prefix_len]
    }

    pub fn cycle(&self) -> &[u16] {
        &self.cycle[..self.cycle_len]
    }

    /// Appends an entry to the prefix (part 0) or the cycle (part 1), if there is room.
    pub fn push(&mut self, part: u8, tokens: u16) -> bool {
        let (list, len) = match part {
            0 => (&mut self.prefix[..], &mut self.prefix_len),
            _ => (&mut self.cycle[..], &mut self.cycle_len),
        };
        let Some(place) = list.get_mut(*len) else {
            return false;
        };
        *place = tokens;
        *len += 1;
        true
    }

    fn well_formed(&self) -> bool {
        self.prefix_len <= Graph::PREFIX
            && (1..=Graph::CYCLE).contains(&self.cycle_len)
            && zero(&self.prefix[self.prefix_len..])
            && zero(&self.cycle[self.cycle_len..])
    }
}

fn zero<T: Default + PartialEq>(rest: &[T]) -> bool {
    rest.iter().all(|item| *item == T::default())
}

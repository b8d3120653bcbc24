/// A piece of work that waits in a lane.
pub trait Item: Copy {
    /// Units of work in all.
    fn cost(&self) -> u32;

    /// Whether the item may stop after `done` units: always at its cost, never above.
    fn may_stop(&self, done: u32) -> bool;

    /// What is left after `done` units where the item may stop before its end; elsewhere the item as it is.
    fn rest(&self, done: u32) -> Self;
}

/// Processor time for a task. It may stop after any unit.
#[derive(Clone, Copy, Debug, PartialEq, Eq)]
pub struct Quantum {
    pub task: u32,
    pub time: u32,
}

impl Item for Quantum {
    fn cost(&self) -> u32 {
        self.time
    }

    fn may_stop(&self, done: u32) -> bool {
        done <= self.time
    }

    fn rest(&self, done: u32) -> Self {
        if done < self.time { Quantum { time: self.time - done, ..*self } } else { *self }
    }
}

/// Sectors of a drive, read in one piece. It may stop only at its end.
#[derive(Clone, Copy, Debug, PartialEq, Eq)]
pub struct Block {
    pub sector: u32,
    pub length: u32,
}

impl Item for Block {
    fn cost(&self) -> u32 {
        self.length
    }

    fn may_stop(&self, done: u32) -> bool {
        done == self.length
    }

    fn rest(&self, _done: u32) -> Self {
        *self
    }
}

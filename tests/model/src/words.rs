//! What the words of the two tables mean.

use crate::{Model, Twist};

pub const MOST_TASKS: usize = 64;
pub const MOST_PROMISES: usize = 256;

/// Task word of a task that waits on promise 0.
pub const WAITS_BASE: u16 = 16;
/// Promise word of a promise owned by task 0.
pub const OWNED_BASE: u16 = 16;
/// Promise word of a promise blamed on task 0.
pub const BLAMED_BASE: u16 = 80;

#[derive(Clone, Copy, PartialEq, Eq, Debug)]
pub enum Task {
    NeverUsed,
    Ready,
    Ended,
    Waits(usize),
}

#[derive(Clone, Copy, PartialEq, Eq, Debug)]
pub enum Promise {
    NeverMade,
    Set,
    Owned(usize),
    Blamed(usize),
}

impl Task {
    pub fn is_live(self) -> bool {
        matches!(self, Task::Ready | Task::Waits(_))
    }
}

impl Promise {
    pub fn is_closed(self) -> bool {
        matches!(self, Promise::Set | Promise::Blamed(_))
    }
}

impl Model {
    fn blamed_base(&self) -> u16 {
        BLAMED_BASE - self.slip(Twist::BlamedBase79) as u16
    }

    /// The meaning of a task word where there are `promises` promises, if it has one.
    pub fn read_task(&self, word: u16, promises: usize) -> Option<Task> {
        let named = word.wrapping_sub(WAITS_BASE) as usize;
        match word {
            0 => Some(Task::NeverUsed),
            1 => Some(Task::Ready),
            2 => Some(Task::Ended),
            3 if self.is(Twist::Word3IsEnded) => Some(Task::Ended),
            _ if word >= WAITS_BASE && named < promises => Some(Task::Waits(named)),
            _ if named == promises && self.is(Twist::AwaitedAtBound) => Some(Task::Ready),
            _ => None,
        }
    }

    /// The meaning of a promise word where there are `tasks` tasks, if it has one.
    pub fn read_promise(&self, word: u16, tasks: usize) -> Option<Promise> {
        let word = if self.is(Twist::WordsByLowByte) { word % 256 } else { word };
        let owner = word.wrapping_sub(OWNED_BASE) as usize;
        let blamed = word.wrapping_sub(self.blamed_base()) as usize;
        match word {
            0 => Some(Promise::NeverMade),
            1 => Some(Promise::Set),
            2 if self.is(Twist::PromiseWord2IsSet) => Some(Promise::Set),
            _ if word >= OWNED_BASE && owner < tasks => Some(Promise::Owned(owner)),
            _ if word == OWNED_BASE + tasks as u16 && self.is(Twist::OwnerAtBound) => Some(Promise::Owned(tasks - 1)),
            _ if word >= self.blamed_base() && blamed < tasks => Some(Promise::Blamed(blamed)),
            _ if blamed == tasks && self.is(Twist::BlamedAtBound) => Some(Promise::Set),
            _ => None,
        }
    }

    pub fn write_task(&self, task: Task) -> u16 {
        match task {
            Task::NeverUsed => 0,
            Task::Ready => 1,
            Task::Ended => 2,
            Task::Waits(p) => WAITS_BASE + p as u16,
        }
    }

    pub fn write_promise(&self, promise: Promise) -> u16 {
        match promise {
            Promise::NeverMade => 0,
            Promise::Set => 1,
            Promise::Owned(t) => OWNED_BASE + t as u16,
            Promise::Blamed(t) => self.blamed_base() + t as u16,
        }
    }
}

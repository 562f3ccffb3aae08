//! The two tables as meanings, and their way from and to words.

use crate::{Model, Promise, Task, Twist};

#[derive(Clone, PartialEq, Eq, Debug)]
pub struct Tables {
    pub tasks: Vec<Task>,
    pub promises: Vec<Promise>,
}

impl Tables {
    /// Task 0 is ready, nothing else was ever used.
    pub fn fresh(tasks: usize, promises: usize) -> Tables {
        let mut fresh = Tables { tasks: vec![Task::NeverUsed; tasks], promises: vec![Promise::NeverMade; promises] };
        fresh.tasks[..1].fill(Task::Ready);
        fresh
    }

    /// The owner of promise `p`, if it is owned.
    pub fn owner(&self, p: usize) -> Option<usize> {
        match self.promises[p] {
            Promise::Owned(t) => Some(t),
            _ => None,
        }
    }

    /// What task `t` awaits, if it waits.
    pub fn awaited(&self, t: usize) -> Option<usize> {
        match self.tasks[t] {
            Task::Waits(p) => Some(p),
            _ => None,
        }
    }

    /// The promises that `t` owns, rising.
    pub fn owned_by(&self, t: usize) -> Vec<usize> {
        (0..self.promises.len()).filter(|&p| self.owner(p) == Some(t)).collect()
    }

    /// The tasks that wait on one of `promises`, rising.
    pub fn waiting_on(&self, promises: &[usize]) -> Vec<usize> {
        (0..self.tasks.len()).filter(|&t| self.awaited(t).is_some_and(|p| promises.contains(&p))).collect()
    }
}

impl Model {
    /// The meanings of two tables of words; nothing if a word has none.
    pub fn read_tables(&self, tasks: &[u16], promises: &[u16]) -> Option<Tables> {
        let task = |&word: &u16| self.read_task(word, promises.len());
        let last = promises.len().wrapping_sub(1);
        let promise = |(p, &word): (usize, &u16)| match self.read_promise(word, tasks.len()) {
            None if p == last && self.is(Twist::LastPromiseUnseen) => Some(Promise::Set),
            promise => promise,
        };
        Some(Tables {
            tasks: tasks.iter().map(task).collect::<Option<_>>()?,
            promises: promises.iter().enumerate().map(promise).collect::<Option<_>>()?,
        })
    }

    pub fn write_tables(&self, tables: &Tables, tasks: &mut [u16], promises: &mut [u16]) {
        for (word, &task) in tasks.iter_mut().zip(&tables.tasks) {
            *word = self.write_task(task);
        }
        for (word, &promise) in promises.iter_mut().zip(&tables.promises) {
            *word = self.write_promise(promise);
        }
    }

    /// Writes fresh tables; refuses, with nothing written, if a length is out of bounds.
    pub fn fresh(&self, tasks: &mut [u16], promises: &mut [u16]) -> Result<(), u16> {
        if !self.tables_within_bounds(tasks.len(), promises.len()) {
            return Err(1);
        }
        self.write_tables(&Tables::fresh(tasks.len(), promises.len()), tasks, promises);
        Ok(())
    }
}

//! What every step has in common: its refusals in the paper's order, and what it writes.

use crate::{Answer, Model, Promise, Step, Tables, Task, Twist};

/// An accepted step's answer with the words it names in the report, or a refusal.
pub(crate) type Outcome = Result<(Answer, Vec<usize>), Answer>;

pub(crate) fn refuse<T>(number: u16) -> Result<T, Answer> {
    Err(Answer::Refused(number))
}

impl Model {
    /// Takes one step on the lent tables and report.
    pub fn step(&self, step: &Step, tasks: &mut [u16], promises: &mut [u16], report: &mut [u16]) -> Answer {
        if let Some(refusal) = self.refused_at_once(step, tasks, promises, report) {
            return refusal;
        }
        let Some(before) = self.read_sound(tasks, promises) else {
            return Answer::Refused(2);
        };
        let mut after = before.clone();
        let outcome = match step {
            Step::New { t, p } => self.make(&mut after, *t as usize, *p as usize),
            Step::Set { t, p } => self.set(&mut after, *t as usize, *p as usize),
            Step::Get { t, p } => self.get(&mut after, *t as usize, *p as usize),
            Step::Async { t, c, list } => self.start(&mut after, *t as usize, *c as usize, list),
            Step::End { t } => self.end(&mut after, *t as usize),
        };
        match self.bent_blame(step, &before, &mut after, outcome) {
            Ok((answer, named)) => {
                let keeps_tables = self.is(Twist::WritesNoTable)
                    || self.is(Twist::CarriesOutFirstOnly) && before != Tables::fresh(tasks.len(), promises.len());
                if !keeps_tables {
                    self.write_tables(&after, tasks, promises);
                }
                for (word, &value) in report.iter_mut().zip(&named) {
                    *word = value as u16;
                }
                if self.is(Twist::ClearsReportTail) {
                    report[named.len()..].fill(0);
                }
                self.told(answer)
            }
            Err(refusal) => {
                if self.is(Twist::AsyncMovesThenRefuses) || self.bends_refused_tables() {
                    self.write_tables(&after, tasks, promises);
                }
                self.bend_refused_report(refusal, report);
                refusal
            }
        }
    }

    /// The refusal that needs no look at sound tables: lengths out of bounds.
    fn refused_at_once(&self, step: &Step, tasks: &[u16], promises: &[u16], report: &[u16]) -> Option<Answer> {
        if self.is(Twist::RefusesAll) {
            return Some(Answer::Refused(2));
        }
        if self.is(Twist::AlwaysWaitsOne) {
            return Some(Answer::Waits(1));
        }
        if !self.within_bounds(tasks.len(), promises.len(), report.len()) {
            let damaged = self.is(Twist::DamageBeforeReport)
                && self.tables_within_bounds(tasks.len(), promises.len())
                && !self.is_sound(tasks, promises);
            return Some(Answer::Refused(if damaged { 2 } else { 1 }));
        }
        if self.is(Twist::ActorBeforeDamage) {
            let (Step::New { t, .. }
            | Step::Set { t, .. }
            | Step::Get { t, .. }
            | Step::Async { t, .. }
            | Step::End { t }) = step;
            return match tasks.get(*t as usize) {
                None => Some(Answer::Refused(3)),
                Some(0 | 2) => Some(Answer::Refused(4)),
                Some(_) => None,
            };
        }
        None
    }

    /// Bends the values of an accepted answer where a twist asks for it.
    fn told(&self, answer: Answer) -> Answer {
        match answer {
            Answer::Waits(_) if self.is(Twist::CountsOneOwner) => Answer::Waits(1),
            Answer::Cycle(_) if self.is(Twist::CountsOneOwner) => Answer::Cycle(1),
            Answer::Waits(k) if self.is(Twist::WaitsCountsActor) => Answer::Waits(k + 1),
            Answer::Cycle(k) if self.is(Twist::CycleLeavesOutActor) => Answer::Cycle(k - 1),
            Answer::Ended(m, n) if self.is(Twist::EndSwapsCounts) => Answer::Ended(n, m),
            _ => answer,
        }
    }

    /// Refusals 3, 4 and 5: `t` must be a ready task.
    pub(crate) fn acting(&self, tables: &Tables, t: usize) -> Result<(), Answer> {
        if t >= tables.tasks.len() {
            return refuse(if t == tables.tasks.len() && self.is(Twist::ActorAtBound) { 4 } else { 3 });
        }
        match tables.tasks[t] {
            Task::NeverUsed | Task::Ended => refuse(if self.is(Twist::SwapsIdleAndWaiting) { 5 } else { 4 }),
            Task::Waits(_) if self.is(Twist::WaitingMayAct) => Ok(()),
            Task::Waits(_) => refuse(if self.is(Twist::SwapsIdleAndWaiting) { 4 } else { 5 }),
            Task::Ready => Ok(()),
        }
    }

    /// Refusal 6, and 8 for a promise that must have been made: the promise, if `p` names one.
    pub(crate) fn made(&self, tables: &Tables, p: usize) -> Result<Promise, Answer> {
        if p >= tables.promises.len() {
            return refuse(if p == tables.promises.len() && self.is(Twist::PromiseAtBound) { 8 } else { 6 });
        }
        match tables.promises[p] {
            Promise::NeverMade => refuse(if self.is(Twist::OwnerBeforeMade) { 10 } else { 8 }),
            promise => Ok(promise),
        }
    }

    /// Refusals 6, 8, 9, 17 and 10: `p` must be owned by `t`.
    pub(crate) fn owned(&self, tables: &Tables, t: usize, p: usize) -> Result<(), Answer> {
        match self.made(tables, p)? {
            promise if promise.is_closed() && self.is(Twist::OwnerBeforeClosed) => refuse(10),
            Promise::Set => refuse(9),
            Promise::Blamed(b) => Err(Answer::RefusedBlamed(17, b)),
            promise if promise == Promise::Owned(t) || self.is(Twist::AnyoneMaySet) => Ok(()),
            _ => refuse(10),
        }
    }
}

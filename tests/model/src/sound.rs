//! The bounds of the lent slices and the soundness of the tables.

use crate::{Model, Promise, Tables, Task, Twist, MOST_PROMISES, MOST_TASKS};

impl Model {
    pub(crate) fn tables_within_bounds(&self, tasks: usize, promises: usize) -> bool {
        let fewest_tasks = 1 - self.slip(Twist::TakesNoTasks);
        let most_tasks = MOST_TASKS + self.slip(Twist::Takes65Tasks) - self.slip(Twist::Refuses64Tasks);
        let fewest_promises = self.slip(Twist::RefusesNoPromises);
        let most_promises = MOST_PROMISES + self.slip(Twist::Takes257Promises) - self.slip(Twist::Refuses256Promises);
        (fewest_tasks..=most_tasks).contains(&tasks) && (fewest_promises..=most_promises).contains(&promises)
    }

    /// What refusal 1 looks at: all lengths are within their bounds.
    pub(crate) fn within_bounds(&self, tasks: usize, promises: usize, report: usize) -> bool {
        let needed = (promises + 2 * tasks + self.slip(Twist::RefusesExactReport))
            .saturating_sub(self.slip(Twist::TakesReportOneShort));
        self.tables_within_bounds(tasks, promises) && report >= needed
    }

    /// Whether two tables of words are sound; those of lengths out of bounds are not.
    pub fn is_sound(&self, tasks: &[u16], promises: &[u16]) -> bool {
        let within = self.tables_within_bounds(tasks.len(), promises.len()) || self.is(Twist::LongTablesAreSound);
        within && self.read_sound(tasks, promises).is_some()
    }

    /// The meanings of sound tables; nothing if they are damaged.
    pub(crate) fn read_sound(&self, tasks: &[u16], promises: &[u16]) -> Option<Tables> {
        let tables = self.read_tables(tasks, promises)?;
        (self.meanings_are_sound(&tables) || self.is(Twist::CallDamagePasses)).then_some(tables)
    }

    fn meanings_are_sound(&self, tables: &Tables) -> bool {
        let looked_at = tables.promises.len().saturating_sub(self.slip(Twist::LastPromiseUnseen));
        let owners_live = tables.promises[..looked_at].iter().all(|&promise| match promise {
            Promise::Owned(t) => {
                tables.tasks[t].is_live()
                    || self.is(Twist::DeadOwnersAreSound)
                    || self.is(Twist::EndedOwnersAreSound) && tables.tasks[t] == Task::Ended
            }
            _ => true,
        });
        let awaited_owned = tables.tasks.iter().all(|&task| match task {
            Task::Waits(p) => {
                tables.owner(p).is_some() || self.is(Twist::AwaitedNeedNoOwner) || self.is(Twist::LostBehindStartIsGood)
            }
            _ => true,
        });
        let blamed_ended = tables.promises[..looked_at].iter().all(|&promise| match promise {
            Promise::Blamed(t) => {
                tables.tasks[t] == Task::Ended
                    || self.is(Twist::LiveBlamedIsSound) && tables.tasks[t].is_live()
                    || self.is(Twist::UnusedBlamedIsSound) && tables.tasks[t] == Task::NeverUsed
            }
            _ => true,
        });
        let has_live = tables.tasks.iter().any(|task| task.is_live()) || !self.is(Twist::NoLiveTaskIsDamaged);
        owners_live && awaited_owned && blamed_ended && has_live && self.chains_come(tables)
    }

    /// Whether every waiting task's chain comes to a ready task.
    fn chains_come(&self, tables: &Tables) -> bool {
        if self.walks_with_marks() {
            return self.walks_end_well(tables);
        }
        (0..tables.tasks.len()).all(|t| self.comes_to_ready(tables, t))
    }

    /// Whether the chain of `t`, if it waits, comes to a ready task.
    fn comes_to_ready(&self, tables: &Tables, t: usize) -> bool {
        if self.is(Twist::RingsAreSound) {
            return true;
        }
        let most_links = (tables.tasks.len() - 1).saturating_sub(self.slip(Twist::LongestChainIsRing));
        let mut at = t;
        for _ in 0..=most_links {
            match tables.awaited(at).and_then(|p| tables.owner(p)) {
                None => return true,
                Some(owner) if owner == t && t == at && self.is(Twist::RingOfOneIsSound) => return true,
                Some(owner) => at = owner,
            }
        }
        false
    }
}

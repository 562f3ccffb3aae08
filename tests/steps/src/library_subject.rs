//! The proved library as a subject of cases.

use crate::guarded::Guarded;
use cases::case::{Lent, Reply, Subject};
use model::Step;

pub struct LibrarySubject {
    with_guards: bool,
}

impl LibrarySubject {
    /// Lends words between guards and tells stray writes by them.
    pub fn guarded() -> LibrarySubject {
        LibrarySubject { with_guards: true }
    }

    /// Lends words just as long as they are, so that a memory checker tells stray reads too.
    pub fn exact() -> LibrarySubject {
        LibrarySubject { with_guards: false }
    }

    fn guard(&self, words: &[u16]) -> Guarded {
        Guarded::new(words, self.with_guards)
    }
}

impl Subject for LibrarySubject {
    fn step(&mut self, step: &Step, lent: &mut Lent) -> Reply {
        let mut tasks = self.guard(&lent.tasks);
        let mut promises = self.guard(&lent.promises);
        let mut report = self.guard(&lent.report);
        let mut answer = self.guard(&lent.answer);
        let mut list_changed = false;
        let number = {
            let (k, p, r, a) = (tasks.lend(), promises.lend(), report.lend(), answer.lend());
            match step {
                Step::New { t, p: promise } => library::step_new(k, p, r, *t, *promise, a),
                Step::Set { t, p: promise } => library::step_set(k, p, r, *t, *promise, a),
                Step::Get { t, p: promise } => library::step_get(k, p, r, *t, *promise, a),
                Step::Async { t, c, list } => {
                    let mut lent_list = self.guard(list);
                    let number = library::step_async(k, p, r, *t, *c, lent_list.lend(), a);
                    list_changed = lent_list.lend() != &list[..] || !lent_list.guards_kept();
                    number
                }
                Step::End { t } => library::step_end(k, p, r, *t, a),
            }
        };
        lent.tasks.copy_from_slice(tasks.lend());
        lent.promises.copy_from_slice(promises.lend());
        lent.report.copy_from_slice(report.lend());
        lent.answer.copy_from_slice(answer.lend());
        let guards_kept = [&tasks, &promises, &report, &answer].iter().all(|words| words.guards_kept());
        Reply { number, strayed: list_changed || !guards_kept }
    }

    fn is_sound(&mut self, tasks: &[u16], promises: &[u16]) -> u8 {
        let (mut tasks, mut promises) = (self.guard(tasks), self.guard(promises));
        library::is_sound(tasks.lend(), promises.lend())
    }

    fn fresh(&mut self, tasks: &mut Vec<u16>, promises: &mut Vec<u16>) -> Reply {
        let (mut lent_tasks, mut lent_promises) = (self.guard(tasks), self.guard(promises));
        let number = library::fresh(lent_tasks.lend(), lent_promises.lend());
        tasks.copy_from_slice(lent_tasks.lend());
        promises.copy_from_slice(lent_promises.lend());
        Reply { number, strayed: !lent_tasks.guards_kept() || !lent_promises.guards_kept() }
    }
}

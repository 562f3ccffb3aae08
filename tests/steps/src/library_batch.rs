//! The proved library as a subject of batches.

use crate::guarded::Guarded;
use cases::batch_case::{BatchCase, BatchSubject};
use cases::case::Reply;

/// The library's batch.
pub struct LibraryBatch {
    with_guards: bool,
}

impl LibraryBatch {
    /// Lends words between guards and tells stray writes by them.
    pub fn guarded() -> LibraryBatch {
        LibraryBatch { with_guards: true }
    }

    /// Lends words just as long as they are, so that a memory checker tells stray reads too.
    pub fn exact() -> LibraryBatch {
        LibraryBatch { with_guards: false }
    }
}

impl BatchSubject for LibraryBatch {
    fn batch(&mut self, lent: &mut BatchCase) -> Reply {
        let guard = |words: &[u16]| Guarded::new(words, self.with_guards);
        let mut tasks = guard(&lent.tasks);
        let mut promises = guard(&lent.promises);
        let mut report = guard(&lent.report);
        let mut steps = guard(&lent.steps);
        let mut list = guard(&lent.list);
        let mut answers = guard(&lent.answers);
        let number =
            library::batch(tasks.lend(), promises.lend(), report.lend(), steps.lend(), list.lend(), answers.lend());
        lent.tasks.copy_from_slice(tasks.lend());
        lent.promises.copy_from_slice(promises.lend());
        lent.report.copy_from_slice(report.lend());
        lent.answers.copy_from_slice(answers.lend());
        let read_only_kept = steps.lend() == lent.steps && list.lend() == lent.list;
        let all = [&tasks, &promises, &report, &steps, &list, &answers];
        Reply { number, strayed: !read_only_kept || !all.iter().all(|words| words.guards_kept()) }
    }
}

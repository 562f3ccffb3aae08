//! The twists of the soundness test that walks each link once: from the last task to the first, each walk leaves its
//! start as a mark on every task it comes by, and ends well where it meets a ready task or the mark of another walk.

use crate::{Model, Promise, Tables, Task, Twist};

/// Whose mark a task bears, if a walk came by.
type Marks = Vec<Option<usize>>;

impl Model {
    /// Whether a twist has the chains followed by walks that leave marks.
    pub(crate) fn walks_with_marks(&self) -> bool {
        matches!(
            self.twist,
            Twist::OwnMarkIsGood
                | Twist::RingAtStartOnly
                | Twist::RingAtStartOnlyRising
                | Twist::LostBehindStartIsGood
                | Twist::WalksFromTaskOne
                | Twist::WalksToLastButOne
                | Twist::MarksInFiveBits
                | Twist::HigherTaskEndsWalk
                | Twist::WalksWhereNobodyWaits
        )
    }

    /// Whether every walk ends well.
    pub(crate) fn walks_end_well(&self, tables: &Tables) -> bool {
        let count = tables.tasks.len();
        let somebody_waits = tables.tasks.iter().any(|task| matches!(task, Task::Waits(_)));
        if somebody_waits && self.is(Twist::WalksWhereNobodyWaits) {
            return true;
        }
        let first = self.slip(Twist::WalksFromTaskOne);
        let mut starts: Vec<usize> = (first..count - self.slip(Twist::WalksToLastButOne)).rev().collect();
        if self.is(Twist::RingAtStartOnlyRising) {
            starts.reverse();
        }
        let mut marks = vec![None; count];
        starts.into_iter().all(|start| self.walk_ends_well(tables, &mut marks, start))
    }

    fn walk_ends_well(&self, tables: &Tables, marks: &mut Marks, start: usize) -> bool {
        let mut at = start;
        loop {
            let place = if self.is(Twist::MarksInFiveBits) { at % 32 } else { at };
            match marks[place] {
                Some(mark) if mark != start => return true,
                Some(_) => return self.own_mark_ends_well(start, at),
                None => marks[place] = Some(start),
            }
            let Task::Waits(p) = tables.tasks[at] else { return true };
            let Promise::Owned(owner) = tables.promises[p] else {
                return self.is(Twist::LostBehindStartIsGood) && at != start;
            };
            if owner > at && self.is(Twist::HigherTaskEndsWalk) {
                return true;
            }
            at = owner;
        }
    }

    /// What a walk answers that comes to its own mark: it has found a ring.
    fn own_mark_ends_well(&self, start: usize, at: usize) -> bool {
        match self.twist {
            Twist::OwnMarkIsGood => true,
            Twist::RingAtStartOnly | Twist::RingAtStartOnlyRising => at != start,
            _ => false,
        }
    }
}

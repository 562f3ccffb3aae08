//! The wrong things done with a blamed promise that the checks must find. Without a twist nothing is bent.

use crate::bent_blamed::{blamed_entries, forgiven, Blame, List};
use crate::step::Outcome;
use crate::{Answer, Model, Promise, Tables, Task, Twist};

impl Model {
    /// What a step that got 17 does to the tables: nothing, but for a twist; its outcome if it is then accepted.
    pub(crate) fn bent_taking(&self, blame: &Blame, before: &Tables, after: &mut Tables) -> Option<Outcome> {
        let Some(List { c, entries, place }) = blame.list else {
            match self.twist {
                Twist::BlamedIsSetAnyway | Twist::BlamedMayBeSet => after.promises[blame.p] = Promise::Set,
                Twist::BlamedIsTaken => after.promises[blame.p] = Promise::Owned(blame.t),
                Twist::BlamedIsForgotten => after.promises[blame.p] = Promise::NeverMade,
                _ => {}
            }
            return self.is(Twist::BlamedMayBeSet).then_some(Ok((Answer::Set(0), vec![])));
        };
        match self.twist {
            Twist::BlamedStartsChild => after.tasks[c] = Task::Ready,
            Twist::BlamedMovesFirst => {
                for &p in &entries[..place] {
                    after.promises[p as usize] = Promise::Owned(c);
                }
            }
            Twist::BlamedMayBeListed => {
                *after = forgiven(before, blame.t, entries);
                return Some(self.start(after, blame.t, c, entries));
            }
            Twist::BlamedIsPassedOver => {
                let blamed: Vec<usize> = blamed_entries(before, entries).map(|(place, _)| place).collect();
                let rest: Vec<u16> =
                    (0..entries.len()).filter(|place| !blamed.contains(place)).map(|place| entries[place]).collect();
                return Some(self.start(after, blame.t, c, &rest));
            }
            _ => {}
        }
        None
    }

    /// Whether a refused step leaves what the twist made of the tables.
    pub(crate) fn bends_refused_tables(&self) -> bool {
        matches!(
            self.twist,
            Twist::BlamedIsSetAnyway
                | Twist::BlamedIsTaken
                | Twist::BlamedIsForgotten
                | Twist::BlamedStartsChild
                | Twist::BlamedMovesFirst
        )
    }

    /// What a refused step writes to the report: nothing, but for a twist.
    pub(crate) fn bend_refused_report(&self, refusal: Answer, report: &mut [u16]) {
        match (self.twist, refusal) {
            (Twist::BlamedReportsInSet, Answer::RefusedBlamed(_, b))
            | (Twist::BlamedReportsInAsync, Answer::RefusedBlamedAt(_, _, b)) => report[0] = b as u16,
            _ => {}
        }
    }
}

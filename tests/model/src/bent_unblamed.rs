//! The wrong places for refusal 17 that the checks must find. Without a twist nothing is bent.

use crate::bent_blamed::blamed_entries;
use crate::step::Outcome;
use crate::{Answer, Model, Promise, Step, Tables, Twist};

impl Model {
    /// What a step gives for which 17 is not due, if a twist asks for it.
    pub(crate) fn bent_unblamed(&self, step: &Step, before: &Tables, outcome: &Outcome) -> Option<Answer> {
        match (self.twist, outcome) {
            (Twist::GetOfBlamedRefused, Ok((Answer::Blamed(b), _))) => Some(Answer::RefusedBlamed(17, *b)),
            (_, Ok(_)) => None,
            (_, Err(refusal)) => self.bent_refusal(step, before, *refusal),
        }
    }

    fn bent_refusal(&self, step: &Step, before: &Tables, refusal: Answer) -> Option<Answer> {
        let number = refusal.words()[0];
        match (self.twist, number) {
            (Twist::SetIsBlamed | Twist::SwapsSetAndBlamed, 9) => Some(blaming(refusal, 0)),
            (Twist::NineTellsActor, 9) => Some(telling(refusal, actor(step))),
            (Twist::ForeignIsBlamed, 10) => before.owner(promise(step, refusal)).map(|owner| blaming(refusal, owner)),
            (Twist::NewOfBlamedRefused, 7) => match before.promises[promise(step, refusal)] {
                Promise::Blamed(b) => Some(blaming(refusal, b)),
                _ => None,
            },
            (Twist::BlamedBeforeThree, 3)
            | (Twist::BlamedBeforeFour, 4)
            | (Twist::BlamedBeforeFive, 5)
            | (Twist::BlamedBeforeChild, 11 | 12)
            | (Twist::BlamedBeforeTwelve, 12) => self.later_17(step, before),
            (Twist::BlamedBeforeList, _)
            | (Twist::BlamedBeforeSix, 6)
            | (Twist::BlamedBeforeEight, 8)
            | (Twist::BlamedBeforeNine, 9)
            | (Twist::BlamedBeforeTen, 10)
            | (Twist::BlamedBeforeThirteen, 13)
                if refusal.place().is_some() =>
            {
                first_blamed(step, before)
            }
            _ => None,
        }
    }

    /// The 17 that a set or an async would get, had its acting task and child been good.
    fn later_17(&self, step: &Step, before: &Tables) -> Option<Answer> {
        let outcome = match step {
            Step::Set { t, p } => self.owned(before, *t as usize, *p as usize),
            Step::Async { t, list, .. } => self.entries(before, *t as usize, list),
            _ => Ok(()),
        };
        outcome.err().filter(|refusal| refusal.words()[0] == 17)
    }
}

/// 17 with this task, at the place of the refusal if it has one.
fn blaming(refusal: Answer, task: usize) -> Answer {
    match refusal.place() {
        Some(place) => Answer::RefusedBlamedAt(17, place, task),
        None => Answer::RefusedBlamed(17, task),
    }
}

/// The refusal, with a task that is told too.
fn telling(refusal: Answer, task: usize) -> Answer {
    match refusal {
        Answer::Refused(number) => Answer::RefusedBlamed(number, task),
        Answer::RefusedAt(number, place) => Answer::RefusedBlamedAt(number, place, task),
        _ => refusal,
    }
}

fn actor(step: &Step) -> usize {
    match step {
        Step::New { t, .. } | Step::Set { t, .. } | Step::Get { t, .. } | Step::Async { t, .. } | Step::End { t } => {
            *t as usize
        }
    }
}

/// The promise that was refused.
fn promise(step: &Step, refusal: Answer) -> usize {
    match step {
        Step::New { p, .. } | Step::Set { p, .. } | Step::Get { p, .. } => *p as usize,
        Step::Async { list, .. } => refusal.place().map_or(0, |place| list[place] as usize),
        Step::End { .. } => 0,
    }
}

/// 17 for the first blamed entry of a list, whatever stands before it.
fn first_blamed(step: &Step, before: &Tables) -> Option<Answer> {
    let Step::Async { list, .. } = step else { return None };
    blamed_entries(before, list).next().map(|(place, b)| Answer::RefusedBlamedAt(17, place, b))
}

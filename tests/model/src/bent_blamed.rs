//! The wrong ways with a blamed promise that the checks must find. Without a twist nothing is bent.

use crate::step::Outcome;
use crate::{Answer, Model, Promise, Step, Tables, Twist, BLAMED_BASE, OWNED_BASE};

/// A set or an async for which 17 is due.
pub(crate) struct Blame<'a> {
    pub(crate) t: usize,
    /// The promise, and the task it is blamed on.
    pub(crate) p: usize,
    b: usize,
    pub(crate) list: Option<List<'a>>,
}

/// The list of an async, its child, and the place of the entry for which 17 is due.
pub(crate) struct List<'a> {
    pub(crate) c: usize,
    pub(crate) entries: &'a [u16],
    pub(crate) place: usize,
}

impl<'a> Blame<'a> {
    /// What the step met, if it got 17.
    fn met(step: &'a Step, refusal: Answer) -> Option<Blame<'a>> {
        match (step, refusal) {
            (Step::Set { t, p }, Answer::RefusedBlamed(_, b)) => {
                Some(Blame { t: *t as usize, p: *p as usize, b, list: None })
            }
            (Step::Async { t, c, list }, Answer::RefusedBlamedAt(_, place, b)) => {
                let p = list[place.min(list.len() - 1)] as usize;
                let list = List { c: *c as usize, entries: list, place };
                Some(Blame { t: *t as usize, p, b, list: Some(list) })
            }
            _ => None,
        }
    }

    fn place(&self) -> Option<usize> {
        self.list.as_ref().map(|list| list.place)
    }

    /// A refusal without the task, but with the place in an async.
    fn refused(&self, number: u16) -> Answer {
        match self.place() {
            Some(place) => Answer::RefusedAt(number, place),
            None => Answer::Refused(number),
        }
    }

    fn refused_with(&self, number: u16, task: usize) -> Answer {
        match self.place() {
            Some(place) => Answer::RefusedBlamedAt(number, place, task),
            None => Answer::RefusedBlamed(number, task),
        }
    }

    /// 17 with another task.
    fn blaming(&self, task: usize) -> Answer {
        self.refused_with(17, task)
    }

    /// 17 with another place, if there is one.
    fn placed(&self, place: impl Fn(&List) -> usize) -> Answer {
        match &self.list {
            Some(list) => Answer::RefusedBlamedAt(17, place(list), self.b),
            None => Answer::RefusedBlamed(17, self.b),
        }
    }
}

/// The place of each blamed entry of a list, and the task it is blamed on.
pub(crate) fn blamed_entries<'a>(
    tables: &'a Tables,
    list: &'a [u16],
) -> impl DoubleEndedIterator<Item = (usize, usize)> + 'a {
    let blamed = |p: u16| blamed_task(*tables.promises.get(p as usize)?);
    (0..list.len()).filter_map(move |place| blamed(list[place]).map(|b| (place, b)))
}

/// The tables, had `t` owned the blamed promises of this list.
pub(crate) fn forgiven(tables: &Tables, t: usize, list: &[u16]) -> Tables {
    let mut forgiven = tables.clone();
    for (place, _) in blamed_entries(tables, list) {
        forgiven.promises[list[place] as usize] = Promise::Owned(t);
    }
    forgiven
}

impl Model {
    /// The outcome of a step from the tables `before`, bent where a twist asks for it.
    pub(crate) fn bent_blame(&self, step: &Step, before: &Tables, after: &mut Tables, outcome: Outcome) -> Outcome {
        let blame = outcome.as_ref().err().and_then(|&refusal| Blame::met(step, refusal));
        match blame {
            Some(blame) => {
                let taken = self.bent_taking(&blame, before, after);
                taken.unwrap_or_else(|| Err(self.bent_17(&blame, before)))
            }
            None => self.bent_unblamed(step, before, &outcome).map_or(outcome, Err),
        }
    }

    /// What is told where 17 is due.
    fn bent_17(&self, blame: &Blame, before: &Tables) -> Answer {
        let (in_set, place) = (blame.list.is_none(), blame.place());
        let owns_some = before.promises.contains(&Promise::Owned(blame.t));
        let number = match self.twist {
            Twist::BlamedIsNotClosed => Some(10),
            Twist::BlamedIsSet | Twist::SwapsSetAndBlamed => Some(9),
            Twist::BlamedIsSetInSet if in_set => Some(9),
            Twist::BlamedIsSetInAsync if !in_set => Some(9),
            Twist::BlamedIsUnmade => Some(8),
            Twist::BlamedIsRepeat if !in_set => Some(13),
            Twist::BlamedZeroIsSet if blame.b == 0 => Some(9),
            Twist::BlamedLastIsSet if blame.b + 1 == before.tasks.len() => Some(9),
            Twist::BlamedFirstOnly if place.is_some_and(|place| place > 0) => Some(9),
            Twist::BlamedLaterOnly if place == Some(0) => Some(9),
            Twist::BlamedToLowerOnly if blame.t > blame.b => Some(10),
            Twist::BlamedToHigherOnly if blame.t < blame.b => Some(10),
            Twist::BlamedToZeroOnly if blame.t != 0 => Some(10),
            Twist::BlamedToOwnersOnly if !owns_some => Some(10),
            Twist::BlamedToOthersOnly if owns_some => Some(10),
            Twist::BlamedUntold => Some(17),
            Twist::BlamedUntoldInSet if in_set => Some(17),
            Twist::BlamedUntoldInAsync if !in_set => Some(17),
            _ => None,
        };
        number.map_or_else(|| self.bent_values(blame, before), |number| blame.refused(number))
    }

    /// The place and the task that are told with 17.
    fn bent_values(&self, blame: &Blame, before: &Tables) -> Answer {
        let &Blame { t, p, b, ref list } = blame;
        let any_blamed = || before.promises.iter().filter_map(|&promise| blamed_task(promise));
        match self.twist {
            Twist::NineTellsBlamed => blame.refused_with(9, b),
            Twist::BlamedTellsActor => blame.blaming(t),
            Twist::BlamedTellsPromise => blame.blaming(p),
            Twist::BlamedTellsWord => blame.blaming(b + BLAMED_BASE as usize),
            Twist::BlamedTellsAsOwner => blame.blaming(b + (BLAMED_BASE - OWNED_BASE) as usize),
            Twist::BlamedTellsNext => blame.blaming(b + 1),
            Twist::BlamedTellsBefore => blame.blaming(b.saturating_sub(1)),
            Twist::BlamedInFiveBits => blame.blaming(b % 32),
            Twist::BlamedTellsLeast => blame.blaming(any_blamed().min().unwrap_or(b)),
            Twist::BlamedTellsLargest => blame.blaming(any_blamed().max().unwrap_or(b)),
            Twist::BlamedSetTellsPlace if list.is_none() => Answer::RefusedBlamedAt(17, 0, b),
            Twist::BlamedPlaceUntold => Answer::RefusedBlamed(17, b),
            Twist::BlamedPlaceFromOne => blame.placed(|list| list.place + 1),
            Twist::BlamedPlaceZero => blame.placed(|_| 0),
            Twist::BlamedPlaceIsEntry => blame.placed(|_| p),
            Twist::BlamedPlaceFromEnd => blame.placed(|list| list.entries.len() - 1 - list.place),
            Twist::BlamedPlaceInSevenBits => blame.placed(|list| list.place % 128),
            _ => match list {
                Some(list) => self.bent_entry(blame, list, before),
                None => blame.blaming(b),
            },
        }
    }

    /// What is wrong with the entries apart from those that are blamed, if that comes before 17.
    fn other_refusal(&self, blame: &Blame, list: &List, before: &Tables) -> Option<Answer> {
        let other = self.entries(&forgiven(before, blame.t, list.entries), blame.t, list.entries).err()?;
        match (self.twist, other.words()[0]) {
            (Twist::BlamedAfterList, _) | (Twist::BlamedAfterNine, 9) | (Twist::BlamedAfterThirteen, 13) => Some(other),
            _ => None,
        }
    }

    /// The entry of which place and task are told with 17.
    fn bent_entry(&self, blame: &Blame, list: &List, before: &Tables) -> Answer {
        let (last_place, last_task) = blamed_entries(before, list.entries).next_back().unwrap_or((list.place, blame.b));
        let first_word = before.promises.get(list.entries[0] as usize).map_or(0, |&first| self.write_promise(first));
        match self.twist {
            Twist::BlamedBeforePlace => Answer::RefusedBlamedAt(17, blame.b, list.place),
            Twist::BlamedTellsChild => blame.blaming(list.c),
            Twist::BlamedOfFirstEntry => blame.blaming(first_word.wrapping_sub(BLAMED_BASE) as usize),
            Twist::BlamedOfLastEntry => blame.blaming(last_task),
            Twist::BlamedAtLastEntry => Answer::RefusedBlamedAt(17, last_place, last_task),
            Twist::BlamedAfterList | Twist::BlamedAfterNine | Twist::BlamedAfterThirteen => {
                self.other_refusal(blame, list, before).unwrap_or(blame.blaming(blame.b))
            }
            _ => blame.blaming(blame.b),
        }
    }
}

fn blamed_task(promise: Promise) -> Option<usize> {
    match promise {
        Promise::Blamed(b) => Some(b),
        _ => None,
    }
}

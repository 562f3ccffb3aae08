//! The wrong parts of a batch's list that the checks must find. Without a twist nothing is bent.

use crate::batch::{Batch, END, RECORD_WORDS};
use crate::{Answer, Model, Step, Twist};

/// The words from `start` on and before `end`, as far as the list has them.
fn cut(list: &[u16], start: usize, end: usize) -> Vec<u16> {
    let end = end.min(list.len());
    list[start.min(end)..end].to_vec()
}

impl Model {
    /// The part of a list, bent where a twist asks for it.
    pub(crate) fn bent_part(
        &self,
        part: Option<Vec<u16>>,
        list: &[u16],
        start: usize,
        length: usize,
    ) -> Option<Vec<u16>> {
        let end = start + length;
        let passes = match self.twist {
            Twist::PartByStart => start > list.len(),
            Twist::PartByLength => length > list.len(),
            Twist::PartOneEarly => end >= list.len(),
            Twist::PartOneLate => end > list.len() + 1,
            Twist::EmptyPartPasses => length > 0 && part.is_none(),
            Twist::EmptyPartIsPassing => length == 0 || part.is_none(),
            Twist::PartSumRollsOver => end % 65536 > list.len(),
            Twist::PartListRollsOver => end > list.len() % 65536,
            Twist::PartCutOff => false,
            _ => part.is_none(),
        };
        let part = match self.twist {
            Twist::PartFromListStart => cut(list, 0, length),
            Twist::PartToListEnd => cut(list, start, list.len()),
            Twist::PartLengthIsEnd => cut(list, start, length),
            Twist::PartSwapped => cut(list, length, end),
            _ => cut(list, start, end),
        };
        (!passes).then_some(part)
    }

    /// Whether a record that is no async is refused for its part or its kind.
    pub(crate) fn bent_out(&self, kind: u16, part: &Option<Vec<u16>>) -> bool {
        match self.twist {
            Twist::PartForAllKinds => part.is_none(),
            Twist::KindRefusesStep => kind > END,
            _ => false,
        }
    }

    /// What is given instead of 16 for a part that passes the list's end, if a twist asks for it.
    pub(crate) fn bent_passing(&self, record: &[u16; RECORD_WORDS], lent: &mut Batch) -> Option<Answer> {
        let &[kind, t, c, start, length] = record;
        let (mut tasks, mut promises) = (lent.tasks.to_vec(), lent.promises.to_vec());
        let mut report = vec![0; lent.step_room()];
        let list = cut(lent.list, start as usize, start as usize + length as usize);
        // What the step would have been with the entries that there are.
        let tried = self.step(&Step::Async { t, c, list }, &mut tasks, &mut promises, &mut report);
        if self.is(Twist::PartTakenAnyway) {
            lent.tasks.copy_from_slice(&tasks);
            lent.promises.copy_from_slice(&promises);
        }
        match (self.twist, tried.words()[0]) {
            (Twist::KindRefusesStep, _) if kind > END => Some(Answer::Refused(1)),
            (Twist::PartAfterThree, 3) => Some(tried),
            (Twist::PartAfterFive, 3..=5) => Some(tried),
            (Twist::PartAfterChild, 3..=5 | 11 | 12) => Some(tried),
            (Twist::PartAfterEntries, 3..=13 | 17) => Some(tried),
            (Twist::PartAfterBlamed, 17) => Some(tried),
            (Twist::PartIsThirteen, _) => Some(Answer::Refused(13)),
            (Twist::PartTellsStart, _) => Some(Answer::RefusedAt(16, start as usize)),
            _ => None,
        }
    }

    /// The answer, its place bent where a twist asks for it.
    pub(crate) fn bent_place(&self, answer: Answer, record: &[u16; RECORD_WORDS]) -> Answer {
        let from_list = |place: usize| place + record[3] as usize;
        match (self.twist, answer) {
            (Twist::PartPlacesFromList, Answer::RefusedAt(number, place)) => {
                Answer::RefusedAt(number, from_list(place))
            }
            (
                Twist::PartPlacesFromList | Twist::BatchBlamedPlaceFromList,
                Answer::RefusedBlamedAt(number, place, task),
            ) => Answer::RefusedBlamedAt(number, from_list(place), task),
            _ => answer,
        }
    }
}

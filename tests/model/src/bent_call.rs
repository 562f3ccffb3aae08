//! The wrong refusals of a whole batch that the checks must find. Without a twist nothing is bent.

use crate::batch::{put, Batch, ASYNC, END, RECORD_WORDS};
use crate::{Model, Twist, MOST_PROMISES, MOST_TASKS};

impl Model {
    pub(crate) fn bent_tables_fit(&self, tasks: usize, promises: usize) -> bool {
        let fewest_tasks = 1 - self.slip(Twist::CallTakesNoTasks);
        let most_tasks = MOST_TASKS + self.slip(Twist::CallTakes65Tasks) - self.slip(Twist::CallRefuses64Tasks);
        let fewest_promises = self.slip(Twist::CallRefusesNoPromises);
        let most_promises =
            MOST_PROMISES + self.slip(Twist::CallTakes257Promises) - self.slip(Twist::CallRefuses256Promises);
        (fewest_tasks..=most_tasks).contains(&tasks) && (fewest_promises..=most_promises).contains(&promises)
    }

    /// Whether words after the last whole record do no harm.
    pub(crate) fn bent_whole(&self) -> bool {
        self.is(Twist::RemainderIgnored)
    }

    /// Whether a kind above the last one does no harm.
    pub(crate) fn bent_known(&self, kind: u16) -> bool {
        match self.twist {
            Twist::KindFivePasses => kind == END + 1,
            Twist::KindInEightBits => kind % 256 <= END,
            Twist::KindRefusesStep | Twist::KindTestedLate => true,
            _ => false,
        }
    }

    pub(crate) fn bent_kind(&self, kind: u16) -> u16 {
        if self.is(Twist::KindInEightBits) {
            kind % 256
        } else {
            kind
        }
    }

    pub(crate) fn bent_most_records(&self, most: usize, records: usize) -> usize {
        if self.is(Twist::RecordsInSixteenBits) && records % 65536 <= most {
            return records;
        }
        most + self.slip(Twist::Takes257Records) - self.slip(Twist::Refuses256Records)
    }

    pub(crate) fn bent_report_room(&self, room: usize, lent: &Batch) -> usize {
        match self.twist {
            Twist::RoomForOneRecord => lent.step_room(),
            Twist::RoomWithoutLast => room.saturating_sub(lent.step_room()),
            Twist::RoomCountsTasksOnce => lent.records() * (lent.promises.len() + lent.tasks.len()),
            Twist::RoomOneWordMore => room + 1,
            Twist::RoomOneWordLess => room.saturating_sub(1),
            Twist::RoomInSixteenBits => room % 65536,
            _ => room,
        }
    }

    pub(crate) fn bent_answers_room(&self, room: usize, records: usize) -> usize {
        match self.twist {
            Twist::AnswersOneWordEach => records,
            Twist::AnswersOneWordMore => room + 1,
            Twist::AnswersOneWordLess => room.saturating_sub(1),
            _ => room,
        }
    }

    /// The call's refusal, bent where a twist asks for it.
    pub(crate) fn bent_call_refusal(&self, number: Option<u16>, lent: &Batch) -> Option<u16> {
        let within = self.bent_tables_fit(lent.tasks.len(), lent.promises.len());
        let empty = lent.steps.is_empty();
        match (self.twist, number) {
            (Twist::CallDamageIsOne, Some(2)) => Some(1),
            (Twist::CallDamageFirst, Some(1)) if within && !self.is_sound(lent.tasks, lent.promises) => Some(2),
            (Twist::DamageAnswersEach, Some(2)) => None,
            (Twist::NoRecordsNoBounds, Some(1)) if empty => None,
            (Twist::NoRecordsNoDamage, Some(2)) if empty => None,
            (Twist::NoRecordsRefused, None) if empty => Some(1),
            (Twist::PartRefusesCall, None) if self.has_passing(lent) => Some(16),
            (Twist::PartRefusesCallByOne, _) if self.has_passing(lent) => Some(1),
            (Twist::UnusedMustBeZero, _) if has_unused(lent) => Some(1),
            _ => number,
        }
    }

    /// Whether some async has a part that passes the list's end.
    fn has_passing(&self, lent: &Batch) -> bool {
        lent.steps
            .chunks_exact(RECORD_WORDS)
            .any(|record| record[0] == ASYNC && record[3] as usize + record[4] as usize > lent.list.len())
    }

    /// What a refused call writes: nothing, but for a twist.
    pub(crate) fn bend_refused_call(&self, number: u16, lent: &mut Batch) {
        match (self.twist, number) {
            (Twist::RefusedCallAnswers, _) => put(lent.answers, 0, &[number, 0, 0, 0]),
            (Twist::DamagedCallAnswers, 2) => {
                for index in 0..lent.records() {
                    put(lent.answers, 4 * index, &[2, 0, 0, 0]);
                }
            }
            (Twist::RefusedCallReports, _) => put(lent.report, 0, &[number]),
            _ => {}
        }
    }
}

/// Whether a record that is no async has a start or a length other than 0.
fn has_unused(lent: &Batch) -> bool {
    lent.steps.chunks_exact(RECORD_WORDS).any(|record| record[0] != ASYNC && record[3..] != [0, 0])
}

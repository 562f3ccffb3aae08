//! The wrong batches that the checks must find, but for parts and whole calls. Without a twist nothing is bent.

use crate::batch::{put, Batch, ANSWER_WORDS, END, RECORD_WORDS};
use crate::{Answer, Model, Twist};

impl Model {
    /// The records in the order in which they are taken.
    pub(crate) fn bent_order(&self, records: usize) -> Vec<usize> {
        match self.twist {
            Twist::LastLeftOut => (0..records.saturating_sub(1)).collect(),
            Twist::TakenBackwards => (0..records).rev().collect(),
            _ => (0..records).collect(),
        }
    }

    /// Whether the batch breaks off before this record, after the answer before it.
    pub(crate) fn breaks_off(&self, record: &[u16; RECORD_WORDS], last: Answer) -> bool {
        match self.twist {
            Twist::StopsAtRefused => last.is_refused(),
            Twist::StopsAtPart => last == Answer::Refused(16),
            Twist::StopsAtBlamed => last.words()[0] == 17,
            Twist::StopsAtAlarm => matches!(last, Answer::Cycle(_)),
            Twist::KindTestedLate => record[0] > END,
            _ => false,
        }
    }

    /// The outcome of taking the record a second time, if a twist asks for it.
    pub(crate) fn bent_again(
        &self,
        record: &[u16; RECORD_WORDS],
        last: Answer,
        lent: &mut Batch,
    ) -> Option<(Answer, Vec<u16>)> {
        (self.is(Twist::NextTwice) && last.is_refused()).then(|| self.take(record, lent))
    }

    /// Where the step's words go in the report.
    pub(crate) fn bent_report_place(&self, index: usize, given: usize, lent: &Batch) -> usize {
        match self.twist {
            Twist::ReportAtStride => index * lent.step_room(),
            Twist::ReportFromStart => 0,
            Twist::ReportInEightBits => given % 256,
            _ => given,
        }
    }

    /// How many report words are passed over after this answer.
    pub(crate) fn bent_gap(&self, answer: Answer, lent: &Batch) -> usize {
        match self.twist {
            Twist::GapAfterRefused if answer.is_refused() => lent.step_room(),
            Twist::GapAfterPart if answer == Answer::Refused(16) => 1,
            Twist::GapAfterBlamed if answer.words()[0] == 17 => 1,
            Twist::GapAfterSilent if answer.report_words() == 0 && !answer.is_refused() => 1,
            _ => 0,
        }
    }

    pub(crate) fn put_answer(&self, index: usize, answer: Answer, lent: &mut Batch) {
        let words = answer.words();
        let used = words.iter().rposition(|&word| word != 0).map_or(0, |last| last + 1);
        match self.twist {
            Twist::ValuesUncleared => put(lent.answers, ANSWER_WORDS * index, &words[..used]),
            Twist::ValuesUntold => put(lent.answers, ANSWER_WORDS * index, &[words[0], 0, 0, 0]),
            Twist::AnswersAtIndex => put(lent.answers, index, &words),
            Twist::AnswersInEightBits => put(lent.answers, ANSWER_WORDS * index % 256, &words),
            _ => put(lent.answers, ANSWER_WORDS * index, &words),
        }
    }

    /// Puts back the tables where a twist asks for it.
    pub(crate) fn bend_tables(&self, index: usize, answer: Answer, before: &mut [Vec<u16>; 2], lent: &mut Batch) {
        let is_last = index + 1 == lent.records();
        let put_back = match self.twist {
            Twist::FirstCarriedOut => index > 0,
            Twist::TablesAsLent => !is_last,
            Twist::TablesKept => is_last,
            Twist::RefusedPutsBack => answer.is_refused(),
            _ => false,
        };
        if put_back {
            lent.tasks.copy_from_slice(&before[0]);
            lent.promises.copy_from_slice(&before[1]);
        }
        if self.is(Twist::FirstCarriedOut) {
            *before = [lent.tasks.to_vec(), lent.promises.to_vec()];
        }
    }

    /// What is written past the words given: nothing, but for a twist.
    pub(crate) fn bend_rest(&self, given: usize, lent: &mut Batch) {
        let answered = ANSWER_WORDS * lent.records();
        match self.twist {
            Twist::ReportTailCleared => lent.report[given..].fill(0),
            Twist::ReportEndMarked => put(lent.report, given, &[given as u16]),
            Twist::AnswersTailCleared => lent.answers[answered..].fill(0),
            Twist::AnswersPastLast => put(lent.answers, answered, &[0; ANSWER_WORDS]),
            Twist::AnswersEndMarked => put(lent.answers, answered, &[lent.records() as u16]),
            _ => {}
        }
    }
}

//! A batch: many steps in one call.

use crate::{Answer, Model, Step};

pub const MOST_RECORDS: usize = 256;
/// The words of a record: its kind, the acting task, the promise or child, and for async the start
/// and the length of its part of the list.
pub const RECORD_WORDS: usize = 5;
/// The words of a step's answer.
pub const ANSWER_WORDS: usize = 4;

/// The kind word of each step; there is none above the last.
pub const NEW: u16 = 0;
pub const SET: u16 = 1;
pub const GET: u16 = 2;
pub const ASYNC: u16 = 3;
pub const END: u16 = 4;

/// The words that are lent to a batch.
pub struct Batch<'a> {
    pub tasks: &'a mut [u16],
    pub promises: &'a mut [u16],
    pub report: &'a mut [u16],
    pub steps: &'a [u16],
    pub list: &'a [u16],
    pub answers: &'a mut [u16],
}

impl Batch<'_> {
    pub(crate) fn records(&self) -> usize {
        self.steps.len() / RECORD_WORDS
    }

    pub(crate) fn record(&self, index: usize) -> [u16; RECORD_WORDS] {
        std::array::from_fn(|place| self.steps[RECORD_WORDS * index + place])
    }

    /// The report words that a single step must be lent.
    pub(crate) fn step_room(&self) -> usize {
        self.promises.len() + 2 * self.tasks.len()
    }
}

/// Writes these words from this place on, as far as there is room.
pub(crate) fn put(room: &mut [u16], place: usize, words: &[u16]) {
    for (word, &value) in room.iter_mut().skip(place).zip(words) {
        *word = value;
    }
}

impl Model {
    /// Takes the steps of a batch one after another: 0, or the refusal of the whole call.
    pub fn batch(&self, lent: &mut Batch) -> u16 {
        if let Some(number) = self.call_refusal(lent) {
            self.bend_refused_call(number, lent);
            return number;
        }
        let mut before = [lent.tasks.to_vec(), lent.promises.to_vec()];
        let mut given = 0;
        let mut last = Answer::Made;
        for index in self.bent_order(lent.records()) {
            let record = lent.record(index);
            if self.breaks_off(&record, last) {
                return u16::from(record[0] > END);
            }
            let (answer, words) = self.take(&record, lent);
            let (answer, words) = self.bent_again(&record, last, lent).unwrap_or((answer, words));
            let (answer, words) = self.bent_told(&record, (answer, words), &before[1], lent.list);
            put(lent.report, self.bent_report_place(index, given, lent), &words);
            self.put_answer(index, answer, lent);
            self.bend_17_words(index, answer, lent);
            self.bend_tables(index, answer, &mut before, lent);
            given += words.len() + self.bent_gap(answer, lent);
            last = answer;
        }
        self.bend_rest(given, lent);
        self.bent_return(lent)
    }

    /// The refusal of the whole call, if there is one: 1 for its lengths and kinds, then 2 for its tables.
    fn call_refusal(&self, lent: &Batch) -> Option<u16> {
        let records = lent.records();
        let known = |&kind: &u16| kind <= END;
        let fits = self.bent_tables_fit(lent.tasks.len(), lent.promises.len())
            && (lent.steps.len().is_multiple_of(RECORD_WORDS) || self.bent_whole())
            && lent.steps.iter().step_by(RECORD_WORDS).all(|kind| known(kind) || self.bent_known(*kind))
            && records <= self.bent_most_records(MOST_RECORDS, records)
            && lent.report.len() >= self.bent_report_room(records * lent.step_room(), lent)
            && lent.answers.len() >= self.bent_answers_room(ANSWER_WORDS * records, records);
        let sound = || self.is_sound(lent.tasks, lent.promises);
        let number = match fits {
            false => Some(1),
            true if !sound() => Some(2),
            true => None,
        };
        self.bent_call_refusal(number, lent)
    }

    /// Takes the step of one record: its answer and the words of its report.
    pub(crate) fn take(&self, record: &[u16; RECORD_WORDS], lent: &mut Batch) -> (Answer, Vec<u16>) {
        let Some(step) = self.step_of(record, lent.list) else {
            return (self.bent_passing(record, lent).unwrap_or(Answer::Refused(16)), vec![]);
        };
        let mut report = vec![0; lent.step_room()];
        let answer = self.step(&step, lent.tasks, lent.promises, &mut report);
        report.truncate(answer.report_words());
        (self.bent_place(answer, record), report)
    }

    /// The step of a record; nothing if its part of the list passes the list's end.
    fn step_of(&self, record: &[u16; RECORD_WORDS], list: &[u16]) -> Option<Step> {
        let &[kind, t, other, start, length] = record;
        let part = self.part(list, start as usize, length as usize);
        if self.bent_out(kind, &part) {
            return None;
        }
        Some(match self.bent_kind(kind) {
            NEW => Step::New { t, p: other },
            SET => Step::Set { t, p: other },
            GET => Step::Get { t, p: other },
            ASYNC => Step::Async { t, c: other, list: part? },
            _ => Step::End { t },
        })
    }

    /// The part of the list with this start and length; nothing if their sum passes the list's length.
    fn part(&self, list: &[u16], start: usize, length: usize) -> Option<Vec<u16>> {
        let part = list.get(start..start + length).map(<[u16]>::to_vec);
        self.bent_part(part, list, start, length)
    }
}

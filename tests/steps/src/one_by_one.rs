//! The library's own single steps in a batch's place.

use cases::batch_case::{BatchCase, BatchSubject};
use cases::case::Reply;
use model::batch::{ANSWER_WORDS, ASYNC, GET, NEW, RECORD_WORDS, SET};

/// Takes the steps of a batch that is not refused one by one, each with a report of its own.
pub struct OneByOne;

impl BatchSubject for OneByOne {
    fn batch(&mut self, lent: &mut BatchCase) -> Reply {
        let mut given = 0;
        let mut strayed = false;
        for index in 0..lent.records() {
            let mut report = vec![0; lent.promises.len() + 2 * lent.tasks.len()];
            let mut answer = [0xBEEF; ANSWER_WORDS];
            let number = single_step(lent, index, &mut report, &mut answer);
            strayed |= number != answer[0];
            let words = report_words(answer);
            lent.report[given..given + words].copy_from_slice(&report[..words]);
            lent.answers[ANSWER_WORDS * index..][..ANSWER_WORDS].copy_from_slice(&answer);
            given += words;
        }
        Reply { number: 0, strayed }
    }
}

/// The library's step of this record; a part that passes the list's end is answered here.
fn single_step(lent: &mut BatchCase, index: usize, report: &mut [u16], answer: &mut [u16; ANSWER_WORDS]) -> u16 {
    let BatchCase { tasks, promises, steps, list, .. } = lent;
    let record = &steps[RECORD_WORDS * index..][..RECORD_WORDS];
    let (t, other) = (record[1], record[2]);
    match record[0] {
        NEW => library::step_new(tasks, promises, report, t, other, answer),
        SET => library::step_set(tasks, promises, report, t, other, answer),
        GET => library::step_get(tasks, promises, report, t, other, answer),
        ASYNC => {
            let (start, length) = (usize::from(record[3]), usize::from(record[4]));
            if start + length > list.len() {
                *answer = [16, 0, 0, 0];
                return 16;
            }
            library::step_async(tasks, promises, report, t, other, &list[start..start + length], answer)
        }
        _ => library::step_end(tasks, promises, report, t, answer),
    }
}

/// How many report words go with this answer: the tasks of a set, the pairs of a cycle, both lists of an end.
fn report_words(answer: [u16; ANSWER_WORDS]) -> usize {
    let value = |place: usize| usize::from(answer[place]);
    match answer[0] {
        102 => value(1),
        106 => 2 * value(1),
        108 => value(1) + value(2),
        _ => 0,
    }
}

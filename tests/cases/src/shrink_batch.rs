//! Makes a batch that shows a difference as small as it can.

use crate::batch_case::BatchCase;
use model::batch::{ANSWER_WORDS, RECORD_WORDS};

type Differs<'a> = dyn FnMut(&BatchCase) -> bool + 'a;
type Part = fn(&mut BatchCase) -> &mut Vec<u16>;

/// How many words of a table are looked at one by one.
const MOST_WORDS: usize = 400;

/// The smallest batch found that still differs, starting from one that does.
pub fn shrink_batch(case: &BatchCase, differs: &mut Differs) -> BatchCase {
    let mut best = case.clone();
    loop {
        let before = best.clone();
        drop_records(&mut best, differs);
        shorten_tables(&mut best, differs);
        shorten_rest(&mut best, differs);
        clear_words(&mut best, differs);
        if best == before {
            return best;
        }
    }
}

/// Keeps the change if the batch still differs.
fn attempt(best: &mut BatchCase, differs: &mut Differs, change: impl FnOnce(&mut BatchCase)) -> bool {
    let mut changed = best.clone();
    change(&mut changed);
    let better = changed != *best && differs(&changed);
    if better {
        *best = changed;
    }
    better
}

fn cut(words: &mut Vec<u16>, fewer: usize) {
    words.truncate(words.len().saturating_sub(fewer));
}

/// Blocks of records, large ones first, with the room they need or without touching the room.
fn drop_records(best: &mut BatchCase, differs: &mut Differs) {
    let mut block = best.records().next_power_of_two();
    while block > 0 {
        let mut start = 0;
        while start < best.records() {
            let end = (start + block).min(best.records());
            let one = best.promises.len() + 2 * best.tasks.len();
            let drain = |case: &mut BatchCase| drop(case.steps.drain(RECORD_WORDS * start..RECORD_WORDS * end));
            let dropped = attempt(best, differs, |case| {
                drain(case);
                cut(&mut case.report, one * (end - start));
                cut(&mut case.answers, ANSWER_WORDS * (end - start));
            }) || attempt(best, differs, drain);
            if !dropped {
                start += block;
            }
        }
        block /= 2;
    }
}

/// Fewer tasks and promises, with the room that they needed.
fn shorten_tables(best: &mut BatchCase, differs: &mut Differs) {
    let records = best.records();
    for fewer in [128, 64, 32, 16, 8, 4, 2, 1] {
        while attempt(best, differs, |case| {
            cut(&mut case.tasks, fewer);
            cut(&mut case.report, 2 * fewer * records);
        }) {}
        while attempt(best, differs, |case| {
            cut(&mut case.promises, fewer);
            cut(&mut case.report, fewer * records);
        }) {}
    }
}

/// A shorter report, list and answers.
fn shorten_rest(best: &mut BatchCase, differs: &mut Differs) {
    let parts: [Part; 3] = [|case| &mut case.report, |case| &mut case.list, |case| &mut case.answers];
    for part in parts {
        for fewer in [65536, 8192, 1024, 128, 16, 4, 1] {
            while attempt(best, differs, |case| cut(part(case), fewer)) {}
        }
    }
}

fn clear_words(best: &mut BatchCase, differs: &mut Differs) {
    let parts: [Part; 6] = [
        |case| &mut case.report,
        |case| &mut case.answers,
        |case| &mut case.list,
        |case| &mut case.promises,
        |case| &mut case.tasks,
        |case| &mut case.steps,
    ];
    for part in parts {
        if attempt(best, differs, |case| part(case).fill(0)) {
            continue;
        }
        for place in 0..part(best).len().min(MOST_WORDS) {
            attempt(best, differs, |case| part(case)[place] = 0);
        }
    }
}

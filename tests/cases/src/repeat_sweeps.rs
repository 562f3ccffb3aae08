//! Sweeps of async lists that name a promise twice, or go on after every promise was named. Of each list it is known
//! from its making what is wrong with it, and where.

use crate::batch_sweeps::{self, batch};
use crate::sound::{owned_by, Words};
use crate::sweeps::{self, case, every_table};
use crate::trace_writer::TraceWriter;
use model::batch::ASYNC;
use model::{Answer, Model, Step, MOST_PROMISES};
use std::ops::ControlFlow;

/// A list, and what async answers to it.
type Listed = (Vec<u16>, Answer);

/// Task 0 owns every promise, and tasks 1 and 2 were never used.
fn owner_of_all(promises: usize) -> Words {
    let mut words = Words::fresh(3, promises);
    words.promises.fill(owned_by(0));
    words
}

/// So many entries of which the first 256 are all different, in no order; those after them go through all again.
fn mixed_up(length: usize) -> Vec<u16> {
    (0..length).map(|place| (place * 37 % MOST_PROMISES) as u16).collect()
}

/// The list with the entry of one place at a later one too: that place is refused, being the first repeated one.
fn repeated(length: usize, place: usize, again: usize) -> Listed {
    let mut list = mixed_up(length);
    list[again] = list[place];
    (list, Answer::RefusedAt(13, again))
}

/// Lists of up to 256 entries with one repeated: beside it, far from it, the first one and at the end.
fn repeats() -> Vec<Listed> {
    let mut lists = Vec::new();
    for length in [2, 3, 8, 16, 17, 64, 65, 255, 256] {
        for again in 1..length {
            lists.extend([repeated(length, again - 1, again), repeated(length, 0, again)]);
            lists.extend([repeated(length, again - 1, length - 1), repeated(length, again / 2, again)]);
        }
    }
    for length in 128..=256 {
        lists.push(repeated(length, length - 128, length - 1));
        lists.push(repeated(length, length - 100, length - 1));
    }
    lists
}

/// Every promise named, and then more: any of them again, or what is none of them. The first such entry is told.
fn after_all() -> Vec<Listed> {
    let every = mixed_up(MOST_PROMISES);
    let mut lists = vec![(every.clone(), Answer::Started)];
    let refused = |number, place| Answer::RefusedAt(number, place);
    for p in 0..MOST_PROMISES as u16 {
        lists.push(([&every[..], &[p]].concat(), refused(13, MOST_PROMISES)));
    }
    for (p, number) in [(256, 6), (257, 6), (511, 6), (512, 6), (65535, 6), (0, 13), (255, 13)] {
        lists.push(([&every[..], &[p]].concat(), refused(number, MOST_PROMISES)));
        lists.push(([&every[..], &[p, 256, 0]].concat(), refused(number, MOST_PROMISES)));
        lists.push(([&every[..], &[p, 0, 256]].concat(), refused(number, MOST_PROMISES)));
        lists.push(([&every[1..], &[p]].concat(), if p == every[0] { Answer::Started } else { refused(number, 255) }));
        lists.push(([&every[..], &vec![p; 300]].concat(), refused(number, MOST_PROMISES)));
    }
    for length in [258, 300, 512, 513, 1000] {
        lists.push((mixed_up(length), refused(13, MOST_PROMISES)));
    }
    lists
}

/// Every list, on tables in which task 0 owns all promises; then every list of up to six entries for three promises.
pub fn sweep_repeats(visit: &mut sweeps::Visit) -> ControlFlow<()> {
    let words = owner_of_all(MOST_PROMISES);
    for listed in repeats().into_iter().chain(after_all()) {
        one_list(visit, &words, listed)?;
    }
    let words = owner_of_all(3);
    for length in 0..=6 {
        for list in every_table(length, &[0, 1, 2, 3]) {
            let answer = first_bad(&list);
            one_list(visit, &words, (list, answer))?;
        }
    }
    ControlFlow::Continue(())
}

/// What is wrong first with a list for three promises.
fn first_bad(list: &[u16]) -> Answer {
    let mut named = [false; 3];
    for (place, &p) in list.iter().enumerate() {
        match named.get_mut(usize::from(p)) {
            None => return Answer::RefusedAt(6, place),
            Some(true) => return Answer::RefusedAt(13, place),
            Some(named) => *named = true,
        }
    }
    Answer::Started
}

fn one_list(visit: &mut sweeps::Visit, words: &Words, (list, answer): Listed) -> ControlFlow<()> {
    let step = Step::Async { t: 0, c: 1, list };
    let (mut tasks, mut promises) = (words.tasks.clone(), words.promises.clone());
    let mut report = vec![0; promises.len() + 2 * tasks.len()];
    let found = Model::PAPER.step(&step, &mut tasks, &mut promises, &mut report);
    assert_eq!(found, answer, "the model answers otherwise to {step:?}");
    visit("repeats in a list", case(words, step))
}

/// Some of the lists in a batch, twice, as parts that start behind other entries.
pub fn repeats_in_parts(visit: &mut batch_sweeps::Visit) -> ControlFlow<()> {
    let words = owner_of_all(MOST_PROMISES);
    for (list, _) in repeats().into_iter().step_by(17).chain(after_all().into_iter().step_by(5)) {
        let length = list.len() as u16;
        let records = [[ASYNC, 0, 1, 7, length], [ASYNC, 0, 2, 7, length]];
        let whole = [&[1; 7], &list[..], &[1; 3]].concat();
        visit("repeats in a part", batch(&words, &records, &whole))?;
    }
    ControlFlow::Continue(())
}

/// A trace of some of the lists; then every promise is handed on from task to task.
pub fn repeat_trace() -> Vec<u8> {
    let mut trace = TraceWriter::opened(64, MOST_PROMISES);
    for p in 0..MOST_PROMISES as u16 {
        trace.step(&Step::New { t: 0, p });
    }
    let listed = repeats().into_iter().step_by(101).chain(after_all().into_iter().step_by(13));
    for (list, _) in listed.filter(|(_, answer)| answer.is_refused()) {
        trace.step(&Step::Async { t: 0, c: 1, list });
    }
    for t in 0..20 {
        trace.step(&Step::Async { t, c: t + 1, list: mixed_up(MOST_PROMISES) });
    }
    trace.bytes
}

//! Damage of every kind, done to sound tables.

use crate::random::Random;
use crate::sound::{blamed_on, chain, owned_by, waits_on, Words, ENDED, NEVER_MADE, NEVER_USED, SET};

/// Damages the tables in one way, or in a way that may come out sound after all.
pub fn damage(r: &mut Random, words: &mut Words) {
    let (tasks, promises) = (words.tasks.len(), words.promises.len());
    if promises == 0 {
        let t = r.below(tasks);
        words.tasks[t] = bad_task_word(r, promises);
        return;
    }
    let (t, p) = (r.below(tasks), r.below(promises));
    match r.below(8) {
        0 => words.tasks[t] = bad_task_word(r, promises),
        1 => words.promises[p] = bad_promise_word(r, tasks),
        2 => {
            // An owner that is not live.
            words.tasks[t] = r.pick(&[NEVER_USED, ENDED]);
            words.promises[p] = owned_by(t);
        }
        3 => {
            // An awaited promise that is not owned.
            words.tasks[t] = waits_on(p);
            words.promises[p] = r.pick(&[NEVER_MADE, SET, blamed_on(r.clone().below(tasks))]);
        }
        4 => words.promises[p] = blamed_on(t),
        5 => words.promises[p] = owned_by(t),
        6 => words.tasks[t] = waits_on(p),
        _ => words.tasks[t] = r.pick(&[NEVER_USED, ENDED, r.clone().word()]),
    }
}

/// Mostly a task word without a meaning; the edges beside it have one.
fn bad_task_word(r: &mut Random, promises: usize) -> u16 {
    match r.below(4) {
        0 => 2 + r.below(15) as u16,
        1 => waits_on(promises) + r.below(4) as u16 - 1,
        2 => waits_on(promises) + r.below(65536 - 16 - promises) as u16,
        _ => r.word(),
    }
}

/// Mostly a promise word without a meaning; the edges beside it have one.
fn bad_promise_word(r: &mut Random, tasks: usize) -> u16 {
    match r.below(5) {
        0 => 2 + r.below(15) as u16,
        1 => owned_by(tasks) + r.below(3) as u16 - 1,
        2 => blamed_on(tasks) + r.below(3) as u16 - 1,
        3 => blamed_on(tasks) + r.below(65536 - 80 - tasks) as u16,
        _ => r.word(),
    }
}

/// Tables with a ring of `length` tasks, and maybe others waiting on it.
pub fn ring(r: &mut Random, tasks: usize, promises: usize, length: usize) -> Words {
    let chain = chain(r, tasks, promises, length);
    let mut words = chain.words;
    words.tasks[chain.links[length - 1]] = waits_on(chain.promises[0]);
    words
}

//! Sweeps of one bad word at every place of either table, in tables of many lengths.

use crate::sound::{blamed_on, owned_by, waits_on, Words, ENDED, READY, SET};
use crate::sweeps::{case, Visit};
use model::{Model, Step, MOST_PROMISES, MOST_TASKS};
use std::ops::ControlFlow;

/// Sound tables in which task 0 is ready, task 1, if there, has ended and task 2 was never used; the others are ready
/// or wait on task 0's promises. Promises are task 0's, set and blamed on task 1, in turn.
fn sound_tables(tasks: usize, promises: usize) -> Words {
    let task = |t: usize| match t {
        1 => ENDED,
        2 => 0,
        _ if t > 0 && t % 4 == 0 && promises > 0 => waits_on(0),
        _ => READY,
    };
    let promise = |p: usize| match p % 3 {
        0 => owned_by(0),
        2 if tasks > 1 => blamed_on(1),
        _ => SET,
    };
    Words { tasks: (0..tasks).map(task).collect(), promises: (0..promises).map(promise).collect() }
}

/// Words that no promise may have in tables of so many tasks.
fn bad_promise_words(tasks: usize) -> Vec<u16> {
    let mut words = vec![2, 15, owned_by(tasks), blamed_on(0), blamed_on(tasks), 256, 256 + SET, 65535];
    if tasks < MOST_TASKS {
        words.push(blamed_on(0) - 1);
    }
    if tasks > 2 {
        words.extend([owned_by(1), owned_by(2), blamed_on(2)]);
    }
    words
}

/// Words that no task may have in tables of so many promises.
fn bad_task_words(promises: usize) -> Vec<u16> {
    let mut words = vec![3, 15, waits_on(promises), waits_on(promises) + 1, 65535];
    if waits_on(promises) <= 256 + READY {
        words.push(256 + READY);
    }
    if promises > 1 {
        words.push(waits_on(1));
    }
    words
}

/// One bad word at every place of short tables of every length, and of the longest.
pub fn sweep_places(visit: &mut Visit) -> ControlFlow<()> {
    let sizes = (1..=40).map(|length| (3, length)).chain((1..=40).map(|length| (length, 3)));
    for (tasks, promises) in sizes.chain([(MOST_TASKS, 0), (MOST_TASKS, MOST_PROMISES)]) {
        let good = sound_tables(tasks, promises);
        tables(visit, &good, true)?;
        for p in 0..promises {
            for word in bad_promise_words(tasks) {
                let mut words = good.clone();
                words.promises[p] = word;
                tables(visit, &words, false)?;
            }
        }
        for t in 0..tasks {
            for word in bad_task_words(promises) {
                let mut words = good.clone();
                words.tasks[t] = word;
                tables(visit, &words, false)?;
            }
        }
    }
    ControlFlow::Continue(())
}

fn tables(visit: &mut Visit, words: &Words, sound: bool) -> ControlFlow<()> {
    let found = Model::PAPER.is_sound(&words.tasks, &words.promises);
    assert_eq!(found, sound, "the model takes these tables for something else: {words:?}");
    visit("bad word at every place", case(words, Step::Get { t: 0, p: 0 }))
}

//! Sweeps of batches over the parts of their list.

use crate::batch_sweeps::{batch, Record, Visit};
use crate::sound::{owned_by, waits_on, Words, ENDED, READY};
use model::batch::{ASYNC, END, GET, NEW};
use std::ops::ControlFlow;

/// Tables in which task 0 owns promises 0 to 4, 1 was never used, 2 has ended, 3 waits, 4 was never used.
fn part_tables() -> Words {
    let mut words = Words::fresh(5, 7);
    words.tasks = vec![READY, 0, ENDED, waits_on(0), 0];
    words.promises[..5].fill(owned_by(0));
    words.promises[6] = owned_by(3);
    words
}

/// Starts and lengths at and around this length of a list, and at the edges of 16 bits.
fn around(list: usize) -> Vec<u16> {
    let near = 0..=list as u16 + 2;
    let far = [65536 - list - 1, 65536 - list, 65535].into_iter().filter(|&n| n <= 65535).map(|n| n as u16);
    near.chain(far).collect()
}

/// The record between one that reports a ring and one that ends the task.
fn between(record: Record) -> [Record; 4] {
    [[GET, 0, 0, 0, 0], record, [NEW, 0, 5, 0, 0], [END, 0, 0, 0, 0]]
}

/// Every start and length around a short list, with every kind of record, acting task and child.
pub fn parts(visit: &mut Visit) -> ControlFlow<()> {
    let words = part_tables();
    for length in 0..=5usize {
        let lists = [vec![4, 3, 2, 1, 0], vec![0, 0, 9, 6, 5]];
        for list in lists.iter().map(|list| &list[..length]) {
            for start in around(length) {
                for count in around(length) {
                    one_part(visit, &words, list, start, count)?;
                }
            }
        }
    }
    ControlFlow::Continue(())
}

fn one_part(visit: &mut Visit, words: &Words, list: &[u16], start: u16, length: u16) -> ControlFlow<()> {
    for kind in (0..=END).filter(|&kind| kind != ASYNC) {
        visit("parts of other kinds", batch(words, &between([kind, 0, 1, start, length]), list))?;
    }
    for t in [0, 1, 2, 3, 5, 65535] {
        for c in [1, 2, 5] {
            let records = between([ASYNC, t, c, start, length]);
            visit("parts", batch(words, &records, list))?;
        }
    }
    let first = [ASYNC, 0, 1, start, length];
    let second = [ASYNC, 0, 4, 0, list.len() as u16];
    visit("two parts", batch(words, &[first, second], list))?;
    visit("two parts", batch(words, &[second, first], list))
}

/// Lists about as long as 16 bits can count, and longer, with parts at their edges.
pub fn long_lists(visit: &mut Visit) -> ControlFlow<()> {
    let mut words = Words::fresh(3, 256);
    words.promises.fill(owned_by(0));
    for length in [255, 256, 257, 65533, 65534, 65535, 65536, 65537, 65540, 70000, 131069, 131070, 131071] {
        let list: Vec<u16> = (0..length).map(|place: usize| (place % 256) as u16).collect();
        for start in [0, 1, 254, 255, 256, 257, 65279, 65280, 65533, 65534, 65535] {
            for count in [0, 1, 2, 3, 5, 255, 256, 257, 65534, 65535] {
                let records = [[ASYNC, 0, 1, start, count], [ASYNC, 0, 2, 3, 2]];
                visit("long lists", batch(&words, &records, &list))?;
            }
        }
    }
    ControlFlow::Continue(())
}

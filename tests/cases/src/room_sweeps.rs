//! Sweeps of batches over T, P, the number of records and the room lent for them.

use crate::batch_sweeps::{batch, roomy, Record, Visit};
use crate::random::Random;
use crate::sound::{chain, Words};
use model::batch::{END, GET, NEW};
use std::ops::ControlFlow;

/// T and P at and around their bounds, with no, one and two records.
pub fn sizes(visit: &mut Visit) -> ControlFlow<()> {
    for tasks in [0, 1, 2, 63, 64, 65, 66, 128] {
        for promises in [0, 1, 2, 255, 256, 257, 258, 512] {
            let fresh = Words::fresh(tasks, promises);
            let mut damaged = fresh.clone();
            damaged.promises[..promises.min(1)].fill(3);
            let last = promises.saturating_sub(1) as u16;
            let records = [[NEW, 0, last, 0, 0], [GET, 0, last, 0, 0]];
            for count in 0..=2 {
                for words in [&fresh, &damaged] {
                    visit("sizes", batch(words, &records[..count], &[]))?;
                }
            }
        }
    }
    ControlFlow::Continue(())
}

/// Reports and answers just long enough, shorter and longer, for sound tables and damaged ones.
pub fn rooms(visit: &mut Visit) -> ControlFlow<()> {
    for (tasks, promises) in [(1, 0), (1, 1), (2, 3), (3, 5)] {
        let one = (promises + 2 * tasks) as isize;
        let fresh = Words::fresh(tasks, promises);
        let mut damaged = fresh.clone();
        damaged.tasks[tasks - 1] = 3;
        for count in [0, 1, 2, 3, 7, 254, 255, 256, 257, 258] {
            let records: Vec<Record> = (0..count).map(|i| [i % 3, 0, i % 5, 0, 0]).collect();
            for words in [&fresh, &damaged] {
                for report in [-one, -2, -1, 0, 1, 9] {
                    visit("report room", roomy(words, &records, &[], report, 1))?;
                }
                for answers in [-3 * count as isize, -4, -1, 0, 1, 9] {
                    visit("answers room", roomy(words, &records, &[], 1, answers))?;
                }
                visit("both short", roomy(words, &records, &[], -1, -1))?;
            }
        }
    }
    ControlFlow::Continue(())
}

/// Every T and P around their bounds, with room to the word and with one word too few.
pub fn every_size(visit: &mut Visit) -> ControlFlow<()> {
    for tasks in 0..=66 {
        for promises in 0..=259 {
            let words = Words::fresh(tasks, promises);
            let p = (promises / 2) as u16;
            let records = [[NEW, 0, p, 0, 0], [GET, 0, p, 0, 0]];
            visit("every size", roomy(&words, &records, &[], 0, 0))?;
            visit("every size", roomy(&words, &records, &[], -1, 0))?;
        }
    }
    ControlFlow::Continue(())
}

/// Every number of records up to more than there may be, with room to the word and with one word too few.
pub fn every_count(visit: &mut Visit) -> ControlFlow<()> {
    for (tasks, promises) in [(1, 0), (1, 1), (2, 3)] {
        let words = Words::fresh(tasks, promises);
        let records: Vec<Record> = (0..260).map(|i| [i % 3, 0, i / 3 % 3, 0, 0]).collect();
        for count in 0..=260 {
            for (report, answers) in [(0, 0), (-1, 0), (0, -1), (1, 1)] {
                visit("every count", roomy(&words, &records[..count], &[], report, answers))?;
            }
        }
    }
    ControlFlow::Continue(())
}

/// Full batches over the largest tables: room to the word, room that 16 bits can't count, and much to report.
pub fn full_batches(visit: &mut Visit) -> ControlFlow<()> {
    for (tasks, promises) in [(64, 256), (64, 128), (63, 255)] {
        let words = Words::fresh(tasks, promises);
        let one = promises + 2 * tasks;
        for count in [170, 171, 172, 255, 256, 257] {
            let records: Vec<Record> = (0..count as u16).map(|i| [i / 128, 0, i % 128, 0, 0]).collect();
            let rolled = (count * one) % 65536;
            for report in [-(one as isize), -1, 0, 1, rolled as isize - (count * one) as isize] {
                visit("full room", roomy(&words, &records, &[], report, 0))?;
            }
            visit("full answers", roomy(&words, &records, &[], 0, -1))?;
        }
    }
    let mut r = Random::new(5);
    for length in [1, 2, 3, 63, 64] {
        let chain = chain(&mut r, 64, 256, length);
        let alarm = [GET, chain.links[length - 1] as u16, chain.promises[0] as u16, 0, 0];
        visit("256 alarms", roomy(&chain.words, &[alarm; 256], &[], 1, 1))?;
        let mut records = vec![alarm; 100];
        records.extend(chain.links.iter().rev().map(|&t| [END, t as u16, 0, 0, 0]));
        visit("a chain taken apart", roomy(&chain.words, &records, &[], 1, 1))?;
    }
    ControlFlow::Continue(())
}

/// So many records that 16 bits can't count them, with room for all.
pub fn too_many_records(visit: &mut Visit) -> ControlFlow<()> {
    let words = Words::fresh(1, 0);
    for count in [300, 512, 13_107, 13_108, 65_536, 65_537, 65_792] {
        visit("too many records", batch(&words, &vec![[END, 0, 0, 0, 0]; count], &[]))?;
    }
    ControlFlow::Continue(())
}

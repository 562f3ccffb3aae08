//! Sweeps of batches: cases that go through every edge of a call, and pairs of steps, in order.

use crate::batch_case::BatchCase;
use crate::blamed_sweeps;
use crate::chain_sweeps::sweep_chains;
use crate::part_sweeps;
use crate::repeat_sweeps;
use crate::room_sweeps;
use crate::sound::{blamed_on, owned_by, waits_on, Words, ENDED, READY, SET};
use crate::sweeps::worth_a_look;
use model::batch::{ANSWER_WORDS, ASYNC, END, GET, NEW, RECORD_WORDS, SET as PUT};
use model::Model;
use std::ops::ControlFlow;

/// Takes each batch with the name of its sweep, until it breaks off.
pub type Visit<'a> = dyn FnMut(&'static str, BatchCase) -> ControlFlow<()> + 'a;

/// The words of one record.
pub type Record = [u16; RECORD_WORDS];

/// Every sweep.
pub fn sweep_batches(visit: &mut Visit) -> ControlFlow<()> {
    sweep_short_batches(visit)?;
    blamed_sweeps::mixed_batches(visit)?;
    blamed_sweeps::places_in_parts(visit)?;
    room_sweeps::too_many_records(visit)?;
    room_sweeps::full_batches(visit)?;
    part_sweeps::parts(visit)?;
    repeat_sweeps::repeats_in_parts(visit)?;
    chains(visit)?;
    every_kind(visit)?;
    every_number(visit)?;
    tiny_pairs(visit)?;
    room_sweeps::every_size(visit)?;
    room_sweeps::every_count(visit)
}

/// The first sweeps, short enough for a slow checker.
pub fn sweep_short_batches(visit: &mut Visit) -> ControlFlow<()> {
    lengths(visit)?;
    room_sweeps::sizes(visit)?;
    room_sweeps::rooms(visit)?;
    damages(visit)?;
    pairs(visit)?;
    blamed_sweeps::blamed_within(visit)?;
    part_sweeps::long_lists(visit)
}

/// Some of the tables of chains and rings, lent to a batch of two steps.
fn chains(visit: &mut Visit) -> ControlFlow<()> {
    let mut number = 0;
    sweep_chains(&mut |_, case| {
        number += 1;
        if number % 11 > 0 {
            return ControlFlow::Continue(());
        }
        let words = Words { tasks: case.lent.tasks, promises: case.lent.promises };
        let records = [[GET, 0, 0, 0, 0], [GET, words.tasks.len() as u16 / 2, 1, 0, 0]];
        visit("chains and rings", batch(&words, &records, &[]))
    })
}

/// Words that stand for any: no two neighbours are equal, and none is 0.
fn marked(length: usize, from: usize) -> Vec<u16> {
    (0..length).map(|place| (from + 7 * (place % 1000)) as u16).collect()
}

/// A batch with this much room, in words past what its records need or, if negative, short of it.
pub fn roomy(words: &Words, records: &[Record], list: &[u16], report: isize, answers: isize) -> BatchCase {
    let one = words.promises.len() + 2 * words.tasks.len();
    let room = |needed: usize, more: isize| needed.saturating_add_signed(more);
    BatchCase {
        report: marked(room(records.len() * one, report), 40000),
        answers: marked(room(records.len() * ANSWER_WORDS, answers), 50000),
        tasks: words.tasks.clone(),
        promises: words.promises.clone(),
        steps: records.concat(),
        list: list.to_vec(),
    }
}

/// A batch with room for three report words and five answer words more than it needs.
pub fn batch(words: &Words, records: &[Record], list: &[u16]) -> BatchCase {
    roomy(words, records, list, 3, 5)
}

/// Tables in which every kind of step finds something to do: tasks 0 and 1 are ready, 2, 3 and 6 wait,
/// 4 has ended, 5 was never used.
fn rich_tables() -> Words {
    Words {
        tasks: vec![READY, READY, waits_on(1), waits_on(2), ENDED, 0, waits_on(1)],
        promises: vec![owned_by(0), owned_by(1), owned_by(2), SET, blamed_on(4), 0, owned_by(3), owned_by(0)],
    }
}

/// Records that get every answer and every refusal of a step from the rich tables and this list.
const RICH_LIST: [u16; 8] = [0, 7, 0, 1, 5, 3, 7, 4];
const RICH: [Record; 36] = [
    [NEW, 0, 5, 0, 0],
    [NEW, 1, 5, 9, 9],
    [NEW, 0, 8, 0, 0],
    [NEW, 0, 3, 0, 0],
    [NEW, 7, 5, 0, 0],
    [NEW, 5, 5, 0, 0],
    [NEW, 2, 5, 0, 0],
    [PUT, 0, 0, 0, 0],
    [PUT, 1, 1, 0, 7],
    [PUT, 2, 2, 0, 0],
    [PUT, 0, 1, 0, 0],
    [PUT, 0, 3, 0, 0],
    [PUT, 0, 4, 0, 0],
    [PUT, 1, 4, 0, 0],
    [PUT, 0, 5, 0, 0],
    [GET, 0, 0, 0, 0],
    [GET, 0, 6, 0, 0],
    [GET, 1, 6, 7, 0],
    [GET, 1, 0, 0, 0],
    [GET, 0, 3, 0, 0],
    [GET, 0, 4, 0, 0],
    [GET, 4, 4, 0, 0],
    [ASYNC, 0, 5, 0, 2],
    [ASYNC, 0, 5, 0, 3],
    [ASYNC, 0, 5, 8, 0],
    [ASYNC, 0, 4, 0, 1],
    [ASYNC, 0, 7, 0, 1],
    [ASYNC, 0, 5, 2, 4],
    [ASYNC, 0, 5, 5, 1],
    [ASYNC, 0, 5, 6, 2],
    [ASYNC, 1, 5, 7, 1],
    [ASYNC, 2, 5, 7, 1],
    [ASYNC, 0, 5, 1, 8],
    [ASYNC, 2, 5, 9, 0],
    [END, 0, 9, 0, 0],
    [END, 1, 0, 65535, 65535],
];

/// Every pair of rich records, and each record between others that report.
fn pairs(visit: &mut Visit) -> ControlFlow<()> {
    let words = rich_tables();
    for first in RICH {
        let alarm = [GET, 1, 6, 0, 0];
        let wake = [PUT, 1, 1, 0, 0];
        visit("between reports", batch(&words, &[alarm, first, alarm, first, wake, first, alarm], &RICH_LIST))?;
        for second in RICH {
            visit("pairs", batch(&words, &[first, second], &RICH_LIST))?;
            visit("threes", batch(&words, &[first, second, first], &RICH_LIST))?;
        }
    }
    ControlFlow::Continue(())
}

/// Every length of the steps up to a few records.
fn lengths(visit: &mut Visit) -> ControlFlow<()> {
    let words = rich_tables();
    let all: Vec<u16> = RICH.concat();
    for length in 0..=26 {
        for more in [0, 1, 200] {
            let mut case = roomy(&words, &RICH[..length / RECORD_WORDS], &RICH_LIST, more, more);
            case.steps = all[..length].to_vec();
            visit("lengths", case)?;
        }
    }
    ControlFlow::Continue(())
}

/// Every word at an edge in every place of rich tables, with no record and with two.
fn damages(visit: &mut Visit) -> ControlFlow<()> {
    let rich = rich_tables();
    let edges = [0, 1, 2, 3, 15, 16, 17, 18, 21, 22, 23, 24, 25, 79, 80, 84, 85, 86, 87, 255, 32768, 65535];
    for word in edges {
        for place in 0..rich.tasks.len() + rich.promises.len() {
            let mut words = rich.clone();
            match words.tasks.len() {
                tasks if place < tasks => words.tasks[place] = word,
                tasks => words.promises[place - tasks] = word,
            }
            visit("damage", batch(&words, &[], &[]))?;
            visit("damage", batch(&words, &[[GET, 0, 3, 0, 0], [END, 1, 0, 0, 0]], &[]))?;
            visit("damage and no room", roomy(&words, &[[GET, 0, 3, 0, 0]], &[], -1, 0))?;
        }
    }
    ControlFlow::Continue(())
}

/// Every pair of records with numbers at most one past the tables, on all sound tables of two tasks and a promise.
fn tiny_pairs(visit: &mut Visit) -> ControlFlow<()> {
    let mut records: Vec<Record> = Vec::new();
    for t in 0..=2 {
        records.push([END, t, 0, 0, 0]);
        for p in 0..=1 {
            records.extend([[NEW, t, p, 0, 0], [PUT, t, p, 0, 0], [GET, t, p, 0, 0]]);
            records.extend([[ASYNC, t, p, 0, 1], [ASYNC, t, p, 1, 0], [ASYNC, t, p, 0, 2]]);
        }
    }
    for first in [0, READY, ENDED, waits_on(0)] {
        for second in [0, READY, ENDED, waits_on(0)] {
            for promise in [0, SET, owned_by(0), owned_by(1), blamed_on(0), blamed_on(1)] {
                let words = Words { tasks: vec![first, second], promises: vec![promise] };
                if Model::PAPER.is_sound(&words.tasks, &words.promises) {
                    every_pair(visit, &words, &records)?;
                }
            }
        }
    }
    ControlFlow::Continue(())
}

fn every_pair(visit: &mut Visit, words: &Words, records: &[Record]) -> ControlFlow<()> {
    for &first in records {
        for &second in records {
            visit("tiny pairs", batch(words, &[first, second], &[0]))?;
        }
    }
    ControlFlow::Continue(())
}

/// Every kind word, in the first record and after a record that was carried out.
fn every_kind(visit: &mut Visit) -> ControlFlow<()> {
    let words = Words { tasks: vec![READY, 0], promises: vec![0, owned_by(0)] };
    for kind in 0..=u16::MAX {
        visit("every kind", batch(&words, &[[kind, 0, 1, 0, 0]], &[]))?;
        if kind % 16 < 8 {
            visit("every kind", batch(&words, &[[NEW, 0, 0, 0, 0], [kind, 0, 1, 0, 0]], &[]))?;
        }
    }
    ControlFlow::Continue(())
}

/// Numbers of every size in every place of a record, those included that its kind does not look at.
fn every_number(visit: &mut Visit) -> ControlFlow<()> {
    let words = rich_tables();
    for n in (0..=u16::MAX).filter(|&n| worth_a_look(n)) {
        let promises = [[GET, 0, n, 0, 0], [PUT, 1, n, 0, 0], [NEW, 0, n, 0, 0], [ASYNC, 0, 5, 8, 1]];
        let tasks = [[GET, n, 3, 0, 0], [END, n, 0, 0, 0], [ASYNC, n, 5, 0, 1], [ASYNC, 0, n, 3, 0]];
        let parts = [[ASYNC, 0, 4, n, 0], [ASYNC, 0, 4, n, 1], [ASYNC, 0, 4, 0, n], [ASYNC, 0, 4, 2, n]];
        let unused = [[NEW, 0, 5, n, 0], [GET, 1, 5, 0, n], [PUT, 0, 5, n, n], [END, 1, n, n, n]];
        let mut list = RICH_LIST;
        list[5] = n;
        for records in [promises, tasks, parts, unused] {
            visit("every number", batch(&words, &records, &list[..]))?;
        }
        visit("every entry", batch(&words, &[[ASYNC, 0, 5, 5, 1], [END, 0, 0, 0, 0]], &list))?;
    }
    ControlFlow::Continue(())
}

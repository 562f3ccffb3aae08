//! Sweeps over blamed promises: every blamed task, every place of a list and every mixture of entries.

use crate::batch_sweeps::{self, batch, Record};
use crate::sound::{blamed_on, owned_by, waits_on, Words, ENDED, READY, SET};
use crate::sweeps::{self, case};
use crate::trace_writer::TraceWriter;
use model::batch::{ASYNC, END, GET, NEW, SET as PUT};
use model::{Step, MOST_PROMISES, MOST_TASKS};
use std::ops::ControlFlow;

/// Tables in which task 0 owns promises 0, 1 and 8, task 1 owns 2; 3 is set, 4 is blamed on task 2, 5 and 6 on
/// task 4, 7 was never made; task 3 waits and 5 was never used.
fn mixed_tables() -> Words {
    Words {
        tasks: vec![READY, READY, ENDED, waits_on(8), ENDED, 0],
        promises: vec![
            owned_by(0),
            owned_by(0),
            owned_by(1),
            SET,
            blamed_on(2),
            blamed_on(4),
            blamed_on(4),
            0,
            owned_by(0),
        ],
    }
}

/// The entries for those tables, each kind at least once; the last is past the tables.
const ENTRIES: [u16; 9] = [0, 1, 2, 3, 4, 5, 6, 7, 9];

/// Every list of at most three of the entries.
fn mixed_lists() -> Vec<Vec<u16>> {
    (0..=3).flat_map(|length| sweeps::every_table(length, &ENTRIES)).collect()
}

/// The acting task beside the blamed one, and a child for it.
fn beside(b: u16, tasks: u16) -> (u16, u16) {
    ((b + 1) % tasks, (b + 2) % tasks)
}

/// Every list of mixed entries by every kind of task, and every promise set by it.
pub fn mixed_steps(visit: &mut sweeps::Visit) -> ControlFlow<()> {
    let words = mixed_tables();
    for t in 0..=6 {
        for p in 0..=9 {
            for step in [Step::Set { t, p }, Step::Get { t, p }, Step::New { t, p }] {
                visit("blamed among others", case(&words, step))?;
            }
        }
        for list in mixed_lists() {
            visit("blamed in lists", case(&words, Step::Async { t, c: 5, list }))?;
        }
    }
    for list in mixed_lists() {
        for c in [2, 3, 6] {
            visit("blamed and bad child", case(&words, Step::Async { t: 0, c, list: list.clone() }))?;
        }
    }
    ControlFlow::Continue(())
}

/// Every pair of a blamed task and another one, in the largest tables and in ones just large enough.
pub fn every_blamed(visit: &mut sweeps::Visit) -> ControlFlow<()> {
    for b in 0..MOST_TASKS {
        for t in (0..MOST_TASKS).filter(|&t| t != b) {
            for tasks in [b.max(t) + 1, MOST_TASKS] {
                let mut words = Words { tasks: vec![0; tasks], promises: vec![0, owned_by(t), SET, blamed_on(b), 0] };
                words.tasks[t] = READY;
                words.tasks[b] = ENDED;
                let unused = (0..tasks).find(|&c| words.tasks[c] == 0);
                let (t, c) = (t as u16, unused.unwrap_or(tasks) as u16);
                visit("every blamed task", case(&words, Step::Set { t, p: 3 }))?;
                visit("every blamed task", case(&words, Step::Async { t, c, list: vec![3, 1] }))?;
                visit("every blamed task", case(&words, Step::Async { t, c, list: vec![1, 3] }))?;
            }
        }
    }
    ControlFlow::Continue(())
}

/// Promises of one task but for these, which are blamed on the task told with each.
fn all_but(t: u16, blamed: &[(usize, usize)]) -> Words {
    let mut words = Words { tasks: vec![0; MOST_TASKS], promises: vec![owned_by(t as usize); MOST_PROMISES] };
    words.tasks[t as usize] = READY;
    for &(p, b) in blamed {
        words.promises[p] = blamed_on(b);
        words.tasks[b] = ENDED;
    }
    words
}

/// A blamed entry at every place of the longest list, alone and with another one behind it.
pub fn every_place(visit: &mut sweeps::Visit) -> ControlFlow<()> {
    for b in [0, 1, 31, 32, 62, 63] {
        let (t, c) = beside(b, 64);
        let other = (b + 3) % 64;
        let words = all_but(t, &[(255, b as usize), (0, other as usize)]);
        for place in 0..255 {
            let mut list: Vec<u16> = (1..255).collect();
            list.insert(place, 255);
            visit("blamed at every place", case(&words, Step::Async { t, c, list: list.clone() }))?;
            list.insert((place + 1).max(200), 0);
            visit("two blamed entries", case(&words, Step::Async { t, c, list }))?;
        }
        let alone = all_but(t, &[(255, b as usize)]);
        visit("blamed at the last place", case(&alone, Step::Async { t, c, list: (0..=255).collect() }))?;
    }
    ControlFlow::Continue(())
}

/// Every list of mixed entries as the list of a batch, with every part of it, between steps that report.
pub fn mixed_batches(visit: &mut batch_sweeps::Visit) -> ControlFlow<()> {
    let words = mixed_tables();
    let alarm: Record = [GET, 0, 0, 0, 0];
    for list in mixed_lists() {
        let length = list.len() as u16;
        let mut records = vec![alarm];
        for start in 0..=length {
            for count in 1..=length - start + 1 {
                records.extend([[ASYNC, 1, 5, start, count], [ASYNC, 0, 5, start, count], alarm]);
            }
        }
        visit("blamed in parts", batch(&words, &records, &list))?;
        records.reverse();
        visit("blamed in parts", batch(&words, &records, &list))?;
    }
    for p in 0..=9 {
        let records = [alarm, [PUT, 1, p, 0, 0], alarm, [PUT, 0, p, 9, 9], [GET, 1, p, 0, 0], [NEW, 0, p, 0, 0], alarm];
        visit("blamed in a batch", batch(&words, &records, &[]))?;
    }
    ControlFlow::Continue(())
}

/// A promise that is blamed within the call, on every task, and tried before and after.
pub fn blamed_within(visit: &mut batch_sweeps::Visit) -> ControlFlow<()> {
    for tasks in [3, 4, 63, 64] {
        for b in 0..tasks {
            let (t, c) = beside(b, tasks);
            let mut words = Words::fresh(tasks as usize, 4);
            words.tasks.fill(0);
            words.tasks[b as usize] = READY;
            words.tasks[t as usize] = READY;
            words.promises =
                vec![owned_by(t as usize), owned_by(b as usize), owned_by(t as usize), owned_by(b as usize)];
            let tries = [[PUT, t, 1, 0, 0], [ASYNC, t, c, 1, 3], [ASYNC, t, c, 3, 1], [ASYNC, t, c, 2, 2]];
            let mut records = tries.to_vec();
            records.push([END, b, 0, 0, 0]);
            records.extend(tries);
            records.extend([[PUT, t, 3, 0, 0], [PUT, t, 0, 0, 0], [PUT, t, 0, 0, 0], [PUT, b, 1, 0, 0]]);
            records.extend(tries);
            records.extend([[GET, t, 2, 0, 0], [END, t, 0, 0, 0], [PUT, t, 2, 0, 0]]);
            visit("blamed within the call", batch(&words, &records, &[9, 0, 2, 3, 1]))?;
        }
    }
    ControlFlow::Continue(())
}

/// A blamed entry at every place of a part, the part starting at every place of the list.
pub fn places_in_parts(visit: &mut batch_sweeps::Visit) -> ControlFlow<()> {
    for b in [0, 5, 63] {
        let (t, c) = beside(b, 64);
        let words = all_but(t, &[(255, b as usize)]);
        let list: Vec<u16> = (0..256).chain(0..256).collect();
        for start in 0..=255 {
            let records = [[ASYNC, t, c, start, 256], [ASYNC, t, c, start, 256 - start], [GET, t, 255, 0, 0]];
            visit("blamed at every place", batch(&words, &records, &list))?;
        }
    }
    ControlFlow::Continue(())
}

/// Traces in which promises are blamed on every task, at every place and among entries of every kind.
pub fn blamed_traces() -> Vec<(&'static str, Vec<u8>)> {
    let mut traces = vec![("blamed in lists", mixed_trace()), ("blamed at every place", places_trace())];
    traces.extend((0..64).map(|b| ("every blamed task", blamed_trace(b))));
    traces
}

/// The mixed tables made by steps, then every list of mixed entries, and every promise set.
fn mixed_trace() -> Vec<u8> {
    let mut trace = TraceWriter::opened(6, 9);
    for line in ["new 0 0", "new 0 1", "new 0 2", "new 0 3", "new 0 4", "new 0 5", "new 0 6", "new 0 8"] {
        trace.blanks(line);
    }
    for line in ["async 0 1 2", "async 0 2 4", "async 0 3", "async 0 4 6 5", "get 3 8", "set 0 3", "end 4", "end 2"] {
        trace.blanks(line);
    }
    for t in 0..=6 {
        for p in 0..=9 {
            for word in if t < 2 && p < 3 { &["get"][..0] } else { &["set", "get"] } {
                trace.blanks(&format!("{word} {t} {p}"));
            }
        }
    }
    for list in mixed_lists() {
        // Neither task 0 nor task 1 starts the child, so that every list is tried.
        for (t, own) in [(0, 0..2), (1, 2..3), (3, 0..0)] {
            if list.iter().any(|p| !own.contains(p)) {
                trace.step(&Step::Async { t, c: 5, list: list.clone() });
            }
        }
    }
    trace.bytes
}

/// A blamed entry at every place of the longest list.
fn places_trace() -> Vec<u8> {
    let mut trace = TraceWriter::opened(64, 256);
    for p in 0..256 {
        trace.step(&Step::New { t: 0, p });
    }
    trace.blanks("async 0 63 255");
    trace.blanks("end 63");
    for place in 0..=255 {
        let mut list: Vec<u16> = (0..255).collect();
        list.insert(place, 255);
        trace.step(&Step::Async { t: 0, c: 1, list });
    }
    trace.bytes
}

/// Promises blamed on one task and on the one after it, and tried by a third.
fn blamed_trace(b: u16) -> Vec<u8> {
    let (next, t) = ((b + 1) % 64, (b + 2) % 64);
    let c = (b + 3) % 64;
    let mut trace = TraceWriter::opened(64, 9);
    for p in 0..8 {
        trace.step(&Step::New { t: 0, p });
    }
    // Each of the three gets its promises, but for what task 0 keeps if it is one of them.
    for (task, list) in [(b, vec![0, 1]), (next, vec![2]), (t, vec![3, 4])] {
        trace.step(&Step::Async { t: 0, c: task, list });
    }
    trace.step(&Step::End { t: b });
    trace.step(&Step::End { t: next });
    for list in [vec![3, 1], vec![0], vec![3, 4, 2, 0], vec![5], vec![3, 7, 1]] {
        trace.step(&Step::Async { t, c, list: list.clone() });
        trace.step(&Step::Set { t, p: list[list.len() - 1] });
    }
    for p in 0..=9 {
        trace.step(&Step::Set { t, p });
        trace.step(&Step::Get { t, p });
        trace.step(&Step::New { t, p });
    }
    trace.bytes
}

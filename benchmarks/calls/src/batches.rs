//! Many steps, and a few, in one call of the proved library against as many calls of it.

use crate::sides::ratio;
use crate::timing::median_nanoseconds;

/// How many steps are put into one call, and how many such batches are timed in a row.
const BATCHES: [(usize, u32); 2] = [(256, 40), (2, 4_000)];
/// T, P and the length of the chain that stands in the tables.
const SIZES: [(usize, usize, usize); 4] = [(4, 8, 1), (16, 64, 1), (64, 256, 1), (64, 256, 63)];

const READY: u16 = 1;
const SET: u16 = 1;
const BASE: u16 = 16;
const MARK: u16 = 0xBEEF;

/// Measures and prints every row.
pub fn table() {
    for (records, batches) in BATCHES {
        println!("\nnanoseconds per step; {records} steps in one call against as many calls");
        println!(
            "{:>3} {:>4} {:>6}  {:<8} {:>9} {:>9} {:>9}",
            "T", "P", "chain", "steps", "one call", "calls", "ratio"
        );
        for (tasks, promises, chain) in SIZES {
            let before = Words::with_chain(tasks, promises, chain, records);
            for (name, steps, first_numbers) in [
                ("values", values(records), [103; 4]),
                ("alarms", alarms(chain, records), [106; 4]),
                ("scan", scan(promises, chain, records), [101, 105, 102, 103]),
            ] {
                let (one, many) = measure(&before, &steps, first_numbers, batches);
                let share = ratio(one, many);
                println!("{tasks:>3} {promises:>4} {chain:>6}  {name:<8} {one:>9.0} {many:>9.0} {share:>9}");
            }
        }
    }
}

/// The words lent to a batch, or to its steps one by one.
#[derive(Clone, PartialEq, Eq)]
struct Words {
    tasks: Vec<u16>,
    promises: Vec<u16>,
    report: Vec<u16>,
    answers: Vec<u16>,
}

impl Words {
    /// Every task is ready but for the chain of tasks 1 to `chain`, each of which owns the promise with its own
    /// number; promise 0 is set and the others were never made.
    fn with_chain(task_count: usize, promise_count: usize, chain: usize, records: usize) -> Words {
        let mut tasks = vec![READY; task_count];
        let mut promises = vec![0; promise_count];
        promises[0] = SET;
        for t in 1..=chain {
            promises[t] = BASE + t as u16;
            if t < chain {
                tasks[t] = BASE + t as u16 + 1;
            }
        }
        let report = vec![MARK; records * (promise_count + 2 * task_count)];
        Words { tasks, promises, report, answers: vec![MARK; 4 * records] }
    }

    fn put_back(&mut self, before: &Words) {
        self.tasks.copy_from_slice(&before.tasks);
        self.promises.copy_from_slice(&before.promises);
    }
}

/// Gets of a promise that is set.
fn values(records: usize) -> Vec<u16> {
    [2, 0, 0, 0, 0].repeat(records)
}

/// Gets by the chain's end of what its first task owns.
fn alarms(chain: usize, records: usize) -> Vec<u16> {
    [2, chain as u16, 1, 0, 0].repeat(records)
}

/// For each promise never made: task 0 makes it, the chain's end waits on it, task 0 sets it, the other gets it.
/// Where the promises run out it starts over, and then making and setting are refused.
fn scan(promise_count: usize, chain: usize, records: usize) -> Vec<u16> {
    let end = chain as u16;
    let unmade: Vec<u16> = (end + 1..promise_count as u16).collect();
    (0..records)
        .flat_map(|index| {
            let p = unmade[index / 4 % unmade.len()];
            [[0, 0, p, 0, 0], [2, end, p, 0, 0], [1, 0, p, 0, 0], [2, end, p, 0, 0]][index % 4]
        })
        .collect()
}

/// All steps in one call.
#[inline(never)]
fn one_call(words: &mut Words, steps: &[u16]) -> u16 {
    let Words { tasks, promises, report, answers } = words;
    library::batch(tasks, promises, report, steps, &[], answers)
}

/// Each step in a call of its own, whose report starts behind the words given before.
#[inline(never)]
fn many_calls(words: &mut Words, steps: &[u16]) -> u16 {
    let Words { tasks, promises, report, answers } = words;
    let mut given = 0;
    for (record, answer) in steps.chunks_exact(5).zip(answers.chunks_exact_mut(4)) {
        let (t, p, report) = (record[1], record[2], &mut report[given..]);
        match record[0] {
            0 => library::step_new(tasks, promises, report, t, p, answer),
            1 => library::step_set(tasks, promises, report, t, p, answer),
            _ => library::step_get(tasks, promises, report, t, p, answer),
        };
        given += match answer[0] {
            102 => usize::from(answer[1]),
            106 => 2 * usize::from(answer[1]),
            _ => 0,
        };
    }
    0
}

/// The time per step in one call and in many, once both have given the same words.
fn measure(before: &Words, steps: &[u16], first_numbers: [u16; 4], batches: u32) -> (f64, f64) {
    let mut words = before.clone();
    assert_eq!(one_call(&mut words, steps), 0, "the batch is refused");
    let mut again = before.clone();
    many_calls(&mut again, steps);
    assert!(words == again, "one call and many differ");
    let numbers: Vec<u16> = words.answers.chunks_exact(4).map(|answer| answer[0]).take(4).collect();
    assert_eq!(numbers, first_numbers[..numbers.len()], "the steps do not show what they are meant to");

    let [one, many] = median_nanoseconds(
        batches,
        &mut words,
        &|words| words.put_back(before),
        [&|words| one_call(words, steps), &|words| many_calls(words, steps)],
    );
    let records = (steps.len() / 5) as f64;
    (one / records, many / records)
}

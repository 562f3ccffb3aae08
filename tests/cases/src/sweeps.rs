//! Sweeps: cases that go through every value, place or length in order.

use crate::blamed_sweeps;
use crate::case::{Case, Lent};
use crate::chain_sweeps::sweep_chains;
use crate::damage::ring;
use crate::place_sweeps::sweep_places;
use crate::random::Random;
use crate::repeat_sweeps::sweep_repeats;
use crate::sound::{blamed_on, chain, owned_by, waits_on, Words, ENDED, READY, SET};
use model::{Model, Step};
use std::ops::ControlFlow;

/// Takes each case with the name of its sweep, until it breaks off.
pub type Visit<'a> = dyn FnMut(&'static str, Case) -> ControlFlow<()> + 'a;

/// Every sweep.
pub fn sweep_all(visit: &mut Visit) -> ControlFlow<()> {
    sweep_short(visit)?;
    blamed_sweeps::every_blamed(visit)?;
    blamed_sweeps::every_place(visit)?;
    rings(visit)?;
    sweep_chains(visit)?;
    sweep_places(visit)?;
    long_lists(visit)?;
    sweep_repeats(visit)?;
    tiny_tables(visit)?;
    small_sound_tables(visit)?;
    every_number(visit)?;
    every_word(visit)
}

/// The first sweeps, short enough for a slow checker.
pub fn sweep_short(visit: &mut Visit) -> ControlFlow<()> {
    bounds(visit)?;
    lists(visit)?;
    blamed_sweeps::mixed_steps(visit)
}

fn lent(words: Words, report: usize, answer: usize) -> Lent {
    let mark = |length: usize, from: usize| (0..length).map(|place| (from + 7 * place) as u16).collect();
    Lent { tasks: words.tasks, promises: words.promises, report: mark(report, 40000), answer: mark(answer, 50000) }
}

/// One step with a report two words longer than it need be.
pub(crate) fn case(words: &Words, step: Step) -> Case {
    let report = words.promises.len() + 2 * words.tasks.len() + 2;
    Case { lent: lent(words.clone(), report, 4), steps: vec![step] }
}

/// One step of each kind.
pub(crate) fn each_kind(t: u16, p: u16, c: u16) -> [Step; 5] {
    [Step::New { t, p }, Step::Set { t, p }, Step::Get { t, p }, Step::Async { t, c, list: vec![p] }, Step::End { t }]
}

/// T, P, report and answer lengths at and around their bounds.
fn bounds(visit: &mut Visit) -> ControlFlow<()> {
    for tasks in [0, 1, 2, 3, 63, 64, 65, 66, 300] {
        for promises in [0, 1, 2, 255, 256, 257, 258, 1000] {
            let fresh = Words::fresh(tasks, promises);
            let mut made = fresh.clone();
            made.promises[..promises.min(2)].fill(owned_by(0));
            let mut damaged = fresh.clone();
            damaged.promises[..promises.min(1)].fill(3);
            let needed = promises + 2 * tasks;
            for report in [0, needed.saturating_sub(2), needed.saturating_sub(1), needed, needed + 1, needed + 500] {
                for words in [&fresh, &made, &damaged] {
                    for step in each_kind(0, 1, 1) {
                        visit("bounds", Case { lent: lent(words.clone(), report, 4), steps: vec![step] })?;
                    }
                }
            }
            for answer in [0, 1, 2, 3, 5, 9] {
                for step in each_kind(0, 0, 1) {
                    visit("answer lengths", Case { lent: lent(made.clone(), needed, answer), steps: vec![step] })?;
                }
            }
        }
    }
    ControlFlow::Continue(())
}

/// Chains and rings of every length, in tables just large enough and in the largest.
fn rings(visit: &mut Visit) -> ControlFlow<()> {
    let mut r = Random::new(1);
    for length in 1..=64 {
        for tasks in [length, (length + 1).min(64), 64] {
            for promises in [length, length + 1, 256] {
                let chain = chain(&mut r, tasks, promises, length);
                let end = chain.links[length - 1] as u16;
                for &p in &chain.promises {
                    visit("ring got", case(&chain.words, Step::Get { t: end, p: p as u16 }))?;
                    if let Some(beside) = chain.beside {
                        visit("chain got", case(&chain.words, Step::Get { t: beside as u16, p: p as u16 }))?;
                    }
                }
                let last = chain.promises[length - 1] as u16;
                visit("chain end set", case(&chain.words, Step::Set { t: end, p: last }))?;
                visit("chain end ended", case(&chain.words, Step::End { t: end }))?;
                let damaged = ring(&mut r, tasks, promises, length);
                for step in each_kind(r.below(tasks) as u16, r.below(promises) as u16, r.below(tasks) as u16) {
                    visit("ring standing", case(&damaged, step))?;
                }
            }
        }
    }
    ControlFlow::Continue(())
}

/// Tables in which task 0 owns promises 0 to 199, and others stand for every other state.
fn list_tables() -> Words {
    let mut words = Words::fresh(5, 256);
    words.tasks = vec![READY, READY, 0, ENDED, waits_on(199)];
    words.promises[..200].fill(owned_by(0));
    words.promises[201] = SET;
    words.promises[202] = blamed_on(3);
    words.promises[203] = owned_by(1);
    words.promises[204] = owned_by(4);
    words
}

/// Lists that are bad at each place in each way, alone and with a later bad entry.
fn lists(visit: &mut Visit) -> ControlFlow<()> {
    let words = list_tables();
    for length in [0usize, 1, 2, 3, 7, 40, 200] {
        let good: Vec<u16> = (0..length as u16).map(|place| (place * 37) % 200).collect();
        let start = |list: &[u16], c| Step::Async { t: 0, c, list: list.to_vec() };
        visit("good list", case(&words, start(&good, 2)))?;
        for c in [0, 1, 3, 4, 5, 6, 65535] {
            visit("bad child", case(&words, start(&good, c)))?;
        }
        for place in 0..length {
            let repeats = [good[0], good[place.saturating_sub(1)], good[place / 2]];
            for bad in [256, 257, 65535, 200, 201, 202, 203, 204].into_iter().chain(repeats) {
                let mut list = good.clone();
                list[place] = bad;
                visit("bad entry", case(&words, start(&list, 2)))?;
                visit("bad entry and child", case(&words, start(&list, 3)))?;
                list[length - 1] = 256;
                visit("two bad entries", case(&words, start(&list, 2)))?;
            }
        }
    }
    ControlFlow::Continue(())
}

/// Lists as long as all promises and longer, past 65,536 entries too.
fn long_lists(visit: &mut Visit) -> ControlFlow<()> {
    let mut words = Words::fresh(2, 256);
    words.promises.fill(owned_by(0));
    for length in [255, 256, 257, 258, 512, 65535, 65536, 65537, 65792, 70000, 131072, 131073] {
        let rising: Vec<u16> = (0..length).map(|place: usize| (place % 256) as u16).collect();
        let falling: Vec<u16> = rising.iter().map(|&p| 255 - p).collect();
        let mut bad = rising.clone();
        bad[length - 1] = 256;
        for list in [rising, falling, bad] {
            for (t, c) in [(0, 1), (0, 0), (0, 2), (1, 1), (2, 1)] {
                visit("long list", case(&words, Step::Async { t, c, list: list.clone() }))?;
            }
        }
        let other_first: Vec<u16> = (0..length).map(|place| if place == 0 { 300 } else { 5 }).collect();
        visit("long list", case(&words, Step::Async { t: 0, c: 1, list: other_first }))?;
    }
    ControlFlow::Continue(())
}

/// Every table of `length` words taken from `choices`.
pub(crate) fn every_table(length: usize, choices: &[u16]) -> Vec<Vec<u16>> {
    (0..length).fold(vec![vec![]], |tables, _| {
        tables.iter().flat_map(|table| choices.iter().map(|&word| [&table[..], &[word]].concat())).collect()
    })
}

/// Every step with numbers at most one past the tables, and lists of at most two entries.
fn every_step(tasks: u16, promises: u16) -> Vec<Step> {
    let mut steps = Vec::new();
    let entries: Vec<u16> = (0..=promises).collect();
    let lists: Vec<Vec<u16>> = (0..=2).flat_map(|length| every_table(length, &entries)).collect();
    for t in 0..=tasks {
        steps.push(Step::End { t });
        for p in 0..=promises {
            steps.extend([Step::New { t, p }, Step::Set { t, p }, Step::Get { t, p }]);
        }
        for c in 0..=tasks {
            steps.extend(lists.iter().map(|list| Step::Async { t, c, list: list.clone() }));
        }
    }
    steps
}

/// All tables of these sizes over these words: every step on sound ones, each kind on others.
fn all_tables(
    visit: &mut Visit,
    name: &'static str,
    (tasks, task_words): (usize, &[u16]),
    (promises, promise_words): (usize, &[u16]),
) -> ControlFlow<()> {
    let steps = every_step(tasks as u16, promises as u16);
    let promise_tables = every_table(promises, promise_words);
    for task_table in every_table(tasks, task_words) {
        for promise_table in &promise_tables {
            let words = Words { tasks: task_table.clone(), promises: promise_table.clone() };
            if Model::PAPER.is_sound(&words.tasks, &words.promises) {
                for step in &steps {
                    visit(name, case(&words, step.clone()))?;
                }
            } else {
                for step in each_kind(0, 0, 1) {
                    visit(name, case(&words, step))?;
                }
            }
        }
    }
    ControlFlow::Continue(())
}

/// All tables of at most two tasks and two promises over words at the edges of their meaning.
fn tiny_tables(visit: &mut Visit) -> ControlFlow<()> {
    let task_words = [0, 1, 2, 3, 15, 16, 17, 18, 65535];
    let promise_words = [0, 1, 2, 15, 16, 17, 18, 79, 80, 81, 82];
    for tasks in 1..=2 {
        for promises in 0..=2 {
            all_tables(visit, "tiny tables", (tasks, &task_words), (promises, &promise_words))?;
        }
    }
    ControlFlow::Continue(())
}

/// All tables of three tasks and two promises whose words have a meaning.
fn small_sound_tables(visit: &mut Visit) -> ControlFlow<()> {
    all_tables(visit, "small tables", (3, &[0, 1, 2, 16, 17]), (2, &[0, 1, 16, 17, 18, 80, 81, 82]))
}

/// Whether a number is near an edge, or one of those that stand for the others.
pub(crate) fn worth_a_look(n: u16) -> bool {
    !(1_000..=64_500).contains(&n) || n.is_multiple_of(7)
}

/// Numbers of every size in every place where a step takes one.
fn every_number(visit: &mut Visit) -> ControlFlow<()> {
    let words = Words {
        tasks: vec![READY, waits_on(1), ENDED, 0],
        promises: vec![SET, owned_by(0), blamed_on(2), owned_by(1), 0],
    };
    for n in (0..=u16::MAX).filter(|&n| worth_a_look(n)) {
        for step in each_kind(0, n, 3).into_iter().take(4) {
            visit("every promise number", case(&words, step))?;
        }
        for step in [Step::New { t: n, p: 4 }, Step::Get { t: n, p: 3 }, Step::End { t: n }] {
            visit("every task number", case(&words, step))?;
        }
        visit("every child number", case(&words, Step::Async { t: 0, c: n, list: vec![1] }))?;
    }
    ControlFlow::Continue(())
}

/// Every word in a place of each table, in small tables and, with gaps, in the largest.
fn every_word(visit: &mut Visit) -> ControlFlow<()> {
    let small =
        Words { tasks: vec![READY, 0, ENDED, READY], promises: vec![SET, owned_by(3), 0, blamed_on(2), owned_by(0)] };
    let mut large = Words::fresh(64, 256);
    for t in 1..64 {
        large.tasks[t] = if t % 2 == 0 { ENDED } else { READY };
    }
    for p in 0..256 {
        let t = p % 64;
        large.promises[p] = if t % 2 == 0 && t > 0 { blamed_on(t) } else { owned_by(t) };
    }
    for word in 0..=u16::MAX {
        let steps = |place: u16| [Step::Get { t: 0, p: place }, Step::End { t: 0 }];
        let tables = [(&small, 1, 2), (&large, 63, 255)];
        for (words, t, p) in tables.into_iter().take(1 + usize::from(worth_a_look(word))) {
            let mut task_word = words.clone();
            task_word.tasks[t] = word;
            let mut promise_word = words.clone();
            promise_word.promises[p] = word;
            let step = &steps(p as u16)[usize::from(word % 2)];
            visit("every task word", case(&task_word, step.clone()))?;
            visit("every promise word", case(&promise_word, step.clone()))?;
        }
    }
    ControlFlow::Continue(())
}

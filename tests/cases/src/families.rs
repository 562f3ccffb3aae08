//! Families of random cases. A case is known by its seed alone.

use crate::blamed::{blamed_promises, blamed_step, blamed_tables, put_blamed};
use crate::case::{Case, Lent};
use crate::damage::{damage, ring};
use crate::random::Random;
use crate::sound::{chain, owned_by, random_tables, Words, READY};
use crate::step_choice::{choose, spoil, wild, Taste};
use model::{Model, Step};

type Family = (&'static str, fn(&mut Random) -> Case);

const FAMILIES: [Family; 11] = [
    ("walk", walk),
    ("walk", walk),
    ("sound tables", sound_tables),
    ("damaged tables", damaged_tables),
    ("ring", ring_tables),
    ("chain", chain_tables),
    ("bounds", bounds),
    ("list", list),
    ("blamed", blamed),
    ("wild words", wild_words),
    ("small words", small_words),
];

/// The case with this seed, and the name of its family.
pub fn random_case(seed: u64) -> (&'static str, Case) {
    let mut r = Random::new(seed);
    let (name, make) = r.pick(&FAMILIES);
    (name, make(&mut r))
}

/// Lends these tables with a report and an answer, sometimes longer than they need be.
fn lend(r: &mut Random, words: Words) -> Lent {
    let needed = words.promises.len() + 2 * words.tasks.len();
    let spare = if r.once_in(2) { 0 } else { r.below(6) };
    let answer = if r.once_in(8) { r.below(8) } else { 4 };
    Lent { report: r.words(needed + spare), answer: r.words(answer), tasks: words.tasks, promises: words.promises }
}

fn one_step(r: &mut Random, words: Words, step: Step) -> Case {
    Case { lent: lend(r, words), steps: vec![step] }
}

/// A long walk, mostly of accepted steps, mostly from fresh tables.
fn walk(r: &mut Random) -> Case {
    let (tasks, promises) = (r.task_count(), r.promise_count());
    let start = if r.once_in(4) { random_tables(r, tasks, promises) } else { Words::fresh(tasks, promises) };
    let mut lent = lend(r, start);
    lent.answer = r.words(4);
    let case_lent = lent.clone();
    let taste = Taste::any(r);
    let length = 1 + r.below(if tasks > 8 { 250 } else { 40 });
    let mut steps = Vec::new();
    for _ in 0..length {
        let step = choose(r, taste, &lent.tasks, &lent.promises);
        Model::PAPER.step(&step, &mut lent.tasks, &mut lent.promises, &mut lent.report);
        steps.push(step);
        if !lent.tasks.contains(&READY) && r.once_in(4) {
            break;
        }
    }
    Case { lent: case_lent, steps }
}

fn sound_tables(r: &mut Random) -> Case {
    let (tasks, promises) = (r.task_count(), r.promise_count());
    let words = random_tables(r, tasks, promises);
    let taste = Taste::any(r);
    let step = choose(r, taste, &words.tasks, &words.promises);
    one_step(r, words, step)
}

fn damaged_tables(r: &mut Random) -> Case {
    let (tasks, promises) = (r.task_count(), r.promise_count());
    let mut words = random_tables(r, tasks, promises);
    for _ in 0..1 + r.below(2) {
        damage(r, &mut words);
    }
    let taste = Taste::any(r);
    let step = choose(r, taste, &words.tasks, &words.promises);
    one_step(r, words, step)
}

fn ring_tables(r: &mut Random) -> Case {
    let tasks = r.task_count();
    let promises = tasks + r.below(257 - tasks);
    let length = 1 + r.below(tasks);
    let words = ring(r, tasks, promises, length);
    let taste = Taste::any(r);
    let step = choose(r, taste, &words.tasks, &words.promises);
    one_step(r, words, step)
}

/// A chain of any length, got by its own end, by a task beside it, or taken apart.
fn chain_tables(r: &mut Random) -> Case {
    let tasks = r.task_count();
    let promises = tasks + r.below(257 - tasks);
    let length = 1 + r.below(tasks);
    let chain = chain(r, tasks, promises, length);
    let end = chain.links[length - 1] as u16;
    let p = chain.promises[r.below(length)] as u16;
    let step = match r.below(4) {
        0 => Step::Get { t: end, p: chain.promises[0] as u16 },
        1 => Step::Get { t: chain.beside.unwrap_or(end as usize) as u16, p },
        2 => Step::End { t: end },
        _ => Step::Set { t: end, p: chain.promises[length - 1] as u16 },
    };
    one_step(r, chain.words, step)
}

/// Lengths at and around their bounds.
fn bounds(r: &mut Random) -> Case {
    let tasks = r.pick(&[0, 1, 2, 63, 64, 65, 66, 80, 1000]);
    let promises = r.pick(&[0, 1, 2, 255, 256, 257, 258, 300, 70000]);
    let words = if tasks == 0 { Words::fresh(0, promises) } else { random_tables(r, tasks.min(64), promises.min(256)) };
    let mut words = words;
    words.tasks.resize(tasks, 0);
    words.promises.resize(promises, 0);
    if r.once_in(3) && tasks > 0 {
        let t = r.below(tasks);
        words.tasks[t] = r.word();
    }
    let needed = promises + 2 * tasks;
    let report = r.pick(&[
        0,
        needed.saturating_sub(2),
        needed.saturating_sub(1),
        needed,
        needed,
        needed,
        needed + 1,
        needed + 70000,
    ]);
    let taste = Taste::any(r);
    let step = if tasks == 0 || tasks > 64 || promises > 256 {
        wild(r, tasks, promises)
    } else {
        choose(r, taste, &words.tasks, &words.promises)
    };
    let mut case = one_step(r, words, step);
    case.lent.report = r.words(report);
    case
}

/// An async of a task that owns much, its list good or spoiled at any place.
fn list(r: &mut Random) -> Case {
    let tasks = 2 + r.below(63);
    let promises = 1 + r.below(256);
    let mut words = random_tables(r, tasks, promises);
    let order = r.order(tasks);
    let (t, c) = (order[0], order[1]);
    words.tasks[t] = READY;
    words.tasks[c] = 0;
    let foreign_share = r.below(3);
    for word in &mut words.promises {
        let of_child = *word == owned_by(c) || *word == 80 + c as u16 || *word == 80 + t as u16;
        if of_child || r.below(4) >= foreign_share {
            *word = owned_by(t);
        }
    }
    // What waited on a promise that is now closed or never made waits no more.
    for word in &mut words.tasks {
        if *word >= 16 && !(16..80).contains(&words.promises[*word as usize - 16]) {
            *word = READY;
        }
    }
    if r.once_in(10) {
        words.promises = vec![owned_by(t); 256];
    }
    let promises = words.promises.len();
    let mut list: Vec<u16> = (0..promises).filter(|&p| words.promises[p] == owned_by(t)).map(|p| p as u16).collect();
    r.shuffle(&mut list);
    if r.once_in(2) {
        list.truncate(r.below(12));
    }
    match r.below(60) {
        // Good entries, then so many more that 16 bits can't count them.
        0 => list.resize(65536 + list.len(), r.pick_any(&list).unwrap_or(0)),
        1..=5 => list.push(r.pick_any(&list).unwrap_or(0)),
        6..=35 => spoil(r, &mut list, promises),
        36..=41 => put_blamed(r, &mut list, &blamed_promises(&words.promises), promises),
        _ => {}
    }
    let child = if r.once_in(12) { r.number(tasks) } else { c as u16 };
    one_step(r, words, Step::Async { t: t as u16, c: child, list })
}

/// A few sets and asyncs on blamed promises.
fn blamed(r: &mut Random) -> Case {
    let words = blamed_tables(r);
    let steps = (0..1 + r.below(4)).map(|_| blamed_step(r, &words.tasks, &words.promises)).collect();
    Case { lent: lend(r, words), steps }
}

/// Words of every kind, with no thought of soundness.
fn wild_words(r: &mut Random) -> Case {
    let (tasks, promises) = (1 + r.below(4), r.below(6));
    let words =
        Words { tasks: (0..tasks).map(|_| r.word()).collect(), promises: (0..promises).map(|_| r.word()).collect() };
    let step = wild(r, tasks, promises);
    one_step(r, words, step)
}

/// Words that each have a meaning, or nearly, in small tables: sound now and then.
fn small_words(r: &mut Random) -> Case {
    let (tasks, promises) = (1 + r.below(5), r.below(6));
    let words = Words {
        tasks: (0..tasks)
            .map(|_| if r.once_in(2) { r.below(4) as u16 } else { 16 + r.below(promises + 1) as u16 })
            .collect(),
        promises: (0..promises)
            .map(|_| match r.below(4) {
                0 => r.below(3) as u16,
                1 => 80 + r.below(tasks + 1) as u16,
                _ => 16 + r.below(tasks + 1) as u16,
            })
            .collect(),
    };
    let step = wild(r, tasks, promises);
    one_step(r, words, step)
}

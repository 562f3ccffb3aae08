//! Sound tables with many blamed promises, and steps that set and list these.

use crate::random::Random;
use crate::sound::{blamed_on, owned_by, waits_on, Words, ENDED, NEVER_MADE, NEVER_USED, READY, SET};
use model::{Step, BLAMED_BASE, OWNED_BASE};

/// Sound tables with a ready and an ended task at least, and about every second promise blamed; or nearly all
/// are one task's and few are blamed.
pub fn blamed_tables(r: &mut Random) -> Words {
    let (tasks, promises) = (r.task_count().max(2), r.promise_count().max(1));
    let order = r.order(tasks);
    let mut words = Words { tasks: vec![NEVER_USED; tasks], promises: vec![NEVER_MADE; promises] };
    let first = [READY, ENDED, NEVER_USED, READY, ENDED];
    for (place, &t) in order.iter().enumerate() {
        words.tasks[t] = first.get(place).copied().unwrap_or(r.pick(&[READY, ENDED, ENDED, NEVER_USED]));
    }
    let owner = order[0];
    let (ready, ended) = (tasks_with(&words.tasks, READY), tasks_with(&words.tasks, ENDED));
    let few = r.once_in(4);
    for p in 0..promises {
        words.promises[p] = match r.below(8) {
            _ if few && !r.once_in(32) => owned_by(owner),
            0 => SET,
            1 => NEVER_MADE,
            2 => owned_by(owner),
            3 => owned_by(r.pick(&ready) as usize),
            _ => blamed_on(r.pick(&ended) as usize),
        };
    }
    let awaited = words.promises.iter().position(|&word| word == owned_by(owner));
    if let (Some(p), Some(&waiter)) = (awaited, order.get(3).filter(|_| r.once_in(3))) {
        if !words.promises.contains(&owned_by(waiter)) {
            words.tasks[waiter] = waits_on(p);
        }
    }
    words
}

fn tasks_with(tasks: &[u16], word: u16) -> Vec<u16> {
    (0..tasks.len() as u16).filter(|&t| tasks[t as usize] == word).collect()
}

/// The promises blamed on any task.
pub fn blamed_promises(promises: &[u16]) -> Vec<u16> {
    (0..promises.len() as u16).filter(|&p| promises[p as usize] >= BLAMED_BASE).collect()
}

/// A set or an async by a ready task, mostly on a blamed promise.
pub fn blamed_step(r: &mut Random, tasks: &[u16], promises: &[u16]) -> Step {
    let t = actor(r, tasks, promises);
    let p = one_of(r, &blamed_promises(promises), promises.len());
    match r.below(8) {
        0..=2 => Step::Set { t, p },
        3 => Step::Get { t, p },
        _ => blamed_list(r, tasks, promises, t),
    }
}

/// A ready task most of the time, often one that owns much.
pub fn actor(r: &mut Random, tasks: &[u16], promises: &[u16]) -> u16 {
    let ready = tasks_with(tasks, READY);
    let owners = promises.iter().filter(|&&word| (OWNED_BASE..BLAMED_BASE).contains(&word));
    let owners: Vec<u16> = owners.map(|word| word - OWNED_BASE).collect();
    match r.below(12) {
        0 => r.number(tasks.len()),
        1..=5 => r.pick_any(&owners).or(r.pick_any(&ready)).unwrap_or(0),
        _ => r.pick_any(&ready).unwrap_or(0),
    }
}

/// A blamed promise most of the time, out of so many promises.
fn one_of(r: &mut Random, blamed: &[u16], promises: usize) -> u16 {
    match r.pick_any(blamed) {
        Some(p) if !r.once_in(8) => p,
        _ => r.number(promises),
    }
}

/// An async whose list is good but for blamed entries, a few of any kind and repeated ones.
fn blamed_list(r: &mut Random, tasks: &[u16], promises: &[u16], t: u16) -> Step {
    let unused = tasks_with(tasks, NEVER_USED);
    let c = r.pick_any(&unused).filter(|_| !r.once_in(12)).unwrap_or(r.number(tasks.len()));
    let own = owned_by(t as usize % 64);
    let mut list: Vec<u16> = (0..promises.len() as u16).filter(|&p| promises[p as usize] == own).collect();
    r.shuffle(&mut list);
    if r.once_in(2) {
        list.truncate(r.below(5));
    }
    put_blamed(r, &mut list, &blamed_promises(promises), promises.len());
    if r.once_in(3) {
        let entry = if r.once_in(2) { r.pick(&list) } else { r.number(promises.len()) };
        let place = r.below(list.len() + 1);
        list.insert(place, entry);
    }
    Step::Async { t, c, list }
}

/// Puts one to three entries, mostly blamed ones if there are any, somewhere into the list.
pub fn put_blamed(r: &mut Random, list: &mut Vec<u16>, blamed: &[u16], promises: usize) {
    for _ in 0..1 + r.below(3) {
        let place = if r.once_in(3) { list.len() } else { r.below(list.len() + 1) };
        list.insert(place, one_of(r, blamed, promises));
    }
}

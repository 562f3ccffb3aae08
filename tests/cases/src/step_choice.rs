//! Steps chosen to fit the tables, so that long walks of accepted steps come about.

use crate::blamed::put_blamed;
use crate::random::Random;
use model::{Model, Promise, Step, Tables, Task};

/// How often each step is chosen, in the order new, set, get, async, end.
#[derive(Clone, Copy, Debug)]
pub struct Taste(pub [usize; 5]);

impl Taste {
    const ALL: [Taste; 6] = [
        Taste([3, 3, 3, 3, 1]),
        Taste([4, 1, 6, 4, 1]),
        Taste([4, 0, 8, 6, 0]),
        Taste([6, 1, 2, 6, 2]),
        Taste([3, 6, 6, 3, 0]),
        Taste([2, 1, 10, 2, 1]),
    ];

    pub fn any(r: &mut Random) -> Taste {
        r.pick(&Taste::ALL)
    }
}

/// A step for these words: one that fits them, now and then with a number that does not.
pub fn choose(r: &mut Random, taste: Taste, tasks: &[u16], promises: &[u16]) -> Step {
    match Model::PAPER.read_tables(tasks, promises) {
        Some(tables) => fitting(r, taste, &tables),
        None => wild(r, tasks.len(), promises.len()),
    }
}

/// A step with numbers that have nothing to do with the tables.
pub fn wild(r: &mut Random, tasks: usize, promises: usize) -> Step {
    let (t, p) = (r.number(tasks), r.number(promises));
    match r.below(5) {
        0 => Step::New { t, p },
        1 => Step::Set { t, p },
        2 => Step::Get { t, p },
        3 => {
            let length = r.below(6);
            Step::Async { t, c: r.number(tasks), list: (0..length).map(|_| r.number(promises)).collect() }
        }
        _ => Step::End { t },
    }
}

fn fitting(r: &mut Random, taste: Taste, tables: &Tables) -> Step {
    let t = actor(r, tables);
    let kind = weighted(r, &taste.0);
    let miss = r.once_in(12);
    let any = match tables.promises.len() {
        promises @ 1.. if r.once_in(2) => r.below(promises) as u16,
        promises => r.number(promises),
    };
    let promise = |r: &mut Random, fits: &dyn Fn(&Promise) -> bool| {
        let fitting: Vec<u16> =
            (0..tables.promises.len()).filter(|&p| fits(&tables.promises[p])).map(|p| p as u16).collect();
        if miss {
            any
        } else {
            r.pick_any(&fitting).unwrap_or(any)
        }
    };
    let owned = Promise::Owned(t as usize);
    match kind {
        0 => Step::New { t, p: promise(r, &|&p| p == Promise::NeverMade) },
        1 if r.once_in(8) => Step::Set { t, p: promise(r, &|&p| matches!(p, Promise::Blamed(_))) },
        1 => Step::Set { t, p: promise(r, &|&p| p == owned) },
        2 if r.once_in(4) => Step::Get { t, p: promise(r, &|&p| p != Promise::NeverMade) },
        2 => Step::Get { t, p: promise(r, &|&p| matches!(p, Promise::Owned(_)) && p != owned) },
        3 => start(r, tables, t),
        _ => Step::End { t },
    }
}

/// A ready task most of the time.
fn actor(r: &mut Random, tables: &Tables) -> u16 {
    let ready: Vec<u16> =
        (0..tables.tasks.len()).filter(|&t| tables.tasks[t] == Task::Ready).map(|t| t as u16).collect();
    match r.pick_any(&ready) {
        Some(t) if !r.once_in(12) => t,
        _ if r.once_in(2) => r.below(tables.tasks.len()) as u16,
        _ => r.number(tables.tasks.len()),
    }
}

fn start(r: &mut Random, tables: &Tables, t: u16) -> Step {
    let unused: Vec<u16> =
        (0..tables.tasks.len()).filter(|&c| tables.tasks[c] == Task::NeverUsed).map(|c| c as u16).collect();
    let mut c = r.pick_any(&unused).unwrap_or(t);
    if r.once_in(16) {
        c = r.number(tables.tasks.len());
    }
    let mut list: Vec<u16> = tables.owned_by(t as usize).into_iter().map(|p| p as u16).collect();
    r.shuffle(&mut list);
    list.truncate(if r.once_in(4) { list.len() } else { r.below(5) });
    if r.once_in(6) {
        spoil(r, &mut list, tables.promises.len());
    }
    if r.once_in(8) {
        put_blamed(r, &mut list, &blamed_promises(tables), tables.promises.len());
    }
    Step::Async { t, c, list }
}

fn blamed_promises(tables: &Tables) -> Vec<u16> {
    let is_blamed = |&p: &usize| matches!(tables.promises[p], Promise::Blamed(_));
    (0..tables.promises.len()).filter(is_blamed).map(|p| p as u16).collect()
}

/// Puts a repeated or a foreign entry somewhere into the list, maybe more than one.
pub fn spoil(r: &mut Random, list: &mut Vec<u16>, promises: usize) {
    for _ in 0..1 + r.below(2) {
        let entry = match r.pick_any(list) {
            Some(repeat) if r.once_in(2) => repeat,
            _ => r.number(promises),
        };
        let place = r.below(list.len() + 1);
        list.insert(place, entry);
    }
}

fn weighted(r: &mut Random, weights: &[usize]) -> usize {
    let mut left = r.below(weights.iter().sum());
    weights
        .iter()
        .position(|&weight| {
            let here = left < weight;
            left = left.wrapping_sub(weight);
            here
        })
        .expect("a number below the sum falls to one of the weights")
}

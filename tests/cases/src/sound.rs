//! Sound tables, made at random or around a chain.

use crate::random::Random;
use model::{BLAMED_BASE, OWNED_BASE, WAITS_BASE};

pub const NEVER_USED: u16 = 0;
pub const READY: u16 = 1;
pub const ENDED: u16 = 2;
pub const NEVER_MADE: u16 = 0;
pub const SET: u16 = 1;

pub fn waits_on(p: usize) -> u16 {
    WAITS_BASE + p as u16
}

pub fn owned_by(t: usize) -> u16 {
    OWNED_BASE + t as u16
}

pub fn blamed_on(t: usize) -> u16 {
    BLAMED_BASE + t as u16
}

/// Two tables of words.
#[derive(Clone, Debug)]
pub struct Words {
    pub tasks: Vec<u16>,
    pub promises: Vec<u16>,
}

impl Words {
    pub fn fresh(tasks: usize, promises: usize) -> Words {
        let mut words = Words { tasks: vec![NEVER_USED; tasks], promises: vec![NEVER_MADE; promises] };
        words.tasks[..tasks.min(1)].fill(READY);
        words
    }
}

/// Sound tables in which each task waits, if it does, on a task placed before it.
pub fn random_tables(r: &mut Random, tasks: usize, promises: usize) -> Words {
    let mut words = Words { tasks: vec![NEVER_USED; tasks], promises: vec![NEVER_MADE; promises] };
    let mut unused = r.order(promises);
    let mut live: Vec<usize> = Vec::new();
    let mut ended: Vec<usize> = Vec::new();
    let waiting_share = r.below(9);
    let chain_share = r.below(9);
    for t in r.order(tasks) {
        if !live.is_empty() && r.below(8) < waiting_share {
            // Wait on the task placed last, which makes long chains, or on any placed one.
            let owner = if r.below(8) < chain_share { live[live.len() - 1] } else { r.pick(&live) };
            let shared = words.promises.iter().position(|&word| word == owned_by(owner));
            let awaited = if shared.is_some() && r.once_in(3) { shared } else { unused.pop().or(shared) };
            if let Some(p) = awaited {
                words.promises[p] = owned_by(owner);
                words.tasks[t] = waits_on(p);
                live.push(t);
                continue;
            }
        }
        words.tasks[t] = r.pick(&[READY, READY, ENDED, NEVER_USED]);
        match words.tasks[t] {
            READY => live.push(t),
            ENDED => ended.push(t),
            _ => {}
        }
    }
    for p in unused {
        words.promises[p] = match r.below(4) {
            0 => NEVER_MADE,
            1 => SET,
            2 => r.pick_any(&ended).map_or(SET, blamed_on),
            _ => r.pick_any(&live).map_or(SET, owned_by),
        };
    }
    words
}

/// Tables around one chain: each link but the last waits on the next one's promise.
pub struct Chain {
    pub words: Words,
    /// The tasks of the chain, the last of them ready.
    pub links: Vec<usize>,
    /// The promise each link owns, in the order of the links.
    pub promises: Vec<usize>,
    /// A ready task beside the chain, if there is room for one.
    pub beside: Option<usize>,
}

/// A chain of `length` links among `tasks` tasks; there are at least as many promises as links.
pub fn chain(r: &mut Random, tasks: usize, promises: usize, length: usize) -> Chain {
    let order = r.order(tasks);
    let (links, others) = order.split_at(length);
    let promise_order = r.order(promises);
    let (awaited, free) = promise_order.split_at(length);
    let mut words = Words { tasks: vec![NEVER_USED; tasks], promises: vec![NEVER_MADE; promises] };
    for (place, (&t, &p)) in links.iter().zip(awaited).enumerate() {
        words.promises[p] = owned_by(t);
        words.tasks[t] = if place + 1 < length { waits_on(awaited[place + 1]) } else { READY };
    }
    for (place, &t) in others.iter().enumerate() {
        let on_chain = waits_on(r.pick(awaited));
        words.tasks[t] = if place == 0 { READY } else { r.pick(&[NEVER_USED, READY, ENDED, on_chain]) };
    }
    for &p in free {
        let t = r.below(tasks);
        words.promises[p] = match words.tasks[t] {
            NEVER_USED => r.pick(&[NEVER_MADE, SET]),
            ENDED => blamed_on(t),
            _ => owned_by(t),
        };
    }
    Chain { words, links: links.to_vec(), promises: awaited.to_vec(), beside: others.first().copied() }
}

//! Sweeps over who waits on whom: chains that join, rings with tails and beside chains, ways that are lost, and all
//! tasks in one chain, numbered in many ways. Of all tables it is known from their making whether they are sound.

use crate::sound::{blamed_on, owned_by, waits_on, Words, ENDED, READY, SET};
use crate::sweeps::{case, each_kind, every_table, Visit};
use model::{Model, MOST_PROMISES, MOST_TASKS};
use std::ops::ControlFlow;

pub fn sweep_chains(visit: &mut Visit) -> ControlFlow<()> {
    let mut sweep = Sweep { visit, cases: 0 };
    sweep.one_chain()?;
    sweep.joined_chains()?;
    sweep.rings_with_a_tail()?;
    sweep.rings_with_two_tails()?;
    sweep.rings_beside_chains()?;
    sweep.lost_ways()?;
    sweep.small_graphs()?;
    sweep.lengths_past_the_bounds()
}

/// Links that wait on each other. A link is ready if it waits on none.
#[derive(Clone, Default)]
struct Links(Vec<Option<usize>>);

impl Links {
    /// Adds a chain of so many links, each of which waits on the one after it, the last on the told one; tells the
    /// first of them.
    fn chain(&mut self, length: usize, end: Option<usize>) -> usize {
        let first = self.0.len();
        self.0.extend((1..length).map(|place| Some(first + place)));
        self.0.push(end);
        first
    }

    /// Adds a ring of so many links and tells the first of them.
    fn ring(&mut self, length: usize) -> usize {
        let first = self.0.len();
        self.chain(length, Some(first))
    }

    /// Tables of these links alone. Link i is task i + `shift`, task 0 again after the last, or counted from the last
    /// task down; task t owns promise t, or if counted down the promise so far from the last.
    fn words(&self, promises: usize, shift: usize, down: bool) -> Words {
        let count = self.0.len();
        let task = |link: usize| if down { count - 1 - (link + shift) % count } else { (link + shift) % count };
        let owed = |t: usize| if down { promises - 1 - t } else { t };
        let mut words = Words { tasks: vec![READY; count], promises: vec![0; promises] };
        for (link, &next) in self.0.iter().enumerate() {
            words.promises[owed(task(link))] = owned_by(task(link));
            if let Some(next) = next {
                words.tasks[task(link)] = waits_on(owed(task(next)));
            }
        }
        words
    }
}

struct Sweep<'a, 'b> {
    visit: &'a mut Visit<'b>,
    cases: usize,
}

impl Sweep<'_, '_> {
    /// One step on these tables, of each kind in turn; the model must find them as they were made.
    fn tables(&mut self, name: &'static str, words: &Words, sound: bool) -> ControlFlow<()> {
        let found = Model::PAPER.is_sound(&words.tasks, &words.promises);
        assert_eq!(found, sound, "{name}: the model takes these tables for something else: {words:?}");
        let t = words.tasks.iter().position(|&word| word == READY).unwrap_or(0) as u16;
        let kinds = each_kind(t, self.cases as u16 % 7, t + 1);
        self.cases += 1;
        (self.visit)(name, case(words, kinds[self.cases % kinds.len()].clone()))
    }

    /// The links numbered from each of the shifts on, both ways, in tables with as few promises and as many as may be.
    fn links(&mut self, name: &'static str, links: &Links, shifts: &[usize], sound: bool) -> ControlFlow<()> {
        for &shift in shifts {
            for down in [false, true] {
                let promises = if self.cases.is_multiple_of(2) { MOST_PROMISES } else { links.0.len() };
                self.tables(name, &links.words(promises, shift, down), sound)?;
            }
        }
        ControlFlow::Continue(())
    }

    /// All tasks in one chain, from every task on and both ways; closed to a ring, and to rings that leave some out.
    fn one_chain(&mut self) -> ControlFlow<()> {
        for length in 1..=MOST_TASKS {
            let every: Vec<usize> = (0..length).collect();
            let shifts = if length == MOST_TASKS { &every[..] } else { &[0, length / 2] };
            let mut links = Links::default();
            links.chain(length, None);
            self.links("all in one chain", &links, shifts, true)?;
            for back in [0, length / 2, length - 1] {
                let mut closed = Links::default();
                closed.chain(length, Some(back));
                self.links("all in one chain, closed", &closed, shifts, false)?;
            }
        }
        ControlFlow::Continue(())
    }

    /// Two chains of all tasks together that join at the first, a middle and the last link of one of them; then the
    /// last link waits on the first of either chain.
    fn joined_chains(&mut self) -> ControlFlow<()> {
        for length in 1..MOST_TASKS {
            let other = MOST_TASKS - length;
            for at in [0, length / 2, length - 1] {
                let mut links = Links::default();
                links.chain(length, None);
                let side = links.chain(other, Some(at));
                self.links("chains that join", &links, &[0, other], true)?;
                for first in [0, side] {
                    let mut closed = links.clone();
                    closed.0[length - 1] = Some(first);
                    self.links("chains that join, closed", &closed, &[0, other], false)?;
                }
            }
        }
        ControlFlow::Continue(())
    }

    /// Rings of every length with a tail of all other tasks, and with a tail of one, the tail lower and higher in
    /// number than the ring.
    fn rings_with_a_tail(&mut self) -> ControlFlow<()> {
        for length in 1..MOST_TASKS {
            for tail in [1, MOST_TASKS - length] {
                for at in [0, length / 2, length - 1] {
                    let mut links = Links::default();
                    links.ring(length);
                    links.chain(tail, Some(at));
                    self.links("ring with a tail", &links, &[0, tail], false)?;
                }
            }
        }
        ControlFlow::Continue(())
    }

    /// Rings of every length with two tails, below, above and on either side of the ring.
    fn rings_with_two_tails(&mut self) -> ControlFlow<()> {
        for length in 1..MOST_TASKS - 1 {
            let rest = MOST_TASKS - length;
            for (one, other) in [(1, rest - 1), (rest / 2, rest - rest / 2)] {
                let mut links = Links::default();
                links.ring(length);
                links.chain(one, Some(length - 1));
                links.chain(other, Some(length / 2));
                self.links("ring with two tails", &links, &[0, other, rest], false)?;
            }
        }
        ControlFlow::Continue(())
    }

    /// Rings of every length beside a chain of all other tasks.
    fn rings_beside_chains(&mut self) -> ControlFlow<()> {
        for length in 1..MOST_TASKS {
            let mut links = Links::default();
            links.ring(length);
            links.chain(MOST_TASKS - length, None);
            self.links("ring beside a chain", &links, &[0, MOST_TASKS - length, length / 2], false)?;
        }
        ControlFlow::Continue(())
    }

    /// Chains of every length whose last link waits on what nobody owns: never made, set, or blamed on the task after
    /// the chain, which has ended.
    fn lost_ways(&mut self) -> ControlFlow<()> {
        for length in 1..MOST_TASKS {
            let mut links = Links::default();
            links.chain(length, None);
            for down in [false, true] {
                for word in [0, SET, blamed_on(length)] {
                    let mut words = links.words(MOST_PROMISES, 0, down);
                    let last = if down { 0 } else { length - 1 };
                    words.tasks.push(ENDED);
                    words.tasks[last] = waits_on(100);
                    words.promises[100] = word;
                    self.tables("lost way", &words, false)?;
                }
            }
        }
        ControlFlow::Continue(())
    }

    /// Every way in which up to five tasks can wait on each other or be ready.
    fn small_graphs(&mut self) -> ControlFlow<()> {
        for count in 1..=5 {
            let choices: Vec<u16> = (0..=count as u16).collect();
            for choice in every_table(count, &choices) {
                let next = choice.iter().map(|&u| (usize::from(u) < count).then_some(usize::from(u))).collect();
                let links = Links(next);
                self.tables("small graph", &links.words(count, 0, self.cases.is_multiple_of(2)), links.end_well())?;
            }
        }
        ControlFlow::Continue(())
    }

    /// Tables that only their lengths make unsound, with every task ready and with all in one chain.
    fn lengths_past_the_bounds(&mut self) -> ControlFlow<()> {
        for count in [0, 1, 64, 65, 66, 128, 70_000] {
            for promises in [0, 1, 64, 256, 257, 258, 512, 70_000] {
                let sound = (1..=MOST_TASKS).contains(&count) && promises <= MOST_PROMISES;
                let words = Words { tasks: vec![READY; count], promises: vec![SET; promises] };
                self.tables("lengths past the bounds", &words, sound)?;
                if (1..=128).contains(&count) && count <= promises {
                    let mut links = Links::default();
                    links.chain(count, None);
                    self.tables("lengths past the bounds", &links.words(promises, 0, false), sound)?;
                }
            }
        }
        ControlFlow::Continue(())
    }
}

impl Links {
    /// Whether every link's way ends at a ready one: round by round those end well that wait on one that does.
    fn end_well(&self) -> bool {
        let mut well: Vec<bool> = self.0.iter().map(Option::is_none).collect();
        for _ in &self.0 {
            well = self.0.iter().map(|next| next.is_none_or(|next| well[next])).collect();
        }
        well.iter().all(|&well| well)
    }
}

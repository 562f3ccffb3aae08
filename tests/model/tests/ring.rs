//! A ring that was entered stands for good: no accepted step lets one of its tasks go.
//!
//! The wait of every alarm is entered by hand. Then all steps are tried by the rules without the soundness test, again
//! on all tables that come of them, until there are no new ones.

use model::{Answer, Model, Step, Twist};
use std::collections::{BTreeMap, HashSet};

const PAPER: Model = Model::PAPER;
/// The paper's rules, but for the clause of the soundness test that refuses rings.
const RINGS_PASS: Model = Model { twist: Twist::RingsAreSound };
/// The paper's rules without the soundness test.
const UNTESTED: Model = Model { twist: Twist::CallDamagePasses };
const MARK: u16 = 7777;

#[derive(Clone, PartialEq, Eq, Hash, Debug)]
struct Table {
    tasks: Vec<u16>,
    promises: Vec<u16>,
}

impl Table {
    fn new(tasks: &[u16], promises: &[u16]) -> Table {
        Table { tasks: tasks.to_vec(), promises: promises.to_vec() }
    }

    /// The owner of promise `p`, if it is owned.
    fn owner(&self, p: u16) -> Option<u16> {
        let word = *self.promises.get(p as usize)?;
        (16..16 + self.tasks.len() as u16).contains(&word).then(|| word - 16)
    }

    /// What task `t` awaits, if it waits.
    fn awaited(&self, t: u16) -> Option<u16> {
        self.tasks[t as usize].checked_sub(16)
    }

    /// The same tables after task `t` was made to wait on promise `p`.
    fn entered(&self, t: u16, p: u16) -> Table {
        let mut entered = self.clone();
        entered.tasks[t as usize] = 16 + p;
        entered
    }

    /// A marked report of the least length.
    fn report(&self) -> Vec<u16> {
        vec![MARK; self.promises.len() + 2 * self.tasks.len()]
    }
}

/// A task, the promise it waits on, and the task that owns this promise.
type Link = [u16; 3];

/// Every task of these links waits on its promise, which has its owner.
fn stand(links: &[Link], table: &Table) -> bool {
    links.iter().all(|&[t, p, next]| table.awaited(t) == Some(p) && table.owner(p) == Some(next))
}

/// The links of the ring that is reported by these pairs, in the order of their tasks.
fn ring_of(pairs: &[u16]) -> Vec<Link> {
    let next = pairs[2..].iter().chain(pairs).step_by(2);
    let mut ring: Vec<Link> = pairs.chunks(2).zip(next).map(|(pair, &next)| [pair[0], pair[1], next]).collect();
    ring.sort();
    ring
}

/// The links from `t`, if it were to wait on `p`, until a task of the ring; nothing if no such task comes.
fn way_into(ring: &[Link], table: &Table, t: u16, p: u16) -> Option<Vec<Link>> {
    let mut way = vec![[t, p, table.owner(p)?]];
    for _ in &table.tasks {
        let [_, _, at] = way[way.len() - 1];
        if ring.iter().any(|link| link[0] == at) {
            return Some(way);
        }
        let awaited = table.awaited(at)?;
        way.push([at, awaited, table.owner(awaited)?]);
    }
    None
}

type Rules<'a> = &'a dyn Fn(&Step, &mut Table, &mut [u16]) -> Answer;

fn rules(model: Model) -> impl Fn(&Step, &mut Table, &mut [u16]) -> Answer {
    move |step, table, report| model.step(step, &mut table.tasks, &mut table.promises, report)
}

/// All lists of these promises up to this length.
fn lists(promises: u16, longest: usize) -> Vec<Vec<u16>> {
    let mut all = vec![vec![]];
    let mut from = 0;
    for _ in 0..longest {
        let to = all.len();
        for at in from..to {
            all.extend((0..promises).map(|p| [&all[at][..], &[p]].concat()).collect::<Vec<_>>());
        }
        from = to;
    }
    all
}

/// All steps with all numbers, one past the bounds too. The lists are those of up to two entries, and the longer ones
/// without a repeat.
fn steps(tasks: u16, promises: u16) -> Vec<Step> {
    let mut lists = lists(promises + 1, promises.max(2) as usize);
    lists.retain(|list| {
        let unlike: HashSet<_> = list.iter().collect();
        list.len() <= 2 || unlike.len() == list.len() && !list.contains(&promises)
    });
    let mut all = vec![];
    for t in 0..=tasks {
        all.push(Step::End { t });
        for p in 0..=promises {
            all.extend([Step::New { t, p }, Step::Set { t, p }, Step::Get { t, p }]);
        }
        for c in 0..=tasks {
            all.extend(lists.iter().map(|list| Step::Async { t, c, list: list.clone() }));
        }
    }
    all
}

/// The tables a search has tried, and how often each answer was given: refusals, then 101 to 108.
#[derive(Default, PartialEq, Eq, Debug)]
struct Seen {
    tables: usize,
    answers: [usize; 9],
}

/// A step after which the links no longer stand, and the tables it was taken on.
type Loose = (Step, Table);

/// All tables that come of the starts by accepted steps, if the links stand in each; else a step that loosens them.
fn search(
    rules: Rules,
    steps: &[Step],
    links: &[Link],
    starts: &[Table],
    seen: &mut Seen,
) -> Result<HashSet<Table>, Loose> {
    assert!(starts.iter().all(|start| stand(links, start)), "{links:?} are not entered");
    let mut reached: HashSet<Table> = starts.iter().cloned().collect();
    let mut open: Vec<Table> = reached.iter().cloned().collect();
    while let Some(before) = open.pop() {
        seen.tables += 1;
        let (mut after, mut report) = (before.clone(), before.report());
        for step in steps {
            let answer = rules(step, &mut after, &mut report);
            assert_ne!(answer, Answer::Refused(2), "the soundness test is left out");
            seen.answers[answer.words()[0].saturating_sub(100) as usize] += 1;
            if after == before {
                continue;
            }
            assert!(!answer.is_refused(), "{step:?} is refused and changes {before:?}");
            if !stand(links, &after) {
                return Err((step.clone(), before));
            }
            if reached.insert(after.clone()) {
                open.push(after.clone());
            }
            after.clone_from(&before);
        }
    }
    Ok(reached)
}

/// All rows of this length made of these words.
fn rows(words: &[u16], length: u16) -> Vec<Vec<u16>> {
    let mut places = lists(words.len() as u16, length as usize);
    places.retain(|row| row.len() == length as usize);
    places.iter().map(|row| row.iter().map(|&at| words[at as usize]).collect()).collect()
}

/// All tables of this size whose words have a meaning.
fn all_tables(tasks: u16, promises: u16) -> impl Iterator<Item = Table> {
    let task_words: Vec<u16> = [0, 1, 2].into_iter().chain(16..16 + promises).collect();
    let promise_words: Vec<u16> = [0, 1].into_iter().chain(16..16 + tasks).chain(80..80 + tasks).collect();
    let promise_rows = rows(&promise_words, promises);
    let of_tasks = move |t: Vec<u16>| promise_rows.iter().map(|p| Table::new(&t, p)).collect::<Vec<_>>();
    rows(&task_words, tasks).into_iter().flat_map(of_tasks)
}

/// Links that were entered, with the tables that came of it.
type Entered = BTreeMap<Vec<Link>, Vec<Table>>;

/// Enters the wait of every alarm on the table.
fn enter_alarms(model: Model, table: &Table, entered: &mut Entered) {
    for t in 0..table.tasks.len() as u16 {
        for p in 0..table.promises.len() as u16 {
            let (mut after, mut report) = (table.clone(), table.report());
            let Answer::Cycle(owners) = rules(model)(&Step::Get { t, p }, &mut after, &mut report) else { continue };
            assert_eq!(after, *table, "an alarm changes no table");
            assert_eq!(report[..2], [t, p], "the report starts with the alarmed wait");
            entered.entry(ring_of(&report[..2 * owners])).or_default().push(table.entered(t, p));
        }
    }
}

/// The rings of this length and longer that were entered on all sound tables of this size.
fn sound_rings(tasks: u16, promises: u16, shortest: usize) -> Entered {
    let mut entered = Entered::new();
    for table in all_tables(tasks, promises) {
        if PAPER.is_sound(&table.tasks, &table.promises) {
            enter_alarms(PAPER, &table, &mut entered);
        }
    }
    entered.retain(|ring, _| ring.len() >= shortest);
    entered
}

/// How many waits were entered.
fn count(entered: &Entered) -> usize {
    entered.values().map(Vec::len).sum()
}

/// The tables that come of what was entered by these rules, in which all of it stands.
fn later(model: Model, steps: &[Step], entered: &Entered, seen: &mut Seen) -> Vec<(Vec<Link>, HashSet<Table>)> {
    let rules = rules(model);
    let mut search_one = |(links, starts): (&Vec<Link>, &Vec<Table>)| {
        let reached = search(&rules, steps, links, starts, seen);
        (links.clone(), reached.expect("every task of the ring still waits on the same promise"))
    };
    entered.iter().map(&mut search_one).collect()
}

/// Takes every get of an outsider whose chain runs into the ring. Tells how many entered a wait, and how many of
/// these by way of another outsider. How many owners the answer counts is left open.
fn enter_outsiders(ring: &[Link], table: &Table, entered: &mut Entered) -> [usize; 2] {
    let mut waits = [0, 0];
    for t in (0..table.tasks.len() as u16).filter(|&t| table.tasks[t as usize] == 1) {
        for p in 0..table.promises.len() as u16 {
            let Some(way) = way_into(ring, table, t, p) else { continue };
            let (mut after, mut report) = (table.clone(), table.report());
            let answer = rules(RINGS_PASS)(&Step::Get { t, p }, &mut after, &mut report);
            assert!(matches!(answer, Answer::Waits(_)), "get {t} {p} on {table:?}");
            assert_eq!(after, table.entered(t, p), "the wait is entered and nothing else changes");
            assert_eq!(report, table.report());
            waits = [waits[0] + 1, waits[1] + usize::from(way.len() > 1)];
            let mut links = [ring, &way].concat();
            links.sort();
            entered.entry(links).or_default().push(after);
        }
    }
    waits
}

/// The sizes that are searched, with the shortest ring: at the largest size the rings of one are left out.
const SIZES: [(u16, u16, usize); 3] = [(3, 3, 1), (4, 2, 1), (4, 3, 2)];

#[test]
fn every_ring_on_sound_tables_stands() {
    let expected: [_; SIZES.len()] = [
        (5130, 39, 4638, [2235018, 774, 954, 774, 180, 3546, 990, 468, 2088]),
        (4208, 20, 3908, [1455348, 384, 600, 384, 192, 3960, 600, 1272, 2760]),
        (12960, 84, 6336, [4678368, 360, 432, 360, 72, 5832, 432, 432, 2352]),
    ];
    for ((tasks, promises, shortest), expected) in SIZES.into_iter().zip(expected) {
        let (entered, steps) = (sound_rings(tasks, promises, shortest), steps(tasks, promises));
        let (mut seen, mut untested) = (Seen::default(), Seen::default());
        later(RINGS_PASS, &steps, &entered, &mut seen);
        assert!(seen.answers.iter().all(|&count| count > 0), "each answer is given");
        assert_eq!(
            (count(&entered), entered.len(), seen.tables, seen.answers),
            expected,
            "{tasks} tasks, {promises} promises"
        );
        later(UNTESTED, &steps, &entered, &mut untested);
        assert_eq!(untested, seen, "the soundness test refuses nothing but rings here");
    }
}

#[test]
fn every_ring_on_any_tables_stands() {
    let mut entered = Entered::new();
    all_tables(3, 3).for_each(|table| enter_alarms(UNTESTED, &table, &mut entered));
    let mut seen = Seen::default();
    later(UNTESTED, &steps(3, 3), &entered, &mut seen);
    assert_eq!((count(&entered), entered.len(), seen.tables), (22500, 39, 21612));
    assert_eq!(seen.answers, [10428762, 1746, 1746, 1746, 5238, 10656, 1782, 1476, 7056]);
}

#[test]
fn outsiders_wait_for_good_too() {
    let expected: [_; SIZES.len()] = [([3366, 216], 198, 3366), ([3720, 240], 144, 3720), ([5760, 144], 576, 5760)];
    for ((tasks, promises, shortest), expected) in SIZES.into_iter().zip(expected) {
        let (entered, steps) = (sound_rings(tasks, promises, shortest), steps(tasks, promises));
        let (mut outside, mut waits, mut seen) = (Entered::new(), [0, 0], Seen::default());
        for (ring, tables) in later(RINGS_PASS, &steps, &entered, &mut Seen::default()) {
            for table in &tables {
                let [all, far] = enter_outsiders(&ring, table, &mut outside);
                waits = [waits[0] + all, waits[1] + far];
            }
        }
        assert!(waits[0] > waits[1] && waits[1] > 0);
        later(RINGS_PASS, &steps, &outside, &mut seen);
        assert!(seen.answers[5] > 0 && seen.answers[8] > 0, "others still wait and end");
        assert_eq!((waits, outside.len(), seen.tables), expected, "{tasks} tasks, {promises} promises");
    }
}

#[test]
fn the_soundness_test_refuses_every_step_on_a_ring() {
    let (entered, steps) = (sound_rings(3, 3, 1), steps(3, 3));
    let mut refused = 0;
    for (_, tables) in later(RINGS_PASS, &steps, &entered, &mut Seen::default()) {
        for before in &tables {
            assert!(!PAPER.is_sound(&before.tasks, &before.promises));
            let (mut after, mut report) = (before.clone(), before.report());
            for step in &steps {
                assert_eq!(rules(PAPER)(step, &mut after, &mut report), Answer::Refused(2), "{step:?}");
                refused += 1;
            }
            assert_eq!((&after, report), (before, before.report()), "nothing is written");
        }
    }
    assert_eq!(refused, 4638 * 484);
}

/// Tasks 0 and 1 wait on each other, task 2 is ready, task 3 was never used and promise 2 never made.
fn ring_of_two() -> (Vec<Link>, Table) {
    (ring_of(&[0, 1, 1, 0]), Table::new(&[17, 16, 1, 0], &[16, 17, 0]))
}

#[test]
fn a_wrong_rule_loosens_a_ring() {
    let (ring, before) = ring_of_two();
    let (steps, starts) = (steps(4, 3), [before.clone()]);
    assert!(search(&rules(RINGS_PASS), &steps, &ring, &starts, &mut Seen::default()).is_ok());
    // A step, the refusal that keeps it off the ring, and what it would do by hand.
    let wrong = [
        (Step::Set { t: 2, p: 0 }, 10, Table::new(&[17, 1, 1, 0], &[1, 17, 0])),
        (Step::Set { t: 0, p: 0 }, 5, Table::new(&[17, 1, 1, 0], &[1, 17, 0])),
        (Step::End { t: 0 }, 5, Table::new(&[2, 1, 1, 0], &[80, 17, 0])),
        (Step::Get { t: 0, p: 0 }, 5, Table::new(&[16, 16, 1, 0], &[16, 17, 0])),
        (Step::Async { t: 0, c: 3, list: vec![0] }, 5, Table::new(&[17, 16, 1, 1], &[19, 17, 0])),
        (Step::Async { t: 2, c: 3, list: vec![0] }, 10, Table::new(&[17, 16, 1, 1], &[19, 17, 0])),
        (Step::Async { t: 2, c: 1, list: vec![] }, 12, Table::new(&[17, 1, 1, 0], &[16, 17, 0])),
        (Step::New { t: 2, p: 0 }, 7, Table::new(&[17, 16, 1, 0], &[18, 17, 0])),
    ];
    for (step, number, after) in wrong {
        let answer = rules(RINGS_PASS)(&step, &mut before.clone(), &mut before.report());
        assert_eq!(answer.words()[0], number, "{step:?}");
        assert!(!stand(&ring, &after), "{step:?}");
        let wrong_rules = |taken: &Step, table: &mut Table, report: &mut [u16]| {
            if (taken, &*table) != (&step, &before) {
                return rules(RINGS_PASS)(taken, table, report);
            }
            table.clone_from(&after);
            // Any answer that is no refusal.
            Answer::Made
        };
        let found = search(&wrong_rules, &steps, &ring, &starts, &mut Seen::default());
        assert_eq!(found, Err((step.clone(), before.clone())));
    }
}

#[test]
fn a_promise_handed_out_of_the_ring_loosens_it() {
    // The tasks of the ring still wait after the wrong async of task 0; then its child sets the promise.
    let (ring, _) = ring_of_two();
    let mut table = Table::new(&[17, 16, 1, 1], &[19, 17, 0]);
    let mut report = table.report();
    assert_eq!(rules(PAPER)(&Step::Set { t: 3, p: 0 }, &mut table, &mut report), Answer::Set(1));
    assert_eq!((table.awaited(1), stand(&ring, &table)), (None, false));
}

/// Numbers that look random and are the same in each run.
struct Random(u64);

impl Random {
    fn below(&mut self, bound: u16) -> u16 {
        self.0 ^= self.0 << 13;
        self.0 ^= self.0 >> 7;
        self.0 ^= self.0 << 17;
        ((self.0 >> 33) % u64::from(bound)) as u16
    }

    /// All numbers below the bound in a random order.
    fn shuffled(&mut self, bound: u16) -> Vec<u16> {
        let mut all: Vec<u16> = (0..bound).collect();
        for at in (1..all.len()).rev() {
            all.swap(at, self.below(at as u16 + 1) as usize);
        }
        all
    }

    /// Tables with any words that have a meaning, many tasks ready and many promises owned.
    fn table(&mut self, tasks: u16, promises: u16) -> Table {
        let any_task = |_| match self.below(8) {
            0 => 0,
            1 => 2,
            2 | 3 => 16 + self.below(promises),
            _ => 1,
        };
        let task_words = (0..tasks).map(any_task).collect();
        let any_promise = |_| match self.below(8) {
            0 | 1 => 0,
            2 => 1,
            3 => 80 + self.below(tasks),
            _ => 16 + self.below(tasks),
        };
        Table { tasks: task_words, promises: (0..promises).map(any_promise).collect() }
    }

    /// Tables and the pairs of a ring that stands in them, but for the first pair, whose task is ready.
    fn nearly_ring(&mut self, tasks: u16, promises: u16) -> (Table, Vec<u16>) {
        let (mut table, owners) = (self.table(tasks, promises), 1 + self.below(tasks.min(promises)) as usize);
        let (of_tasks, of_promises) = (self.shuffled(tasks), self.shuffled(promises));
        let mut pairs = vec![];
        for at in 0..owners {
            let (t, p) = (of_tasks[at], of_promises[at]);
            table.tasks[t as usize] = 16 + p;
            table.promises[p as usize] = 16 + of_tasks[(at + 1) % owners];
            pairs.extend([t, p]);
        }
        table.tasks[pairs[0] as usize] = 1;
        (table, pairs)
    }

    fn step(&mut self, tasks: u16, promises: u16) -> Step {
        let (t, p) = (self.below(tasks + 1), self.below(promises + 1));
        match self.below(16) {
            0 => Step::End { t },
            1..=3 => Step::New { t, p },
            4..=7 => Step::Set { t, p },
            8..=12 => Step::Get { t, p },
            _ => {
                let list = (0..self.below(4)).map(|_| self.below(promises + 1)).collect();
                Step::Async { t, c: self.below(tasks + 1), list }
            }
        }
    }
}

/// Takes random steps after the ring was entered. The ring stands, and with it every outsider that came to wait on it.
/// Tells the accepted steps and the outsiders' waits.
fn walk(random: &mut Random, ring: &[Link], mut table: Table, length: usize) -> [usize; 2] {
    let (tasks, promises) = (table.tasks.len() as u16, table.promises.len() as u16);
    let (mut links, mut accepted, mut waits) = (ring.to_vec(), 0, 0);
    for _ in 0..length {
        let (step, mut report) = (random.step(tasks, promises), table.report());
        let way = match step {
            Step::Get { t, p } if table.tasks.get(t as usize) == Some(&1) => way_into(ring, &table, t, p),
            _ => None,
        };
        let answer = rules(UNTESTED)(&step, &mut table, &mut report);
        accepted += usize::from(!answer.is_refused());
        if let Some(way) = way {
            assert!(matches!(answer, Answer::Waits(_)), "{step:?}");
            links.extend(way);
            waits += 1;
        }
        assert!(stand(&links, &table), "{step:?} loosens {links:?}");
    }
    [accepted, waits]
}

#[test]
fn random_rings_of_larger_tables_stand() {
    let mut random = Random(4013);
    let (mut accepted, mut waits, mut longest) = (0, 0, 0);
    for (tasks, promises, rings) in [(5, 5, 4000), (8, 12, 4000), (20, 30, 1000), (64, 256, 200)] {
        for _ in 0..rings {
            let (table, pairs) = random.nearly_ring(tasks, promises);
            let (mut after, mut report) = (table.clone(), table.report());
            let answer = rules(UNTESTED)(&Step::Get { t: pairs[0], p: pairs[1] }, &mut after, &mut report);
            assert_eq!((answer, &report[..pairs.len()]), (Answer::Cycle(pairs.len() / 2), &pairs[..]));
            assert_eq!(after, table);
            let entered = table.entered(pairs[0], pairs[1]);
            let counts = walk(&mut random, &ring_of(&pairs), entered, 40 * tasks as usize);
            (accepted, waits) = (accepted + counts[0], waits + counts[1]);
            longest = longest.max(pairs.len() / 2);
        }
    }
    assert_eq!((accepted, waits, longest), (32178, 10050, 64));
}

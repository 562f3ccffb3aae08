//! How the time of the soundness test grows with the tables and the chains in them, and that of async with its list.

use crate::scenes::Call;
use crate::sides::{ratio, times};

const READY: u16 = 1;
const ENDED: u16 = 2;
const SET: u16 = 1;
const BASE: u16 = 16;
const BLAMED: u16 = 80;

/// What stands in the tables.
#[derive(Clone, Copy)]
enum Stand {
    /// Every task is ready.
    AllReady,
    /// Every second task has ended.
    HalfEnded,
    /// The first so many tasks wait, each on the next higher one.
    Up(usize),
    /// So many tasks wait, each on the next lower one, down to task 0.
    Down(usize),
    /// Of 64 tasks all but task 31 wait, each on the next higher one and the last on the first: one link leads down.
    Round,
    /// Of 64 tasks all but task 32 wait, in turn on a higher and on a lower one: 0 on 63, that on 1, that on 62.
    Zigzag,
    /// In each eight tasks that follow each other seven wait, each on the next higher one.
    Eights,
}

const ROWS: [(usize, usize, Stand); 22] = [
    (4, 8, Stand::AllReady),
    (16, 64, Stand::AllReady),
    (16, 256, Stand::AllReady),
    (64, 16, Stand::AllReady),
    (64, 64, Stand::AllReady),
    (64, 256, Stand::AllReady),
    (64, 256, Stand::HalfEnded),
    (4, 8, Stand::Up(3)),
    (4, 8, Stand::Down(3)),
    (16, 64, Stand::Up(15)),
    (16, 64, Stand::Down(15)),
    (64, 256, Stand::Up(8)),
    (64, 256, Stand::Down(8)),
    (64, 256, Stand::Up(16)),
    (64, 256, Stand::Down(16)),
    (64, 256, Stand::Up(32)),
    (64, 256, Stand::Down(32)),
    (64, 256, Stand::Up(63)),
    (64, 256, Stand::Down(63)),
    (64, 256, Stand::Round),
    (64, 256, Stand::Zigzag),
    (64, 256, Stand::Eights),
];

impl Stand {
    fn name(self) -> String {
        match self {
            Stand::AllReady => "nobody waits".to_string(),
            Stand::HalfEnded => "nobody waits, half ended".to_string(),
            Stand::Up(waiting) => format!("{waiting} wait, upwards"),
            Stand::Down(waiting) => format!("{waiting} wait, downwards"),
            Stand::Round => "63 wait, one downwards".to_string(),
            Stand::Zigzag => "63 wait, both ways in turn".to_string(),
            Stand::Eights => "chains of 8, upwards".to_string(),
        }
    }

    /// Whom task `t` waits on.
    fn waits_on(self, t: usize) -> Option<usize> {
        match self {
            Stand::AllReady | Stand::HalfEnded => None,
            Stand::Up(waiting) => (t < waiting).then_some(t + 1),
            Stand::Down(waiting) => (1..=waiting).contains(&t).then(|| t - 1),
            Stand::Round => (t != 31).then_some((t + 1) % 64),
            Stand::Zigzag => (t != 32).then_some(if t < 32 { 63 - t } else { 64 - t }),
            Stand::Eights => (t % 8 < 7).then_some(t + 1),
        }
    }

    /// Promise p is task p's; those past the last task are in turn set and some task's.
    fn tables(self, task_count: usize, promise_count: usize) -> (Vec<u16>, Vec<u16>) {
        let ended = |t: usize| matches!(self, Stand::HalfEnded) && t % 2 == 1;
        let task = |t| match self.waits_on(t) {
            Some(u) => BASE + u as u16,
            None if ended(t) => ENDED,
            None => READY,
        };
        let promise = |p: usize| match p / 2 % task_count {
            _ if p < task_count => owed(p, ended(p)),
            t if p.is_multiple_of(2) => owed(t, ended(t)),
            _ => SET,
        };
        ((0..task_count).map(task).collect(), (0..promise_count).map(promise).collect())
    }
}

/// The word of a promise that is owed by task `t`, or was when that ended.
fn owed(t: usize, ended: bool) -> u16 {
    t as u16 + if ended { BLAMED } else { BASE }
}

/// Measures and prints the soundness test alone.
pub fn soundness_table() {
    println!("\nnanoseconds per soundness test");
    println!("{:>3} {:>4}  {:<26} {:>9} {:>9} {:>14}", "T", "P", "tables", "library", "plain", "library/plain");
    for (task_count, promise_count, stand) in ROWS {
        let (tasks, promises) = stand.tables(task_count, promise_count);
        let [library, plain, _] = times(&tasks, &promises, &Call::IsSound, 1);
        println!(
            "{task_count:>3} {promise_count:>4}  {:<26} {library:>9.0} {plain:>9.0} {:>14}",
            stand.name(),
            ratio(library, plain)
        );
    }
}

/// Measures and prints async with lists of some lengths, taken and refused for the last entry. Task 0 owns every
/// promise, and no other task was used.
pub fn list_table() {
    let mut tasks = vec![0; 64];
    tasks[0] = READY;
    let promises = vec![BASE; 256];
    println!("\nnanoseconds per async, T=64 P=256; a refused list names its first promise again at its end");
    println!(
        "{:>7}  {:<8} {:>9} {:>9} {:>15} {:>14} {:>16}",
        "entries", "answer", "library", "plain", "plain, no test", "library/plain", "library/no test"
    );
    for entries in [0, 1, 16, 64, 256] {
        for (answer, number) in [("started", 107), ("refused", 13)] {
            let mut list: Vec<u16> = (0..entries as u16).map(|place| (place * 37) % 256).collect();
            if number == 13 {
                if entries < 2 {
                    continue;
                }
                list[entries - 1] = list[0];
            }
            let [library, plain, untested] = times(&tasks, &promises, &Call::Async { t: 0, c: 1, list }, number);
            println!(
                "{entries:>7}  {answer:<8} {library:>9.0} {plain:>9.0} {untested:>15.0} {:>14} {:>16}",
                ratio(library, plain),
                ratio(library, untested)
            );
        }
    }
}

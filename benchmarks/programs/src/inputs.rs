//! The inputs on which whole programs are measured.

use crate::formless::{broken_lines, random_bytes};
use crate::long_lists::lists_of_256;
use cases::random::Random;
use cases::sound::{READY, SET};
use cases::step_choice::{choose, Taste};
use cases::trace_writer::TraceWriter;
use model::{Step, BLAMED_BASE as BLAMED, OWNED_BASE as OWNED, WAITS_BASE as WAITS};

type Input = (&'static str, fn() -> Vec<u8>);

/// Every input, with its name, made as it is needed.
pub fn all() -> impl Iterator<Item = (&'static str, Vec<u8>)> {
    let inputs: [Input; 8] = [
        ("gets of set promises, T=64 P=256", gets_of_set),
        ("gets of set promises beside a chain of 63", gets_beside_chain),
        ("mixed, T=64 P=256", mixed),
        ("mixed, T=8 P=32", mixed_small),
        ("rings of 64 asked for again and again", rings),
        ("async lists of 256 promises", lists_of_256),
        ("bad lines: random bytes", random_bytes),
        ("bad lines: broken at any place", broken_lines),
    ];
    inputs.into_iter().map(|(name, make)| (name, make()))
}

/// Every task started, every promise made and set, then 900,000 gets.
fn gets_of_set() -> Vec<u8> {
    let mut trace = TraceWriter::opened(64, 256);
    for p in 0..256 {
        trace.step(&Step::New { t: 0, p });
        trace.step(&Step::Set { t: 0, p });
    }
    for c in 1..64 {
        trace.step(&Step::Async { t: 0, c, list: vec![] });
    }
    let mut r = Random::new(1);
    for _ in 0..900_000 {
        push_line(&mut trace.bytes, &format!("get\t{}\t{}", r.below(64), r.below(256)));
    }
    trace.bytes
}

/// Tasks 0 to 63, each waiting on the next one's promise; task 63 is ready and owns promise 63.
fn chain_of_63() -> TraceWriter {
    let mut trace = TraceWriter::opened(64, 256);
    for p in 0..64 {
        trace.step(&Step::New { t: 0, p });
    }
    for t in 1..64 {
        trace.step(&Step::Async { t: 0, c: t, list: vec![t] });
    }
    for t in 0..63 {
        trace.step(&Step::Get { t, p: t + 1 });
    }
    trace
}

fn gets_beside_chain() -> Vec<u8> {
    let mut trace = chain_of_63();
    for p in 64..256 {
        trace.step(&Step::New { t: 63, p });
        trace.step(&Step::Set { t: 63, p });
    }
    let mut r = Random::new(2);
    for _ in 0..900_000 {
        push_line(&mut trace.bytes, &format!("get\t63\t{}", 64 + r.below(192)));
    }
    trace.bytes
}

/// The last task of a chain gets the first one's promise: a cycle of 64, with all its pairs.
fn rings() -> Vec<u8> {
    let mut trace = chain_of_63();
    for _ in 0..100_000 {
        push_line(&mut trace.bytes, "get\t63\t0");
    }
    trace.bytes
}

fn mixed() -> Vec<u8> {
    mixed_trace(64, 256, 400_000)
}

fn mixed_small() -> Vec<u8> {
    mixed_trace(8, 32, 400_000)
}

/// Most tasks started and owning promises, then gets that tell a state or a cycle, refusals of many
/// kinds and lines without form; among them, spread thin so that the session lasts, all other steps.
fn mixed_trace(tasks: usize, promises: usize, lines: usize) -> Vec<u8> {
    let mut r = Random::new(3);
    let mut trace = TraceWriter::opened(tasks, promises);
    for p in 0..promises * 3 / 4 {
        trace.step(&Step::New { t: 0, p: p as u16 });
    }
    for c in 1..tasks * 7 / 8 {
        let list = (0..promises * 3 / 4).filter(|p| p % tasks == c).map(|p| p as u16).collect();
        trace.step(&Step::Async { t: 0, c: c as u16, list });
    }
    let changes = tasks + promises;
    for _ in 0..lines {
        let (task_words, promise_words) = trace.tables();
        let ready: Vec<u16> = (0..tasks as u16).filter(|&t| task_words[t as usize] == READY).collect();
        let t = r.pick_any(&ready).unwrap_or(0);
        if r.below(lines) < changes {
            let step = changing_step(&mut r, &trace, t, ready.len());
            trace.step(&step);
            continue;
        }
        match r.below(20) {
            0 => trace.line(b"get\t0\t00"),
            1 => trace.blanks("open 3 4"),
            2 => trace.step(&Step::Async { t, c: t, list: (0..r.below(40) as u16).collect() }),
            3 | 4 => trace.step(&Step::New { t, p: r.below(promises / 2) as u16 }),
            5 => trace.step(&Step::Set { t, p: foreign_promise(&mut r, promise_words, t) }),
            6 => trace.step(&Step::New { t: r.number(tasks), p: promises as u16 }),
            7 | 8 => trace.step(&Step::Get { t, p: ring_promise(&mut r, task_words, promise_words, t) }),
            _ => trace.step(&Step::Get { t, p: quiet_promise(&mut r, promise_words, t) }),
        }
    }
    trace.bytes
}

/// A step that most likely changes a table, and leaves enough tasks ready.
fn changing_step(r: &mut Random, trace: &TraceWriter, t: u16, ready: usize) -> Step {
    let (tasks, promises) = trace.tables();
    if ready * 2 > tasks.len() {
        if r.once_in(12) {
            return Step::End { t };
        }
        return choose(r, Taste([4, 2, 5, 2, 0]), tasks, promises);
    }
    choose(r, Taste([2, 6, 0, 2, 0]), tasks, promises)
}

/// A promise that is closed or owned by `t`: getting it changes nothing.
fn quiet_promise(r: &mut Random, promises: &[u16], t: u16) -> u16 {
    any_promise(r, promises, |word| word == OWNED + t || word == SET || word >= BLAMED)
}

/// A promise that `t` may not set.
fn foreign_promise(r: &mut Random, promises: &[u16], t: u16) -> u16 {
    any_promise(r, promises, |word| word != OWNED + t)
}

/// A promise of a task that waits on one of `t`, so that getting it is a cycle; or one of `t` itself.
fn ring_promise(r: &mut Random, tasks: &[u16], promises: &[u16], t: u16) -> u16 {
    let waits_on_t = |word: u16| {
        let awaited = (OWNED..BLAMED).contains(&word).then(|| tasks[(word - OWNED) as usize].wrapping_sub(WAITS));
        awaited.is_some_and(|p| promises.get(p as usize) == Some(&(OWNED + t)))
    };
    match promises.iter().position(|&word| waits_on_t(word)) {
        Some(p) => p as u16,
        None => quiet_promise(r, promises, t),
    }
}

/// A promise whose word fits, looked for from any place on; the one past the last if none does.
fn any_promise(r: &mut Random, promises: &[u16], fits: impl Fn(u16) -> bool) -> u16 {
    let start = r.below(promises.len());
    let mut from_start = (start..promises.len()).chain(0..start);
    from_start.find(|&p| fits(promises[p])).unwrap_or(promises.len()) as u16
}

fn push_line(bytes: &mut Vec<u8>, line: &str) {
    bytes.extend_from_slice(line.as_bytes());
    bytes.push(b'\n');
}

//! Families of random traces for the program. A trace is known by its seed alone.

use crate::bad_lines::spoil_line;
use crate::blamed::{actor, blamed_step};
use crate::long_lines::{line_of_length, FLAWS, LEAST_LENGTH};
use crate::random::Random;
use crate::step_choice::{choose, wild, Taste};
use crate::trace_writer::{step_line, TraceWriter};
use model::{Step, LINE_BYTES};

type Family = (&'static str, fn(&mut Random) -> Vec<u8>);

const FAMILIES: [Family; 12] = [
    ("walk", walk),
    ("walk", walk),
    ("walk with bad lines", spoiled_walk),
    ("bad lines", bad_lines),
    ("chain", random_chain),
    ("waiters", waiters),
    ("async lists", async_lists),
    ("blamed", blamed),
    ("lines round the limit", limit_lines),
    ("opens", opens),
    ("any bytes", any_bytes),
    ("wild numbers", wild_numbers),
];

/// The trace with this seed, and the name of its family.
pub fn random_trace(seed: u64) -> (&'static str, Vec<u8>) {
    let mut r = Random::new(seed);
    let (name, make) = r.pick(&FAMILIES);
    let mut bytes = make(&mut r);
    match r.below(6) {
        0 | 1 => {
            bytes.pop();
        }
        2 => bytes.extend_from_slice(r.pick(&[&b"\n"[..], b"get\t0\t0", b"\n\n", b"x", b"\t", b"\r"])),
        _ => {}
    }
    (name, bytes)
}

fn walk(r: &mut Random) -> Vec<u8> {
    let mut trace = TraceWriter::opened(r.task_count(), r.promise_count());
    let taste = Taste::any(r);
    for _ in 0..10 + r.below(300) {
        let (tasks, promises) = trace.tables();
        let any_ready = tasks.contains(&1);
        let step = choose(r, taste, tasks, promises);
        trace.step(&step);
        if !any_ready && r.once_in(4) {
            break;
        }
    }
    trace.bytes
}

fn spoiled_walk(r: &mut Random) -> Vec<u8> {
    let mut trace = TraceWriter::unopened();
    if !r.once_in(4) {
        trace = TraceWriter::opened(r.task_count(), r.promise_count());
    }
    let taste = Taste::any(r);
    for _ in 0..10 + r.below(150) {
        let (tasks, promises) = trace.tables();
        let line = match r.below(20) {
            0 => format!("open\t{}\t{}", r.number(64), r.number(256)).into_bytes(),
            1 => Vec::new(),
            _ if tasks.is_empty() => step_line(&wild(r, 3, 3)),
            _ => step_line(&choose(r, taste, tasks, promises)),
        };
        let line = if r.once_in(3) { spoil_line(r, &line) } else { line };
        trace.line(&line);
    }
    trace.bytes
}

/// Bad lines one after another, before open or after it: each one a good line of any numbers, spoiled.
fn bad_lines(r: &mut Random) -> Vec<u8> {
    let mut trace = if r.once_in(4) { TraceWriter::unopened() } else { TraceWriter::opened(3, 200) };
    for _ in 0..50 + r.below(100) {
        let good = match r.below(6) {
            0 => format!("open\t{}\t{}", r.number(64), r.number(256)).into_bytes(),
            _ => step_line(&wild(r, 64, 256)),
        };
        let bad = spoil_line(r, &good);
        trace.line(&bad);
    }
    trace.bytes
}

fn random_chain(r: &mut Random) -> Vec<u8> {
    let tasks = r.task_count();
    let promises = tasks + r.below(257 - tasks);
    let length = 1 + r.below(tasks);
    let mut trace = chain_trace(r, tasks, promises, length);
    let taste = Taste::any(r);
    for _ in 0..r.below(80) {
        let (tasks, promises) = trace.tables();
        let step = choose(r, taste, tasks, promises);
        trace.step(&step);
    }
    trace.bytes
}

/// A chain of `length` links, built in any order; its end then gets its start, and it is taken apart.
pub(crate) fn chain_trace(r: &mut Random, tasks: usize, promises: usize, length: usize) -> TraceWriter {
    let mut trace = TraceWriter::opened(tasks, promises);
    let links: Vec<u16> = r.order(tasks)[..length].iter().map(|&t| t as u16).collect();
    let owned: Vec<u16> = r.order(promises)[..length].iter().map(|&p| p as u16).collect();
    for &p in &owned {
        trace.step(&Step::New { t: 0, p });
    }
    for (&t, &p) in links.iter().zip(&owned) {
        trace.step(&Step::Async { t: 0, c: t, list: vec![p] });
    }
    for place in r.order(length - 1) {
        trace.step(&Step::Get { t: links[place], p: owned[place + 1] });
    }
    let (end, last) = (links[length - 1], owned[length - 1]);
    for &p in &owned {
        trace.step(&Step::Get { t: end, p });
    }
    if let Some(beside) = (0..tasks as u16).find(|t| !links.contains(t)) {
        trace.step(&Step::Async { t: end, c: beside, list: vec![] });
        trace.step(&Step::Get { t: beside, p: owned[r.below(length)] });
    }
    if r.once_in(2) {
        trace.step(&Step::Set { t: end, p: last });
    }
    for &t in links.iter().rev() {
        trace.step(&Step::End { t });
    }
    trace
}

/// Many tasks that wait on few promises of one task, which then sets them or ends.
fn waiters(r: &mut Random) -> Vec<u8> {
    let (tasks, promises) = (2 + r.below(63), 1 + r.below(256));
    let mut trace = TraceWriter::opened(tasks, promises);
    let few = 1 + r.below(promises.min(5));
    for p in r.order(promises).into_iter().take(if r.once_in(3) { promises } else { few }) {
        trace.step(&Step::New { t: 0, p: p as u16 });
    }
    let made: Vec<u16> = (0..promises as u16).filter(|&p| trace.tables().1[p as usize] != 0).collect();
    for t in r.order(tasks) {
        trace.step(&Step::Async { t: 0, c: t as u16, list: vec![] });
        let p = r.pick(&made);
        trace.step(&Step::Get { t: t as u16, p });
    }
    for _ in 0..r.below(3) {
        let p = r.pick(&made);
        trace.step(&Step::Set { t: 0, p });
    }
    trace.step(&Step::End { t: 0 });
    for &p in made.iter().take(5) {
        trace.step(&Step::Get { t: r.below(tasks) as u16, p });
    }
    trace.bytes
}

/// Async lines with long lists, good ones and ones that are bad at some place.
fn async_lists(r: &mut Random) -> Vec<u8> {
    let (tasks, promises) = (2 + r.below(63), 1 + r.below(256));
    let mut trace = TraceWriter::opened(tasks, promises);
    for p in r.order(promises) {
        if !r.once_in(16) {
            trace.step(&Step::New { t: 0, p: p as u16 });
        }
    }
    for _ in 0..20 {
        let t = r.below(tasks.min(4)) as u16;
        let mut list: Vec<u16> = (0..promises as u16).filter(|&p| trace.tables().1[p as usize] == 16 + t).collect();
        r.shuffle(&mut list);
        list.truncate(r.below(list.len() + 1));
        for _ in 0..r.below(3) {
            let place = r.below(list.len() + 1);
            let repeat = r.pick_any(&list).unwrap_or(0);
            let entry = if r.once_in(2) { repeat } else { r.number(promises) };
            list.insert(place, entry);
        }
        trace.step(&Step::Async { t, c: r.number(tasks), list });
    }
    trace.bytes
}

/// Promises handed to children that end, set and listed by those that are left.
fn blamed(r: &mut Random) -> Vec<u8> {
    let (tasks, promises) = (r.task_count().max(2), r.promise_count().max(2));
    let mut trace = TraceWriter::opened(tasks, promises);
    for p in r.order(promises) {
        trace.step(&Step::New { t: 0, p: p as u16 });
    }
    let children = r.order(tasks);
    for &c in &children[..1 + r.below(tasks)] {
        let list = (0..promises as u16).filter(|&p| trace.tables().1[p as usize] == 16 && r.once_in(4)).collect();
        trace.step(&Step::Async { t: 0, c: c as u16, list });
        if r.once_in(2) {
            trace.step(&Step::End { t: c as u16 });
        }
    }
    let taste = Taste::any(r);
    for _ in 0..10 + r.below(60) {
        let (tasks, promises) = trace.tables();
        let step = match r.below(12) {
            0 => Step::End { t: actor(r, tasks, promises) },
            1 => choose(r, taste, tasks, promises),
            _ => blamed_step(r, tasks, promises),
        };
        trace.step(&step);
    }
    trace.bytes
}

/// Lines of about 2,048 bytes and much longer ones, before open and after it.
fn limit_lines(r: &mut Random) -> Vec<u8> {
    let mut trace = TraceWriter::unopened();
    let open_at = r.below(6);
    for index in 0..12 {
        if index == open_at {
            trace.blanks("open 3 200");
            trace.blanks("new 0 1");
        }
        let length = match r.below(8) {
            0..=4 => LINE_BYTES - 4 + r.below(9),
            5 => 2 * LINE_BYTES - 2 + r.below(5),
            6 => r.below(3 * LINE_BYTES),
            _ => r.pick(&[65534, 65535, 65536, 65537]),
        };
        let line = match r.below(8) {
            0 => vec![b'\t'; length],
            1 => vec![r.bits() as u8 | 0x40; length],
            _ => {
                let flaw = r.pick(&FLAWS);
                line_of_length(r, 0, 1, length.max(LEAST_LENGTH), flaw)
            }
        };
        if index > 0 {
            trace.blanks("get 0 1");
        }
        trace.line(&line);
    }
    trace.bytes
}

/// Opens of every kind, with steps before, between and after them.
fn opens(r: &mut Random) -> Vec<u8> {
    let mut trace = TraceWriter::unopened();
    for _ in 0..2 + r.below(12) {
        match r.below(4) {
            0 => trace.step(&wild(r, 2, 2)),
            1 => trace.blanks("end 0"),
            _ => {
                let tasks = r.pick(&[0, 1, 2, 63, 64, 65, 66, 256, 65535]);
                let promises = r.pick(&[0, 1, 255, 256, 257, 258, 65535]);
                trace.blanks(&format!("open {tasks} {promises}"));
            }
        }
    }
    let (tasks, promises) = (trace.tables().0.len() as u16, trace.tables().1.len() as u16);
    for p in [promises.wrapping_sub(1), promises] {
        trace.step(&Step::New { t: 0, p });
        trace.step(&Step::Get { t: 0, p });
    }
    for c in [tasks.wrapping_sub(1), tasks] {
        trace.step(&Step::Async { t: 0, c, list: vec![] });
        trace.step(&Step::End { t: c });
    }
    trace.bytes
}

/// Bytes of every value, with lines ended often, among lines that are well formed.
fn any_bytes(r: &mut Random) -> Vec<u8> {
    let mut trace = TraceWriter::opened(2, 2);
    for _ in 0..r.below(60) {
        let length = r.below(24);
        let few = r.once_in(2);
        let line: Vec<u8> = (0..length).map(|_| if few { r.pick(b"\t\t019newstgt") } else { r.bits() as u8 }).collect();
        for part in line.split(|&byte| byte == b'\n') {
            trace.line(part);
        }
        trace.blanks("new 0 1");
    }
    trace.bytes
}

fn wild_numbers(r: &mut Random) -> Vec<u8> {
    let (tasks, promises) = (r.task_count(), r.promise_count());
    let mut trace = TraceWriter::opened(tasks, promises);
    for _ in 0..100 {
        trace.step(&wild(r, tasks, promises));
    }
    trace.bytes
}

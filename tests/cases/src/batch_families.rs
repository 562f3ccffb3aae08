//! Families of random batches. A batch is known by its seed alone.

use crate::batch_case::BatchCase;
use crate::batch_writer::{passing, Writer};
use crate::blamed::{actor, blamed_step, blamed_tables};
use crate::damage::{damage, ring};
use crate::random::Random;
use crate::sound::{chain, owned_by, random_tables, Words, READY};
use crate::step_choice::{choose, wild, Taste};
use model::batch::{ASYNC, END, RECORD_WORDS};
use model::{Model, Step};

type Family = (&'static str, fn(&mut Random) -> BatchCase);

const FAMILIES: [Family; 18] = [
    ("walk", walk),
    ("walk", walk),
    ("walk", walk),
    ("sound tables", sound_tables),
    ("sound tables", sound_tables),
    ("sound tables", sound_tables),
    ("rings", rings),
    ("rings", rings),
    ("parts", parts),
    ("parts", parts),
    ("blamed", blamed),
    ("blamed", blamed),
    ("damaged tables", damaged_tables),
    ("ring standing", ring_standing),
    ("bounds", bounds),
    ("wild records", wild_records),
    ("wild records", wild_records),
    ("large", large),
];

/// The batch with this seed, and the name of its family.
pub fn random_batch(seed: u64) -> (&'static str, BatchCase) {
    let mut r = Random::new(seed);
    let (name, make) = r.pick(&FAMILIES);
    (name, make(&mut r))
}

/// Writes a walk of this many steps over the tables, now and then with a part that passes the list.
fn write_walk(r: &mut Random, writer: &mut Writer, words: &Words, length: usize) {
    let mut now = words.clone();
    let taste = Taste::any(r);
    let mut report = vec![0; now.promises.len() + 2 * now.tasks.len()];
    for _ in 0..length {
        let step = if r.once_in(12) {
            wild(r, now.tasks.len(), now.promises.len())
        } else {
            choose(r, taste, &now.tasks, &now.promises)
        };
        match step {
            Step::Async { t, c, .. } if r.once_in(6) => writer.add_passing(t, c),
            _ => {
                Model::PAPER.step(&step, &mut now.tasks, &mut now.promises, &mut report);
                writer.add(r, &step);
            }
        }
    }
}

fn walk_from(r: &mut Random, words: Words, length: usize) -> BatchCase {
    let mut writer = Writer::default();
    write_walk(r, &mut writer, &words, length);
    writer.lend(r, words)
}

/// A walk, mostly of accepted steps, from fresh tables.
fn walk(r: &mut Random) -> BatchCase {
    let (tasks, promises) = (r.task_count(), r.promise_count());
    let length = r.below(if tasks > 8 { 30 } else { 20 });
    walk_from(r, Words::fresh(tasks, promises), length)
}

fn sound_tables(r: &mut Random) -> BatchCase {
    let (tasks, promises) = (r.task_count(), r.promise_count());
    let words = random_tables(r, tasks, promises);
    let length = r.below(10);
    walk_from(r, words, length)
}

fn damaged_tables(r: &mut Random) -> BatchCase {
    let (tasks, promises) = (r.task_count(), r.promise_count());
    let mut words = random_tables(r, tasks, promises);
    damage(r, &mut words);
    let length = r.below(5);
    walk_from(r, words, length)
}

fn ring_standing(r: &mut Random) -> BatchCase {
    let tasks = r.task_count();
    let promises = tasks + r.below(257 - tasks);
    let length = 1 + r.below(tasks);
    let words = ring(r, tasks, promises, length);
    let length = r.below(5);
    walk_from(r, words, length)
}

/// A chain that is got by its end, which alarms, and by others, and then taken apart.
fn rings(r: &mut Random) -> BatchCase {
    let tasks = r.task_count();
    let promises = tasks + r.below(257 - tasks);
    let length = 1 + r.below(tasks);
    let chain = chain(r, tasks, promises, length);
    let end = chain.links[length - 1] as u16;
    let beside = chain.beside.map_or(end, |t| t as u16);
    let last = chain.promises[length - 1] as u16;
    let mut writer = Writer::default();
    for _ in 0..1 + r.below(8) {
        let p = chain.promises[r.below(length)] as u16;
        let step = match r.below(10) {
            0..=2 => Step::Get { t: end, p: chain.promises[0] as u16 },
            3 => Step::Get { t: end, p },
            4 | 5 => Step::Get { t: beside, p },
            6 => Step::Set { t: end, p: last },
            7 => Step::End { t: end },
            _ => wild(r, tasks, promises),
        };
        writer.add(r, &step);
        if r.once_in(6) {
            writer.add_passing(beside, r.number(tasks));
        }
    }
    writer.lend(r, chain.words)
}

/// Sets and asyncs on promises that are blamed from the start or by an end within the call.
fn blamed(r: &mut Random) -> BatchCase {
    let words = blamed_tables(r);
    let mut now = words.clone();
    let mut report = vec![0; now.promises.len() + 2 * now.tasks.len()];
    let mut writer = Writer::default();
    let taste = Taste::any(r);
    for _ in 0..1 + r.below(14) {
        let step = match r.below(10) {
            0 | 1 => Step::End { t: actor(r, &now.tasks, &now.promises) },
            2 => choose(r, taste, &now.tasks, &now.promises),
            _ => blamed_step(r, &now.tasks, &now.promises),
        };
        if let Step::Async { t, c, .. } = step {
            if r.once_in(4) {
                writer.add_passing(t, c);
            }
        }
        Model::PAPER.step(&step, &mut now.tasks, &mut now.promises, &mut report);
        writer.add(r, &step);
    }
    writer.lend(r, words)
}

/// Asyncs of one task that owns everything, over one list, with parts in it, at its end and past it.
fn parts(r: &mut Random) -> BatchCase {
    let (tasks, promises) = (2 + r.below(20), 1 + r.below(40));
    let mut words = Words::fresh(tasks, promises);
    words.promises.fill(owned_by(0));
    words.tasks[tasks - 1] = r.pick(&[0, READY]);
    let entries = r.below(2 * promises);
    let mut list: Vec<u16> = r.order(promises).into_iter().map(|p| p as u16).cycle().take(entries).collect();
    if r.once_in(4) {
        list.push(r.number(promises));
    }
    let mut steps = Vec::new();
    for c in 1..=1 + r.below(tasks) as u16 {
        let start = r.below(list.len() + 1);
        let (start, length) = match r.below(6) {
            0 | 1 => passing(r, list.len()),
            2 => (start as u16, (list.len() - start) as u16),
            _ => (start as u16, r.below((list.len() - start + 1).min(4)) as u16),
        };
        let kind = if r.once_in(5) { r.below(5) as u16 } else { ASYNC };
        let t = if r.once_in(8) { r.number(tasks) } else { 0 };
        steps.extend([kind, t, c, start, length]);
    }
    let mut case = Writer::default().lend(r, words);
    let records = steps.len() / RECORD_WORDS;
    let spare = r.below(3);
    case.report = r.words(records * (promises + 2 * tasks) + spare);
    case.answers = r.words(4 * records + spare);
    BatchCase { steps, list, ..case }
}

/// T, P, records and room at and around their bounds.
fn bounds(r: &mut Random) -> BatchCase {
    let tasks = r.pick(&[0, 1, 1, 2, 63, 64, 64, 65, 66]);
    let promises = r.pick(&[0, 1, 2, 255, 256, 256, 257, 258]);
    let mut words = random_tables(r, tasks.clamp(1, 64), promises.min(256));
    words.tasks.resize(tasks, 0);
    words.promises.resize(promises, 0);
    if tasks > 0 && r.once_in(4) {
        damage(r, &mut words);
    }
    let records = r.pick(&[0, 1, 2, 3, 3, 3, 7, 255, 256, 257]);
    let mut writer = Writer::default();
    for _ in 0..records {
        let step = wild(r, tasks, promises);
        writer.add(r, &step);
    }
    let mut case = writer.lend(r, words);
    let one = promises + 2 * tasks;
    let fewer = |room: usize, fewer: usize| room.saturating_sub(fewer);
    let (room, answers) = (records * one, 4 * records);
    let room = r.pick(&[room, room, room, room, room + 1, fewer(room, 1), fewer(room, 2), fewer(room, one), one]);
    let answers = r.pick(&[answers, answers, answers, answers, answers + 1, fewer(answers, 1), fewer(answers, 4)]);
    case.report = r.words(room);
    case.answers = r.words(answers);
    case
}

/// Records of any words, kinds mostly known, over small tables that are often sound.
fn wild_records(r: &mut Random) -> BatchCase {
    let (tasks, promises) = (1 + r.below(5), r.below(6));
    let words = random_tables(r, tasks, promises);
    let list_length = r.below(7);
    let list: Vec<u16> = (0..list_length).map(|_| r.number(promises)).collect();
    let mut steps = Vec::new();
    let records = r.below(9);
    for _ in 0..records {
        let kind = if r.once_in(40) { unknown_kind(r) } else { r.below(5) as u16 };
        let other = if kind == ASYNC { r.number(tasks) } else { r.number(promises) };
        steps.extend([kind, r.number(tasks), other, r.number(list_length), r.number(list_length)]);
    }
    if r.once_in(12) {
        let odd = 1 + r.below(4);
        steps.extend(r.words(odd).into_iter().map(|word| word % 5));
    }
    let mut case = Writer::default().lend(r, words);
    case.report = r.words((records + 1) * (promises + 2 * tasks));
    case.answers = r.words(4 * (records + 1));
    BatchCase { steps, list, ..case }
}

/// A kind word above the last one, some of which are a kind in their lower 8 bits.
fn unknown_kind(r: &mut Random) -> u16 {
    let any = (END + 1).max(r.bits() as u16);
    r.pick(&[END + 1, END + 1, END + 2, 255, 256, 257, 258, 259, 260, 261, 32768, 65535, any])
}

/// As many records as a batch may have, or nearly, mostly over the largest tables.
fn large(r: &mut Random) -> BatchCase {
    let (tasks, promises) = r.pick(&[(64, 256), (64, 256), (63, 255), (16, 64), (3, 5)]);
    let words = if r.once_in(2) { Words::fresh(tasks, promises) } else { random_tables(r, tasks, promises) };
    let length = r.pick(&[60, 100, 255, 256, 256]);
    walk_from(r, words, length)
}

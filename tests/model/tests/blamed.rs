//! Refusal 17: a set or an async on a blamed promise tells the blamed task, and 9 is for a set promise alone.

use model::batch::{Batch, ASYNC, END, GET, NEW, SET};
use model::{Answer, Model, Step};

const PAPER: Model = Model::PAPER;
const MARK: u16 = 7777;

/// Tasks 0 and 3 are ready, 1 and 2 have ended, 4 waits on promise 0, 5 was never used.
const TASKS: [u16; 6] = [1, 2, 2, 1, 16, 0];
/// Promises 0 and 1 are task 0's, 2 is task 3's, 3 is set, 4 is blamed on 1, 5 and 6 on 2, 7 was never made.
const PROMISES: [u16; 8] = [16, 16, 19, 1, 81, 82, 82, 0];

/// The words of the answer to a step on these tables, which a refusal leaves as they were, with the report.
fn answer_on(tasks: &[u16], promises: &[u16], step: &Step) -> [u16; 4] {
    let (mut t, mut p) = (tasks.to_vec(), promises.to_vec());
    let mut report = vec![MARK; promises.len() + 2 * tasks.len()];
    let answer = PAPER.step(step, &mut t, &mut p, &mut report);
    if answer.is_refused() {
        assert_eq!((&t[..], &p[..]), (tasks, promises), "{step:?}");
        assert!(report.iter().all(|&word| word == MARK), "{step:?}");
    }
    answer.words()
}

fn set(t: u16, p: u16) -> [u16; 4] {
    answer_on(&TASKS, &PROMISES, &Step::Set { t, p })
}

/// An async of the never used task 5.
fn start(t: u16, list: &[u16]) -> [u16; 4] {
    start_child(t, 5, list)
}

fn start_child(t: u16, c: u16, list: &[u16]) -> [u16; 4] {
    answer_on(&TASKS, &PROMISES, &Step::Async { t, c, list: list.to_vec() })
}

#[test]
fn set_tells_the_blamed_task() {
    for t in [0, 3] {
        assert_eq!(set(t, 4), [17, 1, 0, 0], "by {t}");
        assert_eq!(set(t, 5), [17, 2, 0, 0], "by {t}");
        assert_eq!(set(t, 6), [17, 2, 0, 0], "by {t}");
    }
}

#[test]
fn nine_is_for_a_set_promise_alone() {
    assert_eq!((set(0, 3), set(3, 3)), ([9, 0, 0, 0], [9, 0, 0, 0]));
    assert_eq!((start(0, &[3]), start(3, &[2, 3])), ([9, 0, 0, 0], [9, 1, 0, 0]));
}

#[test]
fn set_in_order() {
    // The acting task comes first: one past the tables, never used, the blamed one itself, one that waits.
    assert_eq!(set(6, 4), [3, 0, 0, 0]);
    assert_eq!(set(5, 4), [4, 0, 0, 0]);
    assert_eq!(set(1, 4), [4, 0, 0, 0]);
    assert_eq!(set(2, 4), [4, 0, 0, 0]);
    assert_eq!(set(4, 4), [5, 0, 0, 0]);
    // Then the promise: past the tables, never made; 10 stays for what another task owns.
    assert_eq!(set(0, 8), [6, 0, 0, 0]);
    assert_eq!(set(0, 7), [8, 0, 0, 0]);
    assert_eq!(set(0, 2), [10, 0, 0, 0]);
    assert_eq!(set(0, 0), [102, 1, 0, 0]);
}

#[test]
fn damage_and_bounds_come_first() {
    let step = Step::Set { t: 0, p: 4 };
    let mut damaged = PROMISES;
    damaged[4] = 83;
    assert_eq!(answer_on(&TASKS, &damaged, &step), [2, 0, 0, 0], "blamed on a live task");
    let mut report = [MARK; 19];
    assert_eq!(PAPER.step(&step, &mut TASKS.clone(), &mut PROMISES.clone(), &mut report), Answer::Refused(1));
}

#[test]
fn async_tells_place_and_task() {
    assert_eq!(start(0, &[4]), [17, 0, 1, 0]);
    assert_eq!(start(0, &[0, 4]), [17, 1, 1, 0]);
    assert_eq!(start(0, &[0, 1, 5]), [17, 2, 2, 0]);
    assert_eq!(start(0, &[0, 5, 1]), [17, 1, 2, 0]);
    assert_eq!(start(3, &[5]), [17, 0, 2, 0]);
    assert_eq!(start(3, &[2, 4]), [17, 1, 1, 0]);
    // The place stands before the task, whichever is larger.
    assert_eq!(start(0, &[0, 1, 4]), [17, 2, 1, 0]);
    assert_eq!(start(0, &[6]), [17, 0, 2, 0]);
}

#[test]
fn the_first_bad_entry_counts() {
    assert_eq!(start(0, &[4, 5]), [17, 0, 1, 0]);
    assert_eq!(start(0, &[5, 4]), [17, 0, 2, 0]);
    assert_eq!(start(0, &[0, 4, 5, 6]), [17, 1, 1, 0]);
    for (other, number) in [(8, 6), (7, 8), (3, 9), (2, 10)] {
        assert_eq!(start(0, &[other, 4]), [number, 0, 0, 0]);
        assert_eq!(start(0, &[4, other]), [17, 0, 1, 0]);
        assert_eq!(start(0, &[0, other, 4]), [number, 1, 0, 0]);
        assert_eq!(start(0, &[0, 4, other]), [17, 1, 1, 0]);
    }
    // An entry that repeats an earlier good one, before and after the blamed one.
    assert_eq!(start(0, &[0, 0, 4]), [13, 1, 0, 0]);
    assert_eq!(start(0, &[0, 4, 0]), [17, 1, 1, 0]);
    // A blamed entry can't be met as a repeated one: it was refused at its first place.
    assert_eq!(start(0, &[4, 4]), [17, 0, 1, 0]);
    assert_eq!(start(0, &[0, 5, 0, 5]), [17, 1, 2, 0]);
}

#[test]
fn acting_task_and_child_come_before_the_list() {
    assert_eq!(start(6, &[4]), [3, 0, 0, 0]);
    assert_eq!(start(1, &[4]), [4, 0, 0, 0]);
    assert_eq!(start(4, &[4]), [5, 0, 0, 0]);
    assert_eq!(start_child(0, 6, &[4]), [11, 0, 0, 0]);
    for c in [0, 1, 3, 4] {
        assert_eq!(start_child(0, c, &[4]), [12, 0, 0, 0]);
    }
}

#[test]
fn get_and_new_stay() {
    for (p, b) in [(4, 1), (5, 2), (6, 2)] {
        assert_eq!(answer_on(&TASKS, &PROMISES, &Step::Get { t: 3, p }), [104, b, 0, 0]);
        assert_eq!(answer_on(&TASKS, &PROMISES, &Step::New { t: 3, p }), [7, 0, 0, 0]);
    }
}

/// The largest tables: all promises are task `t`'s but the last, which is blamed on `b`.
fn largest(t: u16, b: u16) -> (Vec<u16>, Vec<u16>) {
    let (mut tasks, mut promises) = (vec![0; 64], vec![16 + t; 256]);
    tasks[t as usize] = 1;
    tasks[b as usize] = 2;
    promises[255] = 80 + b;
    (tasks, promises)
}

#[test]
fn every_blamed_task() {
    for b in 0..64 {
        let t = (b + 1) % 64;
        let c = (b + 2) % 64;
        let (tasks, promises) = largest(t, b);
        assert_eq!(answer_on(&tasks, &promises, &Step::Set { t, p: 255 }), [17, b, 0, 0]);
        assert_eq!(answer_on(&tasks, &promises, &Step::Async { t, c, list: vec![255] }), [17, 0, b, 0]);
    }
}

#[test]
fn every_place() {
    let (tasks, promises) = largest(0, 63);
    for place in 0..256 {
        let mut list: Vec<u16> = (0..255).collect();
        list.insert(place as usize, 255);
        assert_eq!(answer_on(&tasks, &promises, &Step::Async { t: 0, c: 1, list }), [17, place, 63, 0]);
    }
}

fn tabs(text: &str) -> Vec<u8> {
    text.replace(' ', "\t").into_bytes()
}

#[test]
fn lines() {
    let input = "open 4 6\nnew 0 0\nnew 0 1\nnew 0 2\nnew 0 3\nasync 0 1 0 3\nasync 0 2 1\nend 1\nend 2\n\
                 set 0 0\nset 0 1\nget 0 1\nnew 0 1\nasync 0 3 2 0\nasync 0 3 1 0\nset 0 2\nset 0 2\n\
                 async 0 3 2 1\nasync 0 3 3 2\nasync 0 1 1\nset 1 0\nset 0 4\nset 0 6\nend 0\nset 0 2\n";
    let output = "1 opened\n2 made\n3 made\n4 made\n5 made\n6 started\n7 started\n8 ended 2 0 3 0\n9 ended 1 1 0\n\
                  10 refused 17 1\n11 refused 17 2\n12 blamed 2\n13 refused 7\n14 refused 17 1 1\n15 refused 17 0 2\n\
                  16 set 0\n17 refused 9\n18 refused 9 0\n19 refused 17 0 1\n20 refused 12\n21 refused 4\n22 refused 8\n\
                  23 refused 6\n24 ended 0 0\n25 refused 4\n";
    assert_eq!(PAPER.bench(&tabs(input)), tabs(output));
}

#[test]
fn lines_of_task_0_and_63() {
    let input = "open 64 3\nnew 0 0\nasync 0 63\nend 0\nset 63 0\nasync 63 1 0\nnew 63 1\nnew 63 2\nasync 63 1 2\n\
                 end 63\nset 1 1\nset 1 0\nasync 1 2 2 1\nasync 1 2 0\n";
    let output = "1 opened\n2 made\n3 started\n4 ended 1 0 0\n5 refused 17 0\n6 refused 17 0 0\n7 made\n8 made\n\
                  9 started\n10 ended 1 1 0\n11 refused 17 63\n12 refused 17 0\n13 refused 17 1 63\n14 refused 17 0 0\n";
    assert_eq!(PAPER.bench(&tabs(input)), tabs(output));
}

#[test]
fn the_longest_line_of_a_17() {
    let mut input = "open 64 256\n".to_string();
    for p in 0..256 {
        input += &format!("new 0 {p}\n");
    }
    let rest: String = (0..255).map(|p| format!(" {p}")).collect();
    input += &format!("async 0 63 255\nend 63\nasync 0 1{rest} 255\n");
    let output = PAPER.bench(&tabs(&input));
    assert!(output.ends_with(&tabs("259 ended 1 255 0\n260 refused 17 255 63\n")));
}

#[test]
fn in_a_batch() {
    // Task 1 is given promises 0 and 1 and ends; then they are set and listed, beside a good one and a set one.
    let steps = [
        [NEW, 0, 0, 0, 0],
        [NEW, 0, 1, 0, 0],
        [NEW, 0, 2, 0, 0],
        [ASYNC, 0, 1, 0, 2],
        [END, 1, 0, 0, 0],
        [SET, 0, 1, 0, 0],
        [ASYNC, 0, 2, 2, 2],
        [GET, 0, 2, 0, 0],
        [ASYNC, 0, 2, 0, 1],
        [SET, 0, 2, 0, 0],
        [SET, 0, 2, 0, 0],
        [ASYNC, 0, 2, 2, 2],
        [ASYNC, 0, 2, 3, 2],
        [GET, 0, 0, 0, 0],
    ];
    let list = [1, 0, 2, 0];
    let (mut tasks, mut promises) = (vec![1, 0, 0], vec![0; 3]);
    let (mut report, mut answers) = (vec![MARK; 14 * 9], vec![MARK; 14 * 4 + 1]);
    let number = PAPER.batch(&mut Batch {
        tasks: &mut tasks,
        promises: &mut promises,
        report: &mut report,
        steps: &steps.concat(),
        list: &list,
        answers: &mut answers,
    });
    let expected = [
        [101, 0, 0, 0],
        [101, 0, 0, 0],
        [101, 0, 0, 0],
        [107, 0, 0, 0],
        [108, 2, 0, 0],
        [17, 1, 0, 0],
        [17, 1, 1, 0],
        [106, 1, 0, 0],
        [17, 0, 1, 0],
        [102, 0, 0, 0],
        [9, 0, 0, 0],
        [9, 0, 0, 0],
        [16, 0, 0, 0],
        [104, 1, 0, 0],
    ];
    assert_eq!(number, 0);
    assert_eq!(answers[..56], expected.concat());
    assert_eq!(answers[56], MARK);
    // The two promises omitted, then the ring's pair: 17 adds no words.
    assert_eq!(report[..4], [0, 1, 0, 2]);
    assert!(report[4..].iter().all(|&word| word == MARK));
    assert_eq!((tasks, promises), (vec![1, 2, 0], vec![81, 81, 1]));
}

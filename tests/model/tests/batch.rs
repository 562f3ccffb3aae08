//! A batch, held to the paper's own run and to the edges that its request names.

use model::batch::{Batch, ASYNC, END, GET, NEW, SET};
use model::{Model, Step};

const MARK: u16 = 7777;

/// The words of a batch before and after a call.
#[derive(Clone, PartialEq, Eq, Debug)]
struct Lent {
    tasks: Vec<u16>,
    promises: Vec<u16>,
    report: Vec<u16>,
    answers: Vec<u16>,
}

impl Lent {
    /// Fresh tables, with this many words of report and answers, all marked.
    fn fresh(tasks: usize, promises: usize, report: usize, answers: usize) -> Lent {
        let mut lent = Lent {
            tasks: vec![0; tasks],
            promises: vec![0; promises],
            report: vec![MARK; report],
            answers: vec![MARK; answers],
        };
        lent.tasks[..tasks.min(1)].fill(1);
        lent
    }

    fn call(&mut self, steps: &[[u16; 5]], list: &[u16]) -> u16 {
        self.call_words(&steps.concat(), list)
    }

    fn call_words(&mut self, steps: &[u16], list: &[u16]) -> u16 {
        Model::PAPER.batch(&mut Batch {
            tasks: &mut self.tasks,
            promises: &mut self.promises,
            report: &mut self.report,
            steps,
            list,
            answers: &mut self.answers,
        })
    }

    /// The call is refused with this number and nothing is written.
    fn refused(mut self, number: u16, steps: &[[u16; 5]]) {
        let before = self.clone();
        assert_eq!(self.call(steps, &[]), number);
        assert_eq!(self, before);
    }

    fn answer(&self, index: usize) -> [u16; 4] {
        self.answers[4 * index..4 * index + 4].try_into().expect("four words")
    }
}

/// The eleven steps of the paper's run.
const RUN: [[u16; 5]; 11] = [
    [NEW, 0, 0, 0, 0],
    [NEW, 0, 1, 0, 0],
    [ASYNC, 0, 1, 0, 1],
    [GET, 1, 0, 0, 0],
    [GET, 0, 1, 0, 0],
    [SET, 0, 0, 0, 0],
    [SET, 0, 0, 0, 0],
    [END, 1, 0, 0, 0],
    [GET, 0, 1, 0, 0],
    [END, 0, 0, 0, 0],
    [NEW, 0, 2, 0, 0],
];

#[test]
fn whole_run_in_one_call() {
    let mut lent = Lent::fresh(3, 4, 11 * 10, 4 * 11 + 3);
    assert_eq!(lent.call(&RUN, &[1]), 0);
    let expected = [
        [101, 0, 0, 0],
        [101, 0, 0, 0],
        [107, 0, 0, 0],
        [105, 1, 0, 0],
        [106, 2, 0, 0],
        [102, 1, 0, 0],
        [9, 0, 0, 0],
        [108, 1, 0, 0],
        [104, 1, 0, 0],
        [108, 0, 0, 0],
        [4, 0, 0, 0],
    ];
    assert_eq!(lent.answers[..44], expected.concat());
    assert_eq!(lent.answers[44..], [MARK; 3]);
    // The ring's pairs, the task made ready, the promise omitted.
    assert_eq!(lent.report[..6], [0, 1, 1, 0, 1, 1]);
    assert!(lent.report[6..].iter().all(|&word| word == MARK));
    assert_eq!((lent.tasks, lent.promises), (vec![2, 2, 0], vec![1, 81, 0, 0]));
}

#[test]
fn room_to_the_word() {
    let two = [[NEW, 0, 0, 0, 0], [GET, 0, 0, 0, 0]];
    let mut enough = Lent::fresh(3, 4, 20, 8);
    assert_eq!(enough.call(&two, &[]), 0);
    assert_eq!((enough.answer(1), &enough.report[..3]), ([106, 1, 0, 0], &[0, 0, MARK][..]));
    Lent::fresh(3, 4, 19, 8).refused(1, &two);
    Lent::fresh(3, 4, 20, 7).refused(1, &two);
}

#[test]
fn records_to_the_last() {
    let steps = |count| vec![[END, 1, 0, 0, 0]; count];
    let mut most = Lent::fresh(2, 1, 256 * 5, 1024);
    assert_eq!(most.call(&steps(256), &[]), 0);
    assert_eq!(most.answer(255), [4, 0, 0, 0]);
    Lent::fresh(2, 1, 257 * 5, 4 * 257).refused(1, &steps(257));
}

#[test]
fn bounds_kinds_and_lengths() {
    let one = [[NEW, 0, 0, 0, 0]];
    for (tasks, promises) in [(0, 1), (65, 1), (64, 257)] {
        Lent::fresh(tasks, promises, 500, 9).refused(1, &one);
        Lent::fresh(tasks, promises, 500, 9).refused(1, &[]);
    }
    assert_eq!(Lent::fresh(64, 256, 384, 4).call(&one, &[]), 0);
    Lent::fresh(3, 4, 50, 20).refused(1, &[[NEW, 0, 0, 0, 0], [5, 0, 0, 0, 0]]);
    let mut cut = Lent::fresh(3, 4, 50, 20);
    assert_eq!(cut.call_words(&RUN.concat()[..9], &[]), 1);
    assert_eq!(cut, Lent::fresh(3, 4, 50, 20));
}

#[test]
fn damaged_tables_and_no_records() {
    let mut damaged = Lent::fresh(3, 4, 20, 8);
    damaged.promises[2] = 19;
    damaged.clone().refused(2, &[[END, 0, 0, 0, 0]]);
    damaged.clone().refused(2, &[]);
    damaged.report.truncate(9);
    damaged.refused(1, &[[END, 0, 0, 0, 0]]);
    let mut idle = Lent::fresh(1, 0, 0, 0);
    assert_eq!(idle.call(&[], &[]), 0);
    assert_eq!(idle, Lent::fresh(1, 0, 0, 0));
}

/// The answer to an async with this part of a list of two words.
fn part(t: u16, c: u16, start: u16, length: u16) -> [u16; 4] {
    let mut lent = Lent::fresh(3, 2, 8, 4);
    lent.promises = vec![16, 16];
    assert_eq!(lent.call(&[[ASYNC, t, c, start, length]], &[0, 1]), 0);
    lent.answer(0)
}

#[test]
fn parts_of_the_list() {
    assert_eq!(part(0, 1, 0, 2), [107, 0, 0, 0]);
    assert_eq!(part(0, 1, 2, 0), [107, 0, 0, 0]);
    for (start, length) in [(0, 3), (1, 2), (2, 1), (3, 0), (65535, 1), (65535, 3), (65535, 65535)] {
        assert_eq!(part(0, 1, start, length), [16, 0, 0, 0], "{start} {length}");
    }
    // 16 stands before all of the step's own.
    assert_eq!(part(9, 9, 3, 0), [16, 0, 0, 0]);
    assert_eq!(part(9, 9, 2, 0), [3, 0, 0, 0]);
    assert_eq!(part(1, 9, 0, 3), [16, 0, 0, 0]);
    // Only async has a part.
    let mut lent = Lent::fresh(3, 2, 8, 4);
    assert_eq!(lent.call(&[[NEW, 0, 0, 9, 9]], &[]), 0);
    assert_eq!(lent.answer(0), [101, 0, 0, 0]);
}

#[test]
fn a_passing_part_stops_nothing() {
    let mut lent = Lent::fresh(2, 2, 4 * 6 + 1, 16);
    let steps = [[NEW, 0, 0, 0, 0], [ASYNC, 0, 1, 1, 2], [GET, 0, 0, 0, 0], [END, 0, 0, 0, 0]];
    assert_eq!(lent.call(&steps, &[0, 0]), 0);
    assert_eq!(lent.answers, [101, 0, 0, 0, 16, 0, 0, 0, 106, 1, 0, 0, 108, 1, 0, 0]);
    assert_eq!(lent.report[..4], [0, 0, 0, MARK]);
    assert_eq!((lent.tasks, lent.promises), (vec![2, 0], vec![80, 0]));
}

/// The steps of these records one by one, each with a report of its own: the words of all reports, and the answers.
fn one_by_one(lent: &mut Lent, steps: &[[u16; 5]], list: &[u16]) -> (Vec<u16>, Vec<u16>) {
    let (mut words, mut answers) = (Vec::new(), Vec::new());
    for &[kind, t, other, start, length] in steps {
        let (start, end) = (start as usize, start as usize + length as usize);
        let step = match kind {
            NEW => Step::New { t, p: other },
            SET => Step::Set { t, p: other },
            GET => Step::Get { t, p: other },
            END => Step::End { t },
            _ if end > list.len() => {
                answers.extend([16, 0, 0, 0]);
                continue;
            }
            _ => Step::Async { t, c: other, list: list[start..end].to_vec() },
        };
        let mut report = vec![0; lent.promises.len() + 2 * lent.tasks.len()];
        let answer = Model::PAPER.step(&step, &mut lent.tasks, &mut lent.promises, &mut report);
        words.extend(&report[..answer.report_words()]);
        answers.extend(answer.words());
    }
    (words, answers)
}

#[test]
fn the_same_steps_one_by_one() {
    let mut state = 1u32;
    let mut below = |limit: u32| {
        state = state.wrapping_mul(1_664_525).wrapping_add(1_013_904_223);
        (((state >> 16) * limit) >> 16) as u16
    };
    let list = [0, 1, 2, 0, 3];
    for _ in 0..3_000 {
        let steps: Vec<[u16; 5]> = (0..below(14)).map(|_| [below(5), below(4), below(4), below(7), below(4)]).collect();
        let mut expected = Lent::fresh(3, 3, 9 * steps.len() + 2, 4 * steps.len() + 2);
        let mut found = expected.clone();
        let (words, answers) = one_by_one(&mut expected, &steps, &list);
        expected.report[..words.len()].copy_from_slice(&words);
        expected.answers[..answers.len()].copy_from_slice(&answers);
        assert_eq!(found.call(&steps, &list), 0);
        assert_eq!(found, expected, "{steps:?}");
    }
}

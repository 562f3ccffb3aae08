//! Writes steps as the records and the list of a batch.

use crate::batch_case::BatchCase;
use crate::random::Random;
use crate::sound::Words;
use model::batch::{ANSWER_WORDS, ASYNC, END, GET, NEW, SET};
use model::Step;

/// What a record says about the list.
#[derive(Clone, Copy)]
enum Part {
    /// Nothing that counts: its two words are any.
    Unused,
    At(u16, u16),
    /// No entries, from anywhere in the list.
    Empty,
    /// A part that passes the list's end.
    Passing,
}

/// The records and the list so far.
#[derive(Default)]
pub struct Writer {
    records: Vec<([u16; 3], Part)>,
    list: Vec<u16>,
}

impl Writer {
    /// Adds the step; the entries of its list, if any, are put behind the list so far.
    pub fn add(&mut self, r: &mut Random, step: &Step) {
        let record = match step {
            Step::New { t, p } => ([NEW, *t, *p], Part::Unused),
            Step::Set { t, p } => ([SET, *t, *p], Part::Unused),
            Step::Get { t, p } => ([GET, *t, *p], Part::Unused),
            Step::End { t } => ([END, *t, r.word()], Part::Unused),
            Step::Async { t, c, list } if list.is_empty() => ([ASYNC, *t, *c], Part::Empty),
            Step::Async { t, c, list } => {
                let start = u16::try_from(self.list.len()).expect("the list's places are numbers of 16 bits");
                self.list.extend_from_slice(list);
                ([ASYNC, *t, *c], Part::At(start, list.len() as u16))
            }
        };
        self.records.push(record);
        if r.once_in(4) {
            // Words of the list that no record names.
            let spare = r.below(3);
            self.list.extend(r.words(spare));
        }
    }

    /// Adds an async whose part passes the list's end.
    pub fn add_passing(&mut self, t: u16, c: u16) {
        self.records.push(([ASYNC, t, c], Part::Passing));
    }

    /// The words of all records, and the list.
    fn finish(self, r: &mut Random) -> (Vec<u16>, Vec<u16>) {
        let mut steps = Vec::new();
        for (numbers, part) in &self.records {
            let (start, length) = match *part {
                Part::Unused if r.once_in(2) => (0, 0),
                Part::Unused => (r.word(), r.word()),
                Part::At(start, length) => (start, length),
                Part::Empty => (r.below(self.list.len() + 1) as u16, 0),
                Part::Passing => passing(r, self.list.len()),
            };
            steps.extend(numbers);
            steps.extend([start, length]);
        }
        (steps, self.list)
    }

    /// Lends these tables to the batch, with room that is sometimes more than enough.
    pub fn lend(self, r: &mut Random, words: Words) -> BatchCase {
        let records = self.records.len();
        let needed = records * (words.promises.len() + 2 * words.tasks.len());
        let (steps, list) = self.finish(r);
        let mut spare = || if r.once_in(2) { 0 } else { r.below(6) };
        let (report, answers) = (needed + spare(), ANSWER_WORDS * records + spare());
        BatchCase {
            report: r.words(report),
            answers: r.words(answers),
            steps,
            list,
            tasks: words.tasks,
            promises: words.promises,
        }
    }
}

/// A start and a length whose sum passes this length of a list.
pub fn passing(r: &mut Random, list: usize) -> (u16, u16) {
    let start = r.below(list + 1);
    let (start, length) = match r.below(8) {
        0 => (list + 1, 0),
        1 => (list, 1),
        2 => (start, list - start + 1),
        3 => (list + 1 + r.below(4), r.below(3)),
        4 => (0, list + 1 + r.below(3)),
        // Sums that would be in the list again if they rolled over.
        5 => (65535 - r.below(list + 1), 1 + r.below(list + 1)),
        6 => (65535, 65535),
        _ => (r.bits() as u16 as usize, r.bits() as u16 as usize),
    };
    let passes = start + length > list && start <= 65535 && length <= 65535;
    if passes {
        (start as u16, length as u16)
    } else {
        (65535, 65535)
    }
}

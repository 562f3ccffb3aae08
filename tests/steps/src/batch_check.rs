//! The two comparisons of a batch, and what is told of them.

use crate::library_batch::LibraryBatch;
use crate::one_by_one::OneByOne;
use crate::signals;
use cases::batch_case::{batch_difference, call_name, expected_names, BatchCase, BatchDifference, BatchSubject};
use cases::batch_model::BatchModel;
use cases::shrink_batch::shrink_batch;
use cases::tally::Tally;
use std::process::exit;

/// What the library's batch is held to.
#[derive(Clone, Copy, PartialEq, Eq, Debug)]
enum Measure {
    Model,
    /// The library's own single steps, if the call is not refused.
    SingleSteps,
}

pub struct Check {
    model: BatchModel,
    library: LibraryBatch,
    tally: Tally,
    cases: u64,
    steps: u64,
}

impl Check {
    pub fn of(library: LibraryBatch) -> Check {
        Check { model: BatchModel::paper(), library, tally: Tally::expecting(expected_names()), cases: 0, steps: 0 }
    }

    pub fn random(&mut self, seed: u64, family: &str, case: &BatchCase) {
        signals::now_at(false, seed);
        self.compare(case, || format!("batch {seed} ({family}); again with: batches --case {seed}"));
    }

    pub fn swept(&mut self, number: u64, sweep: &str, case: &BatchCase) {
        signals::now_at(true, number);
        self.compare(case, || format!("the sweeps ({sweep}); again with: batches --sweep {number}"));
    }

    fn compare(&mut self, case: &BatchCase, place: impl Fn() -> String) {
        self.cases += 1;
        let (tally, steps) = (&mut self.tally, &mut self.steps);
        let mut done = false;
        let found = batch_difference(case, &mut self.model, &mut self.library, &mut |number, after| {
            tally.add(&call_name(number), 1);
            done = number == 0;
            if done {
                after.answer_names().for_each(|name| tally.add(&name, 1));
                *steps += after.records() as u64;
            }
        });
        if let Some(difference) = found {
            self.show(Measure::Model, &place(), case, &difference);
        }
        if !done {
            return;
        }
        if let Some(difference) = batch_difference(case, &mut OneByOne, &mut self.library, &mut |_, _| {}) {
            self.show(Measure::SingleSteps, &place(), case, &difference);
        }
    }

    fn differs(&mut self, measure: Measure, case: &BatchCase) -> Option<BatchDifference> {
        if measure == Measure::Model {
            return batch_difference(case, &mut self.model, &mut self.library, &mut |_, _| {});
        }
        let done = self.model.batch(&mut case.clone()).number == 0;
        done.then(|| batch_difference(case, &mut OneByOne, &mut self.library, &mut |_, _| {})).flatten()
    }

    /// Shows the difference on the smallest batch that has one, and ends.
    fn show(&mut self, measure: Measure, place: &str, case: &BatchCase, first: &BatchDifference) -> ! {
        let expected = match measure {
            Measure::Model => "by the model",
            Measure::SingleSteps => "by the library's single steps",
        };
        println!("batches: DIFFERENCE (expected {expected} / found in the library's batch) in {place}");
        let small = shrink_batch(case, &mut |case| self.differs(measure, case).is_some());
        print!("{}", small.describe());
        match self.differs(measure, &small) {
            Some(difference) => print!("{}", difference.describe()),
            None => print!("  it comes and goes; at first:\n{}", first.describe()),
        }
        exit(1)
    }

    pub fn finish(&self, may_miss_some: bool) {
        println!("batches: {} calls, {} steps, no difference; seen: {}", self.cases, self.steps, self.tally.line());
        let unseen = self.tally.unseen();
        if !unseen.is_empty() && !may_miss_some {
            println!("batches: FAILED, never seen: {}", unseen.join(", "));
            exit(1);
        }
    }
}

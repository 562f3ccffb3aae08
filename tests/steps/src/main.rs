//! The proved library against the model, step by step.
//!
//! `steps [--seed S] [--cases N]`   all sweeps, then N random cases
//! `steps --seconds N [--seed S]`   random cases for that long, with a progress line
//! `steps --case SEED`              one random case, by the seed that a difference or a crash names
//! `steps --sweep NUMBER`           one case of the sweeps, by its number
//! `steps --small`                  few cases on words lent without guards, for a memory checker

mod fresh_tables;
mod guarded;
mod library_subject;
mod signals;

use cases::answer_names::{answer_name, names_of, BLAMED_NAMES};
use cases::case::{difference, Case, Difference, Lent};
use cases::families::random_case;
use cases::model_subject::ModelSubject;
use cases::options::{number_after, present};
use cases::progress::Progress;
use cases::random::case_seed;
use cases::shrink_case::shrink_case;
use cases::sweeps::{sweep_all, sweep_short};
use cases::tally::Tally;
use library_subject::LibrarySubject;
use model::Step;
use std::ops::ControlFlow;
use std::process::exit;

const FIXED_SEED: u64 = 1;
const USUAL_CASES: u64 = 50_000;
const SMALL_CASES: u64 = 150;

struct Check {
    model: ModelSubject,
    library: LibrarySubject,
    tally: Tally,
    cases: u64,
}

fn main() {
    let small = present("--small");
    let seed = number_after("--seed").unwrap_or(FIXED_SEED);
    signals::tell_the_case_on_a_crash("steps");
    let mut check = Check {
        model: ModelSubject::paper(),
        library: if small { LibrarySubject::exact() } else { LibrarySubject::guarded() },
        tally: Tally::expecting(expected_names()),
        cases: 0,
    };
    if let Some(seed) = number_after("--case") {
        let (family, case) = random_case(seed);
        print!("steps: case {seed} ({family})\n{}", case.describe());
        check.random(seed, family, &case);
        println!("steps: no difference");
        return;
    }
    if let Some(wanted) = number_after("--sweep") {
        let mut number = 0;
        let _ = sweep_all(&mut |name, case| {
            number += 1;
            if number < wanted {
                return ControlFlow::Continue(());
            }
            print!("steps: case {wanted} of the sweeps ({name})\n{}", case.describe());
            check.swept(wanted, name, &case);
            println!("steps: no difference");
            ControlFlow::Break(())
        });
        return;
    }
    let mut progress = Progress::start("steps");
    if let Some(seconds) = number_after("--seconds") {
        for index in 0.. {
            let case_seed = case_seed(seed, index);
            let (family, case) = random_case(case_seed);
            check.random(case_seed, family, &case);
            if progress.over(seconds) {
                break;
            }
            progress.tell(|| format!("{} cases, seed {seed}, no difference", index + 1));
        }
    } else {
        let sweep = if small { sweep_short } else { sweep_all };
        let mut number = 0;
        let _ = sweep(&mut |name, case| {
            number += 1;
            if !small || number % 97 == 0 {
                check.swept(number, name, &case);
            }
            ControlFlow::Continue(())
        });
        fresh_tables::compare(&mut check.model, &mut check.library, small);
        for index in 0..if small { SMALL_CASES } else { number_after("--cases").unwrap_or(USUAL_CASES) } {
            let case_seed = case_seed(seed, index);
            let (family, case) = random_case(case_seed);
            check.random(case_seed, family, &case);
        }
    }
    check.finish(small || present("--seconds"));
}

/// What must be seen of steps: every answer, every refusal of a step, and 17 in every way.
fn expected_names() -> impl Iterator<Item = String> {
    let answers = (1..=13).chain([17]).chain(101..=108).map(answer_name);
    answers.chain(BLAMED_NAMES.iter().map(|name| name.to_string()))
}

/// Counts what a step gave; its answer is among the lent words unless these were too few.
fn count(tally: &mut Tally, step: &Step, number: u16, after: &Lent) {
    let is_async = matches!(step, Step::Async { .. });
    match after.answer.first_chunk() {
        Some(words) if words[0] == number => names_of(*words, is_async).iter().for_each(|name| tally.add(name, 1)),
        _ => tally.add(&answer_name(number), 1),
    }
}

impl Check {
    fn random(&mut self, seed: u64, family: &str, case: &Case) {
        signals::now_at(false, seed);
        self.compare(case, || format!("case {seed} ({family}); again with: steps --case {seed}"));
    }

    fn swept(&mut self, number: u64, sweep: &str, case: &Case) {
        signals::now_at(true, number);
        self.compare(case, || format!("the sweeps ({sweep}); again with: steps --sweep {number}"));
    }

    fn compare(&mut self, case: &Case, place: impl Fn() -> String) {
        self.cases += 1;
        let tally = &mut self.tally;
        let seen = &mut |step: &Step, number, after: &Lent| count(tally, step, number, after);
        let found = difference(case, &mut self.model, &mut self.library, seen);
        if let Some(difference) = found {
            self.show(&place(), case, &difference);
        }
    }

    /// Shows the difference on the smallest case that has one, and ends.
    fn show(&mut self, place: &str, case: &Case, first: &Difference) -> ! {
        let mut differs = |case: &Case| difference(case, &mut self.model, &mut self.library, &mut |_, _, _| {});
        println!("steps: DIFFERENCE (expected by the model / found in the library) in {place}");
        let small = shrink_case(case, first.index(), &mut |case| differs(case).is_some());
        print!("{}", small.describe());
        match differs(&small) {
            Some(difference) => print!("{}", difference.describe()),
            None => print!("  it comes and goes; at first:\n{}", first.describe()),
        }
        exit(1)
    }

    fn finish(&self, may_miss_some: bool) {
        println!("steps: {} cases, no difference; seen: {}", self.cases, self.tally.line());
        let unseen = self.tally.unseen();
        if !unseen.is_empty() && !may_miss_some {
            println!("steps: FAILED, never seen: {}", unseen.join(", "));
            exit(1);
        }
    }
}

//! The proved library's batch against the model, and against the library's own single steps.
//!
//! `batches [--seed S] [--cases N]`   all sweeps, then N random batches
//! `batches --seconds N [--seed S]`   random batches for that long, with a progress line
//! `batches --case SEED`              one random batch, by the seed that a difference or a crash names
//! `batches --sweep NUMBER`           one batch of the sweeps, by its number
//! `batches --small`                  few batches on words lent without guards, for a memory checker

mod batch_check;
mod guarded;
mod library_batch;
mod one_by_one;
mod signals;

use batch_check::Check;
use cases::batch_families::random_batch;
use cases::batch_sweeps::{sweep_batches, sweep_short_batches};
use cases::options::{number_after, present};
use cases::progress::Progress;
use cases::random::case_seed;
use library_batch::LibraryBatch;
use std::ops::ControlFlow;

const FIXED_SEED: u64 = 3;
const USUAL_CASES: u64 = 6_000;
const SMALL_CASES: u64 = 60;

fn main() {
    let small = present("--small");
    let seed = number_after("--seed").unwrap_or(FIXED_SEED);
    signals::tell_the_case_on_a_crash("batches");
    let mut check = Check::of(if small { LibraryBatch::exact() } else { LibraryBatch::guarded() });
    if let Some(seed) = number_after("--case") {
        one_random(&mut check, seed);
    } else if let Some(number) = number_after("--sweep") {
        one_swept(&mut check, number);
    } else if let Some(seconds) = number_after("--seconds") {
        for_seconds(&mut check, seed, seconds);
    } else {
        sweeps(&mut check, small);
        let usual = number_after("--cases").unwrap_or(USUAL_CASES);
        for index in 0..if small { SMALL_CASES } else { usual } {
            let case_seed = case_seed(seed, index);
            let (family, case) = random_batch(case_seed);
            check.random(case_seed, family, &case);
        }
        check.finish(small);
    }
}

fn one_random(check: &mut Check, seed: u64) {
    let (family, case) = random_batch(seed);
    print!("batches: case {seed} ({family})\n{}", case.describe());
    check.random(seed, family, &case);
    println!("batches: no difference");
}

fn one_swept(check: &mut Check, wanted: u64) {
    let mut number = 0;
    let _ = sweep_batches(&mut |name, case| {
        number += 1;
        if number < wanted {
            return ControlFlow::Continue(());
        }
        print!("batches: case {wanted} of the sweeps ({name})\n{}", case.describe());
        check.swept(wanted, name, &case);
        println!("batches: no difference");
        ControlFlow::Break(())
    });
}

fn for_seconds(check: &mut Check, seed: u64, seconds: u64) {
    let mut progress = Progress::start("batches");
    for index in 0.. {
        let case_seed = case_seed(seed, index);
        let (family, case) = random_batch(case_seed);
        check.random(case_seed, family, &case);
        if progress.over(seconds) {
            break;
        }
        progress.tell(|| format!("{} batches, seed {seed}, no difference", index + 1));
    }
    check.finish(true);
}

/// All sweeps, or some of the first ones if there is little time.
fn sweeps(check: &mut Check, small: bool) {
    let sweep = if small { sweep_short_batches } else { sweep_batches };
    let mut number = 0;
    let _ = sweep(&mut |name, case| {
        number += 1;
        if !small || number % 97 == 0 {
            check.swept(number, name, &case);
        }
        ControlFlow::Continue(())
    });
}

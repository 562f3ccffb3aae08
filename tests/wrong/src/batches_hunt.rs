//! Hunts for a twist with the batches.

use crate::{Found, Hunt};
use cases::batch_case::{batch_difference, BatchCase, BatchDifference};
use cases::batch_families::random_batch;
use cases::batch_model::BatchModel;
use cases::batch_sweeps::sweep_batches;
use cases::random::case_seed;
use cases::shrink_batch::shrink_batch;
use model::Twist;
use std::ops::ControlFlow;

const RUN_SEED: u64 = 40_000;
const RANDOM_BATCHES: u64 = 1_000;

fn differs(twist: Twist, case: &BatchCase) -> Option<BatchDifference> {
    batch_difference(case, &mut BatchModel::paper(), &mut BatchModel::twisted(twist), &mut |_, _| {})
}

pub fn hunt(twist: Twist, hunt: Hunt) -> Found {
    let mut found = Found::default();
    for index in 0..RANDOM_BATCHES {
        let (name, case) = random_batch(case_seed(RUN_SEED, index));
        if differs(twist, &case).is_some() {
            found.at_random = Some(format!("{name} ({})", index + 1));
            if hunt.shrink {
                found.shrunk = shrunk(twist, &case);
            }
            break;
        }
    }
    if found.at_random.is_some() && !hunt.both {
        return found;
    }
    let mut count = 0u64;
    let _ = sweep_batches(&mut |name, case| {
        count += 1;
        if differs(twist, &case).is_none() {
            return ControlFlow::Continue(());
        }
        found.by_sweep = Some(format!("{name} ({count})"));
        if hunt.shrink {
            found.shrunk = shrunk(twist, &case);
        }
        ControlFlow::Break(())
    });
    found
}

fn shrunk(twist: Twist, case: &BatchCase) -> String {
    let small = shrink_batch(case, &mut |case| differs(twist, case).is_some());
    let shown = differs(twist, &small).expect("a shrunk batch still differs");
    small.describe() + &shown.describe()
}

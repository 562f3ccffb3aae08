//! Hunts for a twist with the cases of the steps.

use crate::{Found, Hunt};
use cases::case::{difference, Case, Difference};
use cases::families::random_case;
use cases::model_subject::ModelSubject;
use cases::random::case_seed;
use cases::shrink_case::shrink_case;
use cases::sweeps::sweep_all;
use model::Twist;
use std::ops::ControlFlow;

const RUN_SEED: u64 = 20_000;
const RANDOM_CASES: u64 = 6_000;

fn differs(twist: Twist, case: &Case) -> Option<Difference> {
    difference(case, &mut ModelSubject::paper(), &mut ModelSubject::twisted(twist), &mut |_, _, _| {})
}

pub fn hunt(twist: Twist, hunt: Hunt) -> Found {
    let mut found = Found::default();
    for index in 0..RANDOM_CASES {
        let (name, case) = random_case(case_seed(RUN_SEED, index));
        if let Some(difference) = differs(twist, &case) {
            found.at_random = Some(format!("{name} ({})", index + 1));
            if hunt.shrink {
                found.shrunk = shrunk(twist, &case, &difference);
            }
            break;
        }
    }
    if found.at_random.is_some() && !hunt.both {
        return found;
    }
    let mut count = 0u64;
    let _ = sweep_all(&mut |name, case| {
        count += 1;
        match differs(twist, &case) {
            None => ControlFlow::Continue(()),
            Some(difference) => {
                found.by_sweep = Some(format!("{name} ({count})"));
                if hunt.shrink {
                    found.shrunk = shrunk(twist, &case, &difference);
                }
                ControlFlow::Break(())
            }
        }
    });
    found
}

fn shrunk(twist: Twist, case: &Case, difference: &Difference) -> String {
    let small = shrink_case(case, difference.index(), &mut |case| differs(twist, case).is_some());
    let shown = differs(twist, &small).expect("a shrunk case still differs");
    small.describe() + &shown.describe()
}

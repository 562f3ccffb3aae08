//! Hunts for a twist with the traces of the lines.

use crate::{Found, Hunt};
use cases::random::case_seed;
use cases::shrink_bytes::shrink_bytes;
use cases::trace_sweeps::{full_traces, sweep_traces};
use cases::traces::random_trace;
use model::{Model, Twist};

const RUN_SEED: u64 = 30_000;
const RANDOM_TRACES: u64 = 2_000;
const SHRINK_TRIES: usize = 3_000;

fn differs(twist: Twist, trace: &[u8]) -> bool {
    Model::PAPER.bench(trace) != Model::twisted(twist).bench(trace)
}

pub fn hunt(twist: Twist, hunt: Hunt) -> Found {
    let mut found = Found::default();
    let random = (0..RANDOM_TRACES).map(|index| random_trace(case_seed(RUN_SEED, index)));
    if let Some((place, trace)) = first_found(twist, random) {
        found.at_random = Some(place);
        if hunt.shrink {
            found.shrunk = shrunk(twist, &trace);
        }
    }
    if found.at_random.is_none() || hunt.both {
        found.by_sweep = first_found(twist, sweep_traces().into_iter()).map(|(place, _)| place);
    }
    found
}

/// The first of the traces that shows the twist, and its place among them.
fn first_found(twist: Twist, traces: impl Iterator<Item = (&'static str, Vec<u8>)>) -> Option<(String, Vec<u8>)> {
    let mut numbered = traces.zip(1..);
    numbered
        .find(|((_, trace), _)| differs(twist, trace))
        .map(|((name, trace), number)| (format!("{name} ({number})"), trace))
}

/// Hunts with traces of about a million lines, which are not shrunk.
pub fn hunt_full(twist: Twist) -> Found {
    let by_sweep = full_traces().find(|(_, trace)| differs(twist, trace)).map(|(name, _)| format!("{name} lines"));
    Found { by_sweep, ..Found::default() }
}

fn shrunk(twist: Twist, trace: &[u8]) -> String {
    let small = shrink_bytes(trace, SHRINK_TRIES, &mut |trace| differs(twist, trace));
    let shown = |bytes: &[u8]| bytes.escape_ascii().to_string();
    format!(
        "  input:    {}\n  expected: {}\n  found:    {}\n",
        shown(&small),
        shown(&Model::PAPER.bench(&small)),
        shown(&Model::twisted(twist).bench(&small))
    )
}

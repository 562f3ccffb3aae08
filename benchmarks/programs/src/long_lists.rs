//! Inputs of async lines whose lists name every promise.

use cases::random::Random;
use cases::trace_writer::{step_line, TraceWriter};
use model::Step;

const TASKS: u16 = 64;
const PROMISES: u16 = 256;

/// Task 0 makes every promise and hands them all on to task 1, this one to task 2 and so on to task 62. Task 62 then
/// starts task 63 with all but one of them, again and again: the last entry is one listed before or no promise at
/// all, so that the whole list is looked at and the line refused.
pub fn lists_of_256() -> Vec<u8> {
    let mut r = Random::new(4);
    let mut trace = TraceWriter::opened(TASKS.into(), PROMISES.into());
    for p in 0..PROMISES {
        trace.step(&Step::New { t: 0, p });
    }
    for t in 0..TASKS - 2 {
        trace.step(&Step::Async { t, c: t + 1, list: every_promise(&mut r) });
    }
    for _ in 0..20_000 {
        let mut list = every_promise(&mut r);
        let last = list.len() - 1;
        list[last] = if r.once_in(4) { PROMISES } else { list[r.below(last)] };
        trace.bytes.extend(step_line(&Step::Async { t: TASKS - 2, c: TASKS - 1, list }));
        trace.bytes.push(b'\n');
    }
    trace.bytes
}

/// Every promise once, in any order.
fn every_promise(r: &mut Random) -> Vec<u16> {
    r.order(PROMISES.into()).into_iter().map(|p| p as u16).collect()
}

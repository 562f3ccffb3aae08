//! Makes a case that shows a difference as small as it can.

use crate::case::{Case, Lent};
use model::{Model, Step};

/// The smallest case found that still differs, starting from one that does at step `index`.
pub fn shrink_case(case: &Case, index: usize, differs: &mut dyn FnMut(&Case) -> bool) -> Case {
    let mut best = case.clone();
    best.steps.truncate(index + 1);
    if !differs(&best) {
        best = case.clone();
    }
    if let Some(alone) = last_step_alone(&best).filter(|alone| differs(alone)) {
        best = alone;
    }
    loop {
        let before = best.clone();
        drop_steps(&mut best, differs);
        drop_entries(&mut best, differs);
        shorten_tables(&mut best, differs);
        clear_words(&mut best, differs);
        if best == before {
            return best;
        }
    }
}

/// The last step on the tables that the steps before it lead to.
fn last_step_alone(case: &Case) -> Option<Case> {
    let (last, earlier) = case.steps.split_last()?;
    let mut lent = case.lent.clone();
    for step in earlier {
        Model::PAPER.step(step, &mut lent.tasks, &mut lent.promises, &mut lent.report);
    }
    Some(Case { lent, steps: vec![last.clone()] })
}

/// Keeps the change if the case still differs.
fn attempt(best: &mut Case, differs: &mut dyn FnMut(&Case) -> bool, change: impl FnOnce(&mut Case)) -> bool {
    let mut changed = best.clone();
    change(&mut changed);
    let better = changed != *best && differs(&changed);
    if better {
        *best = changed;
    }
    better
}

fn drop_steps(best: &mut Case, differs: &mut dyn FnMut(&Case) -> bool) {
    for index in (0..best.steps.len()).rev() {
        if best.steps.len() > 1 {
            attempt(best, differs, |case| {
                case.steps.remove(index);
            });
        }
    }
}

fn drop_entries(best: &mut Case, differs: &mut dyn FnMut(&Case) -> bool) {
    for index in 0..best.steps.len() {
        let list_length = |case: &Case| match &case.steps[index] {
            Step::Async { list, .. } => list.len(),
            _ => 0,
        };
        let mut block = list_length(best).next_power_of_two();
        while block > 0 {
            let mut start = 0;
            while start < list_length(best) {
                let dropped = attempt(best, differs, |case| {
                    if let Step::Async { list, .. } = &mut case.steps[index] {
                        let end = (start + block).min(list.len());
                        list.drain(start..end);
                    }
                });
                if !dropped {
                    start += block;
                }
            }
            block /= 2;
        }
    }
}

fn shorten_tables(best: &mut Case, differs: &mut dyn FnMut(&Case) -> bool) {
    let cut = |words: &mut Vec<u16>, fewer: usize| words.truncate(words.len().saturating_sub(fewer));
    for fewer in [128, 64, 32, 16, 8, 4, 2, 1] {
        while attempt(best, differs, |case| {
            cut(&mut case.lent.tasks, fewer);
            cut(&mut case.lent.report, 2 * fewer);
        }) {}
        while attempt(best, differs, |case| {
            cut(&mut case.lent.promises, fewer);
            cut(&mut case.lent.report, fewer);
        }) {}
        while attempt(best, differs, |case| cut(&mut case.lent.report, fewer)) {}
    }
}

fn clear_words(best: &mut Case, differs: &mut dyn FnMut(&Case) -> bool) {
    type Part = fn(&mut Lent) -> &mut Vec<u16>;
    let parts: [Part; 4] =
        [|lent| &mut lent.report, |lent| &mut lent.answer, |lent| &mut lent.promises, |lent| &mut lent.tasks];
    for part in parts {
        if attempt(best, differs, |case| part(&mut case.lent).fill(0)) {
            continue;
        }
        for place in 0..part(&mut best.lent).len().min(400) {
            attempt(best, differs, |case| part(&mut case.lent)[place] = 0);
        }
    }
}

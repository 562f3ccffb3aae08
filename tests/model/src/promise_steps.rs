//! The steps on one promise: new, set and get.

use crate::step::{refuse, Outcome};
use crate::{Answer, Model, Promise, Tables, Task, Twist};

impl Model {
    pub(crate) fn make(&self, tables: &mut Tables, t: usize, p: usize) -> Outcome {
        self.acting(tables, t)?;
        if p >= tables.promises.len() {
            return refuse(if p == tables.promises.len() && self.is(Twist::NewAtBound) { 7 } else { 6 });
        }
        let remade = self.is(Twist::ClosedIsMadeAgain) && tables.promises[p].is_closed();
        if tables.promises[p] != Promise::NeverMade && !remade {
            return refuse(7);
        }
        tables.promises[p] = Promise::Owned(t);
        Ok((Answer::Made, vec![]))
    }

    pub(crate) fn set(&self, tables: &mut Tables, t: usize, p: usize) -> Outcome {
        self.acting(tables, t)?;
        self.owned(tables, t, p)?;
        let mut woken = tables.waiting_on(&[p]);
        if self.is(Twist::SetWakesOne) {
            woken.truncate(1);
        }
        tables.promises[p] = Promise::Set;
        for &waiter in &woken {
            tables.tasks[waiter] = Task::Ready;
        }
        if self.is(Twist::SetReportsFalling) {
            woken.reverse();
        }
        Ok((Answer::Set(woken.len()), woken))
    }

    pub(crate) fn get(&self, tables: &mut Tables, t: usize, p: usize) -> Outcome {
        self.acting(tables, t)?;
        match self.made(tables, p)? {
            Promise::Set => {
                let named = if self.is(Twist::ValueWritesReport) { vec![1] } else { vec![] };
                return Ok((Answer::Value, named));
            }
            Promise::Blamed(_) if self.is(Twist::BlamedNamesActor) => return Ok((Answer::Blamed(t), vec![])),
            Promise::Blamed(b) => return Ok((Answer::Blamed(b), vec![])),
            _ => {}
        }
        // The pairs of task and awaited promise on the way, and the owners reached.
        let mut pairs = vec![(t, p)];
        let mut reached = 0;
        loop {
            let (_, awaited) = pairs[reached];
            // On sound tables there is always an owner and an end within the live tasks.
            let Some(owner) = tables.owner(awaited) else { break };
            reached += 1;
            if owner == t && !(self.is(Twist::OwnPromiseWaits) && reached == 1) {
                return Ok(self.alarm(tables, t, p, pairs));
            }
            let far_enough = reached == 2 && self.is(Twist::LooksTwoOwnersFar)
                || reached == 32 && self.is(Twist::Looks32OwnersFar)
                || reached > tables.tasks.len();
            match tables.awaited(owner) {
                Some(next) if !far_enough => pairs.push((owner, next)),
                _ => break,
            }
        }
        if !self.is(Twist::WaitsUnmarked) {
            tables.tasks[t] = Task::Waits(p);
        }
        Ok((Answer::Waits(reached), vec![]))
    }

    fn alarm(&self, tables: &mut Tables, t: usize, p: usize, mut pairs: Vec<(usize, usize)>) -> (Answer, Vec<usize>) {
        if self.is(Twist::AlarmLeavesMark) {
            tables.tasks[t] = Task::Waits(p);
        }
        if self.is(Twist::CycleReportRotated) {
            pairs.rotate_left(1);
        }
        if self.is(Twist::CycleReportBackwards) {
            pairs[1..].reverse();
        }
        (Answer::Cycle(pairs.len()), pairs.into_iter().flat_map(|(task, promise)| [task, promise]).collect())
    }
}

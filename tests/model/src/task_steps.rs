//! The steps that start and end a task: async and end.

use crate::step::{refuse, Outcome};
use crate::{Answer, Model, Promise, Tables, Task, Twist};

impl Model {
    pub(crate) fn start(&self, tables: &mut Tables, t: usize, c: usize, list: &[u16]) -> Outcome {
        self.acting(tables, t)?;
        let list = if self.is(Twist::ListLengthRollsOver) { &list[..list.len() % 65536] } else { list };
        if self.is(Twist::ListBeforeChild) {
            self.entries(tables, t, list)?;
        }
        self.child(tables, c)?;
        let outcome = self.entries(tables, t, list);
        let moved = match outcome {
            Ok(()) if self.is(Twist::AsyncMovesNothing) => 0,
            Ok(()) => list.len(),
            Err(refusal) if self.is(Twist::AsyncMovesThenRefuses) => refusal.place().unwrap_or(0),
            Err(refusal) => return Err(refusal),
        };
        for &p in &list[..moved] {
            if let Some(promise) = tables.promises.get_mut(p as usize) {
                *promise = Promise::Owned(c);
            }
        }
        outcome?;
        tables.tasks[c] = Task::Ready;
        Ok((Answer::Started, vec![]))
    }

    /// Refusals 11 and 12: the child must be a task never used.
    fn child(&self, tables: &Tables, c: usize) -> Result<(), Answer> {
        if c >= tables.tasks.len() {
            return refuse(if c == tables.tasks.len() && self.is(Twist::ChildAtBound) { 12 } else { 11 });
        }
        match tables.tasks[c] {
            Task::NeverUsed => Ok(()),
            Task::Ended if self.is(Twist::EndedStartsAgain) => Ok(()),
            _ => refuse(12),
        }
    }

    /// Refusals 6, 8, 9, 17, 10 and 13 over the list, entry by entry.
    pub(crate) fn entries(&self, tables: &Tables, t: usize, list: &[u16]) -> Result<(), Answer> {
        for (place, &p) in list.iter().enumerate() {
            if place == 256 && self.is(Twist::Reads256Entries) {
                break;
            }
            let told_place = place + self.slip(Twist::PlacesFromOne);
            if place >= tables.promises.len() && self.is(Twist::UsedUpIsThirteen) {
                return Err(Answer::RefusedAt(13, told_place));
            }
            if let Err(refusal) = self.owned(tables, t, p as usize) {
                return Err(refusal.at(told_place));
            }
            if let Some(first) = self.named_before(&list[..place], p) {
                let number = if self.is(Twist::RepeatIsNotOwner) { 10 } else { 13 };
                let told_place = if self.is(Twist::RepeatTellsFirstPlace) { first } else { told_place };
                return Err(Answer::RefusedAt(number, told_place));
            }
        }
        Ok(())
    }

    /// The place at which `p` was named among the entries before it.
    fn named_before(&self, earlier: &[u16], p: u16) -> Option<usize> {
        let last = earlier.len().checked_sub(1);
        earlier.iter().enumerate().position(|(place, &entry)| match self.twist {
            Twist::RepeatsPass => false,
            Twist::RepeatsOnlyBeside => entry == p && Some(place) == last,
            Twist::RepeatsNotBeside => entry == p && Some(place) != last,
            Twist::RepeatsOfFirstOnly => entry == p && place == 0,
            Twist::RepeatsNotOfFirst => entry == p && place > 0,
            Twist::RepeatsInSixteenPlaces => entry == p && place + 16 >= earlier.len(),
            Twist::RepeatMarksInSevenBits => entry % 128 == p % 128,
            _ => entry == p,
        })
    }

    pub(crate) fn end(&self, tables: &mut Tables, t: usize) -> Outcome {
        self.acting(tables, t)?;
        if t == 0 && self.is(Twist::TaskZeroMayNotEnd) {
            return refuse(4);
        }
        let mut omitted = tables.owned_by(t);
        let mut woken = tables.waiting_on(&omitted);
        if self.is(Twist::EndBlamesAwaitedOnly) {
            omitted.retain(|&p| !tables.waiting_on(&[p]).is_empty());
        }
        if self.is(Twist::EndWakesOneEach) {
            woken = omitted.iter().filter_map(|&p| tables.waiting_on(&[p]).first().copied()).collect();
            woken.sort();
        }
        if self.is(Twist::EndReportsByPromise) {
            woken = omitted.iter().flat_map(|&p| tables.waiting_on(&[p])).collect();
        }
        tables.tasks[t] = Task::Ended;
        for &p in &omitted {
            tables.promises[p] = if self.is(Twist::EndSetsOmitted) { Promise::Set } else { Promise::Blamed(t) };
        }
        for &waiter in &woken {
            tables.tasks[waiter] = Task::Ready;
        }
        let answer = Answer::Ended(omitted.len(), woken.len());
        let named = if self.is(Twist::EndReportsTasksFirst) { [woken, omitted] } else { [omitted, woken] };
        Ok((answer, named.concat()))
    }
}

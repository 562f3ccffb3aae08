//! The five steps, directly on the words.

use crate::sound::{is_sound, BASE, BLAMED, ENDED, MOST_PROMISES, MOST_TASKS, READY};

#[derive(Clone, Copy, PartialEq, Eq, Debug)]
pub enum Answer {
    Refused(u16),
    RefusedAt(u16, u16),
    RefusedBlamed(u16),
    RefusedBlamedAt(u16, u16),
    Made,
    Set(u16),
    Value,
    Blamed(u16),
    Waits(u16),
    Cycle(u16),
    Started,
    Ended(u16, u16),
}

/// The words lent to a step, and whether it tests their soundness.
pub struct Lent<'a> {
    pub tasks: &'a mut [u16],
    pub promises: &'a mut [u16],
    pub report: &'a mut [u16],
    pub tests_soundness: bool,
}

/// Whether T and P are within their bounds.
pub fn within_bounds(tasks: usize, promises: usize) -> bool {
    (1..=MOST_TASKS).contains(&tasks) && promises <= MOST_PROMISES
}

/// Writes fresh tables; false, with nothing written, if a length is out of bounds.
pub fn fresh(tasks: &mut [u16], promises: &mut [u16]) -> bool {
    if !within_bounds(tasks.len(), promises.len()) {
        return false;
    }
    tasks.fill(0);
    tasks[0] = READY;
    promises.fill(0);
    true
}

impl Lent<'_> {
    /// Refusals 1 to 5.
    fn refusal(&self, t: u16) -> Option<Answer> {
        let (tasks, promises) = (self.tasks.len(), self.promises.len());
        let number = if !within_bounds(tasks, promises) || self.report.len() < promises + 2 * tasks {
            1
        } else if self.tests_soundness && !is_sound(self.tasks, self.promises) {
            2
        } else {
            match self.tasks.get(t as usize) {
                None => 3,
                Some(0 | 2) => 4,
                Some(1) => return None,
                Some(_) => 5,
            }
        };
        Some(Answer::Refused(number))
    }

    /// Refusals 6, 8, 9, 17 and 10, or 0: `p` must be owned by `t`.
    fn owner_refusal(&self, t: u16, p: u16) -> u16 {
        match self.promises.get(p as usize) {
            None => 6,
            Some(0) => 8,
            Some(1) => 9,
            Some(&word) if word >= BLAMED => 17,
            Some(&word) if word != BASE + t => 10,
            Some(_) => 0,
        }
    }

    pub fn make(&mut self, t: u16, p: u16) -> Answer {
        if let Some(refusal) = self.refusal(t) {
            return refusal;
        }
        match self.promises.get_mut(p as usize) {
            None => Answer::Refused(6),
            Some(word) if *word != 0 => Answer::Refused(7),
            Some(word) => {
                *word = BASE + t;
                Answer::Made
            }
        }
    }

    pub fn set(&mut self, t: u16, p: u16) -> Answer {
        if let Some(refusal) = self.refusal(t) {
            return refusal;
        }
        match self.owner_refusal(t, p) {
            0 => {}
            17 => return Answer::RefusedBlamed(self.promises[p as usize] - BLAMED),
            number => return Answer::Refused(number),
        }
        self.promises[p as usize] = 1;
        let mut woken = 0;
        for (task, word) in self.tasks.iter_mut().enumerate() {
            if *word == BASE + p {
                *word = READY;
                self.report[woken] = task as u16;
                woken += 1;
            }
        }
        Answer::Set(woken as u16)
    }

    pub fn get(&mut self, t: u16, p: u16) -> Answer {
        if let Some(refusal) = self.refusal(t) {
            return refusal;
        }
        match self.promises.get(p as usize) {
            None => return Answer::Refused(6),
            Some(0) => return Answer::Refused(8),
            Some(1) => return Answer::Value,
            Some(&word) if word >= BLAMED => return Answer::Blamed(word - BLAMED),
            Some(_) => {}
        }
        let mut awaited = p;
        let mut reached = 0;
        loop {
            let owner = self.promises[awaited as usize] - BASE;
            reached += 1;
            if owner == t {
                self.report_cycle(t, p, reached);
                return Answer::Cycle(reached);
            }
            match self.tasks[owner as usize] {
                READY => break,
                word => awaited = word - BASE,
            }
        }
        self.tasks[t as usize] = BASE + p;
        Answer::Waits(reached)
    }

    /// Goes round the ring once more and writes its pairs.
    fn report_cycle(&mut self, t: u16, p: u16, length: u16) {
        let (mut task, mut awaited) = (t, p);
        for pair in self.report.chunks_exact_mut(2).take(length as usize) {
            pair[0] = task;
            pair[1] = awaited;
            task = self.promises[awaited as usize] - BASE;
            awaited = self.tasks[task as usize].wrapping_sub(BASE);
        }
    }

    pub fn start(&mut self, t: u16, c: u16, list: &[u16]) -> Answer {
        if let Some(refusal) = self.refusal(t) {
            return refusal;
        }
        match self.tasks.get(c as usize) {
            None => return Answer::Refused(11),
            Some(0) => {}
            Some(_) => return Answer::Refused(12),
        }
        let mut listed = [false; MOST_PROMISES];
        for (place, &p) in list.iter().enumerate() {
            let number = match self.owner_refusal(t, p) {
                0 if listed[p as usize] => 13,
                number => number,
            };
            match number {
                0 => listed[p as usize] = true,
                17 => return Answer::RefusedBlamedAt(place as u16, self.promises[p as usize] - BLAMED),
                number => return Answer::RefusedAt(number, place as u16),
            }
        }
        for &p in list {
            self.promises[p as usize] = BASE + c;
        }
        self.tasks[c as usize] = READY;
        Answer::Started
    }

    pub fn end(&mut self, t: u16) -> Answer {
        if let Some(refusal) = self.refusal(t) {
            return refusal;
        }
        self.tasks[t as usize] = ENDED;
        let mut named = 0;
        for (promise, word) in self.promises.iter_mut().enumerate() {
            if *word == BASE + t {
                *word = BLAMED + t;
                self.report[named] = promise as u16;
                named += 1;
            }
        }
        let omitted = named;
        for (task, word) in self.tasks.iter_mut().enumerate() {
            if *word >= BASE && self.promises[(*word - BASE) as usize] == BLAMED + t {
                *word = READY;
                self.report[named] = task as u16;
                named += 1;
            }
        }
        Answer::Ended(omitted as u16, (named - omitted) as u16)
    }
}

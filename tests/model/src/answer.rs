//! Steps and their answers, with the number and values of each.

#[derive(Clone, PartialEq, Eq, Debug)]
pub enum Step {
    New { t: u16, p: u16 },
    Set { t: u16, p: u16 },
    Get { t: u16, p: u16 },
    Async { t: u16, c: u16, list: Vec<u16> },
    End { t: u16 },
}

#[derive(Clone, Copy, PartialEq, Eq, Debug)]
pub enum Answer {
    /// Refused with the paper's number.
    Refused(u16),
    /// Refused for the list entry at this place, counted from 0.
    RefusedAt(u16, usize),
    /// Refused for a blamed promise, with the task it is blamed on.
    RefusedBlamed(u16, usize),
    /// Refused for the list entry at this place, whose promise is blamed on this task.
    RefusedBlamedAt(u16, usize, usize),
    Made,
    /// How many tasks became ready.
    Set(usize),
    Value,
    /// The task the promise is blamed on.
    Blamed(usize),
    /// The owners reached.
    Waits(usize),
    /// The owners reached, the getting task included.
    Cycle(usize),
    Started,
    /// How many promises were omitted and how many tasks became ready.
    Ended(usize, usize),
}

impl Answer {
    pub fn is_refused(self) -> bool {
        use Answer::*;
        matches!(self, Refused(_) | RefusedAt(..) | RefusedBlamed(..) | RefusedBlamedAt(..))
    }

    /// The refusal of a promise as that of the list entry at this place.
    pub(crate) fn at(self, place: usize) -> Answer {
        match self {
            Answer::Refused(number) => Answer::RefusedAt(number, place),
            Answer::RefusedBlamed(number, task) => Answer::RefusedBlamedAt(number, place, task),
            _ => self,
        }
    }

    /// The place of a refused list entry.
    pub(crate) fn place(self) -> Option<usize> {
        match self {
            Answer::RefusedAt(_, place) | Answer::RefusedBlamedAt(_, place, _) => Some(place),
            _ => None,
        }
    }

    /// The answer as four words: its number, then up to three values, unused ones 0.
    pub fn words(self) -> [u16; 4] {
        match self {
            Answer::Refused(number) => [number, 0, 0, 0],
            Answer::RefusedAt(number, place) => [number, place as u16, 0, 0],
            Answer::RefusedBlamed(number, task) => [number, task as u16, 0, 0],
            Answer::RefusedBlamedAt(number, place, task) => [number, place as u16, task as u16, 0],
            Answer::Made => [101, 0, 0, 0],
            Answer::Set(woken) => [102, woken as u16, 0, 0],
            Answer::Value => [103, 0, 0, 0],
            Answer::Blamed(task) => [104, task as u16, 0, 0],
            Answer::Waits(owners) => [105, owners as u16, 0, 0],
            Answer::Cycle(owners) => [106, owners as u16, 0, 0],
            Answer::Started => [107, 0, 0, 0],
            Answer::Ended(omitted, woken) => [108, omitted as u16, woken as u16, 0],
        }
    }

    /// How many words the step with this answer writes to its report.
    pub fn report_words(self) -> usize {
        match self {
            Answer::Set(woken) => woken,
            Answer::Cycle(owners) => 2 * owners,
            Answer::Ended(omitted, woken) => omitted + woken,
            _ => 0,
        }
    }

    /// The word by which a line names the answer of this number.
    pub fn name(number: u16) -> &'static str {
        match number {
            101 => "made",
            102 => "set",
            103 => "value",
            104 => "blamed",
            105 => "waits",
            106 => "cycle",
            107 => "started",
            108 => "ended",
            _ => "refused",
        }
    }
}

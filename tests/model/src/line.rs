//! The line entry: one line of a session in, one answer line out.

use crate::fields::Record;
use crate::{Answer, Model, Tables, Twist, LINE_BYTES, MOST_PROMISES, MOST_TASKS};

/// The report lent with a line.
pub const LINE_REPORT_WORDS: usize = 384;
/// A line's number is at least 1 and at most this.
const LAST_LINE_NUMBER: u32 = 999_999;
/// The room an answer line needs.
const ANSWER_BYTES: usize = 2048;

#[derive(Clone, Copy, PartialEq, Eq, Debug)]
pub enum Session {
    Unopened,
    Open { tasks: usize, promises: usize },
}

impl Session {
    fn is_within_bounds(self) -> bool {
        match self {
            Session::Unopened => true,
            Session::Open { tasks, promises } => (1..=MOST_TASKS).contains(&tasks) && promises <= MOST_PROMISES,
        }
    }
}

/// The fields of a refusal: its number, and its column if it has one.
fn refused(values: &[usize]) -> Vec<String> {
    ["refused".to_string()].into_iter().chain(values.iter().map(usize::to_string)).collect()
}

impl Model {
    /// Answers one line, without its LF; gives the length of the answer line written.
    #[allow(clippy::too_many_arguments)]
    pub fn line(
        &self,
        line: &[u8],
        number: u32,
        session: &mut Session,
        tasks: &mut [u16],
        promises: &mut [u16],
        report: &mut [u16],
        answer_line: &mut [u8],
    ) -> Result<usize, u16> {
        let lent_well = (1..=LAST_LINE_NUMBER).contains(&number)
            && session.is_within_bounds()
            && tasks.len() == MOST_TASKS
            && promises.len() == MOST_PROMISES
            && report.len() == LINE_REPORT_WORDS
            && answer_line.len() >= ANSWER_BYTES;
        if !lent_well {
            return Err(1);
        }
        let mut fields = vec![number.to_string()];
        fields.extend(self.answer_fields(line, session, tasks, promises, report));
        let text = fields.join("\t") + "\n";
        answer_line[..text.len()].copy_from_slice(text.as_bytes());
        Ok(text.len())
    }

    fn answer_fields(
        &self,
        line: &[u8],
        session: &mut Session,
        tasks: &mut [u16],
        promises: &mut [u16],
        report: &mut [u16],
    ) -> Vec<String> {
        let longest = LINE_BYTES + self.slip(Twist::Takes2049Bytes) - self.slip(Twist::Refuses2048Bytes);
        let too_long = line.len() > longest;
        let record = if too_long { None } else { self.record(line) };
        if self.is(Twist::PlaceBeforeForm) && *session == Session::Unopened && !line.starts_with(b"open") {
            return self.out_of_place(line);
        }
        match (record, *session) {
            (None, _) => self.bad_line(line, too_long),
            (Some(Record::Step(_)), Session::Unopened) => self.out_of_place(line),
            (Some(Record::Step(step)), Session::Open { tasks: t, promises: p }) => {
                let answer = self.step(&step, &mut tasks[..t], &mut promises[..p], report);
                self.step_fields(answer, report)
            }
            (Some(Record::Open { tasks: t, promises: p }), before) => {
                let (t, p) = (t as usize, p as usize);
                let within_bounds = self.tables_within_bounds(t, p);
                let second = before != Session::Unopened && !self.is(Twist::SecondOpenTaken);
                if second && (within_bounds || !self.is(Twist::BoundsBeforeSecondOpen)) {
                    return self.out_of_place(line);
                }
                if !within_bounds {
                    if self.is(Twist::RefusedOpenOpens) {
                        *session = Session::Open { tasks: 1, promises: 0 };
                    }
                    return refused(&[1]);
                }
                if t > MOST_TASKS || p > MOST_PROMISES {
                    // Only a twist comes here: there are no words to open so wide.
                    return vec!["opened".to_string()];
                }
                *session = Session::Open { tasks: t, promises: p };
                self.write_tables(&Tables::fresh(t, p), &mut tasks[..t], &mut promises[..p]);
                vec!["opened".to_string()]
            }
        }
    }

    /// Refusal 14 and the column with which the line went bad.
    fn bad_line(&self, line: &[u8], too_long: bool) -> Vec<String> {
        match self.twist {
            Twist::ColumnUntold => refused(&[14]),
            _ => refused(&[14, self.told_column(line, too_long)]),
        }
    }

    /// Refusal 15.
    fn out_of_place(&self, line: &[u8]) -> Vec<String> {
        match self.twist {
            Twist::FifteenTellsColumn => refused(&[15, line.len()]),
            _ => refused(&[15]),
        }
    }

    fn step_fields(&self, answer: Answer, report: &[u16]) -> Vec<String> {
        let values: Vec<u16> = match answer {
            Answer::Refused(number) => vec![number],
            Answer::RefusedAt(number, _) if self.is(Twist::PlaceUntold) => vec![number],
            Answer::RefusedAt(number, place) => vec![number, place as u16],
            Answer::RefusedBlamed(number, task) => vec![number, task as u16],
            Answer::RefusedBlamedAt(number, _, task) if self.is(Twist::PlaceUntold) => vec![number, task as u16],
            Answer::RefusedBlamedAt(number, place, task) => vec![number, place as u16, task as u16],
            Answer::Made | Answer::Value | Answer::Started => vec![],
            Answer::Set(woken) => [&[woken as u16], &report[..woken]].concat(),
            Answer::Blamed(task) => vec![task as u16],
            Answer::Waits(owners) => vec![owners as u16],
            Answer::Cycle(owners) => [&[owners as u16], &report[..2 * owners]].concat(),
            Answer::Ended(omitted, woken) => {
                let (promises, tasks) = report[..omitted + woken].split_at(omitted);
                [&[omitted as u16], promises, &[woken as u16], tasks].concat()
            }
        };
        let name = Answer::name(answer.words()[0]).to_string();
        let fields = [name].into_iter().chain(values.iter().map(u16::to_string)).collect();
        self.bent_fields(answer, fields)
    }
}

//! A batch as a case: the words lent to one call, and how two subjects differ on it.

use crate::answer_names::{answer_name, names_of, BLAMED_NAMES};
use crate::case::{differing_words, lent_words, Reply};
use model::batch::{ANSWER_WORDS, ASYNC, RECORD_WORDS};

/// The words that are lent to a batch.
#[derive(Clone, PartialEq, Eq, Debug, Default)]
pub struct BatchCase {
    pub tasks: Vec<u16>,
    pub promises: Vec<u16>,
    pub report: Vec<u16>,
    pub steps: Vec<u16>,
    pub list: Vec<u16>,
    pub answers: Vec<u16>,
}

/// Something that takes whole batches.
pub trait BatchSubject {
    fn batch(&mut self, lent: &mut BatchCase) -> Reply;
}

/// What two subjects gave back and left behind, where that differs.
#[derive(Clone, Debug)]
pub struct BatchDifference {
    pub expected: (Reply, BatchCase),
    pub found: (Reply, BatchCase),
}

/// Gives the batch to both subjects, each with its own words.
/// `seen` is told what the expected subject returned and left behind.
pub fn batch_difference(
    case: &BatchCase,
    expected: &mut dyn BatchSubject,
    found: &mut dyn BatchSubject,
    seen: &mut dyn FnMut(u16, &BatchCase),
) -> Option<BatchDifference> {
    let mut left = case.clone();
    let left_reply = expected.batch(&mut left);
    seen(left_reply.number, &left);
    let mut right = case.clone();
    let right_reply = found.batch(&mut right);
    (left_reply != right_reply || left != right)
        .then_some(BatchDifference { expected: (left_reply, left), found: (right_reply, right) })
}

impl BatchDifference {
    pub fn describe(&self) -> String {
        let ((l, left), (r, right)) = (&self.expected, &self.found);
        let mut text = format!("  the batch differs (expected / found):\n    returned: {} / {}\n", l.number, r.number);
        if r.strayed {
            text += "    words beside the lent ones, steps or the list were written\n";
        }
        text += &differing_words("answers", &left.answers, &right.answers);
        text += &differing_words("tasks", &left.tasks, &right.tasks);
        text += &differing_words("promises", &left.promises, &right.promises);
        text += &differing_words("report", &left.report, &right.report);
        text
    }
}

/// How many runs of equal records are shown.
const MOST_SHOWN: usize = 40;

impl BatchCase {
    pub fn records(&self) -> usize {
        self.steps.len() / RECORD_WORDS
    }

    /// How a tally calls the answers after a call that was carried out.
    pub fn answer_names(&self) -> impl Iterator<Item = String> + '_ {
        let answers = self.answers.chunks(ANSWER_WORDS).filter_map(|answer| answer.try_into().ok());
        let kinds = self.steps.iter().step_by(RECORD_WORDS);
        kinds.zip(answers).flat_map(|(&kind, answer)| names_of(answer, kind == ASYNC))
    }

    pub fn describe(&self) -> String {
        let mut text = lent_words("tasks", &self.tasks);
        text += &lent_words("promises", &self.promises);
        text += &lent_words("report", &self.report);
        text += &lent_words("list", &self.list);
        text += &lent_words("answers", &self.answers);
        text += &format!("  steps: {} words\n", self.steps.len());
        let records: Vec<&[u16]> = self.steps.chunks(RECORD_WORDS).collect();
        let mut start = 0;
        for run in records.chunk_by(|a, b| a == b).take(MOST_SHOWN) {
            let times = if run.len() > 1 { format!(", {} times", run.len()) } else { String::new() };
            text += &format!("    record {start}: {:?}{times}\n", run[0]);
            start += run.len();
        }
        if start < records.len() {
            text += &format!("    and {} records more\n", records.len() - start);
        }
        text
    }
}

/// How a tally calls a call that returned this number.
pub fn call_name(number: u16) -> String {
    match number {
        0 => "call done".to_string(),
        _ => format!("call refused {number}"),
    }
}

/// What must be seen of batches: each way a call can go, and each answer a step in one can get.
pub fn expected_names() -> impl Iterator<Item = String> {
    let answers = (3..=13).chain([16, 17]).chain(101..=108).map(answer_name);
    (0..=2).map(call_name).chain(answers).chain(BLAMED_NAMES.iter().map(|name| name.to_string()))
}

//! A case: lent words and steps to take on them, and how two subjects differ on it.

use model::Step;

/// The words that are lent to a step.
#[derive(Clone, PartialEq, Eq, Debug)]
pub struct Lent {
    pub tasks: Vec<u16>,
    pub promises: Vec<u16>,
    pub report: Vec<u16>,
    pub answer: Vec<u16>,
}

#[derive(Clone, PartialEq, Eq, Debug)]
pub struct Case {
    pub lent: Lent,
    pub steps: Vec<Step>,
}

/// What a call gives back beside the lent words.
#[derive(Clone, Copy, PartialEq, Eq, Debug)]
pub struct Reply {
    pub number: u16,
    /// Whether a word was written that was not lent.
    pub strayed: bool,
}

/// Something that takes the registry's steps.
pub trait Subject {
    /// Called before the first step of a case.
    fn begin(&mut self) {}
    fn step(&mut self, step: &Step, lent: &mut Lent) -> Reply;
    /// 1 for sound tables, 0 for damaged ones and for those of lengths out of bounds.
    fn is_sound(&mut self, tasks: &[u16], promises: &[u16]) -> u8;
    fn fresh(&mut self, tasks: &mut Vec<u16>, promises: &mut Vec<u16>) -> Reply;
}

/// How many differing words of a table are shown.
const MOST_SHOWN: usize = 12;

/// The first place at which two subjects differ.
#[derive(Clone, Debug)]
#[allow(clippy::large_enum_variant)]
pub enum Difference {
    /// After the step with this index.
    Step { index: usize, expected: (Reply, Lent), found: (Reply, Lent) },
    /// In the soundness of the tables before the step with this index, or after all steps.
    Sound { index: usize, expected: u8, found: u8 },
}

/// Takes the case's steps with both subjects, each on its own words.
/// `seen` is told each step, the number it gave by the expected subject and the words that left.
pub fn difference(
    case: &Case,
    expected: &mut dyn Subject,
    found: &mut dyn Subject,
    seen: &mut dyn FnMut(&Step, u16, &Lent),
) -> Option<Difference> {
    let mut left = case.lent.clone();
    let mut right = case.lent.clone();
    expected.begin();
    found.begin();
    for (index, step) in case.steps.iter().enumerate() {
        if index == 0 {
            if let Some(difference) = sound_difference(index, &left, expected, found) {
                return Some(difference);
            }
        }
        let left_reply = expected.step(step, &mut left);
        let right_reply = found.step(step, &mut right);
        seen(step, left_reply.number, &left);
        if left_reply != right_reply || left != right {
            return Some(Difference::Step { index, expected: (left_reply, left), found: (right_reply, right) });
        }
    }
    sound_difference(case.steps.len(), &left, expected, found)
}

fn sound_difference(
    index: usize,
    lent: &Lent,
    expected: &mut dyn Subject,
    found: &mut dyn Subject,
) -> Option<Difference> {
    let found = found.is_sound(&lent.tasks, &lent.promises);
    let expected = expected.is_sound(&lent.tasks, &lent.promises);
    (expected != found).then_some(Difference::Sound { index, expected, found })
}

impl Difference {
    /// The index of the step that shows the difference, or how many came before it.
    pub fn index(&self) -> usize {
        match self {
            Difference::Step { index, .. } | Difference::Sound { index, .. } => *index,
        }
    }

    pub fn describe(&self) -> String {
        match self {
            Difference::Sound { index, expected, found } => {
                format!("  after {index} steps: soundness expected {expected}, found {found}\n")
            }
            Difference::Step { index, expected, found } => {
                let mut text = format!("  step {index} differs (expected / found):\n");
                let (l, r) = (expected.0, found.0);
                text += &format!("    returned: {} / {}\n", l.number, r.number);
                if r.strayed {
                    text += "    words beside the lent ones were written\n";
                }
                for (name, left, right) in [
                    ("answer", &expected.1.answer, &found.1.answer),
                    ("tasks", &expected.1.tasks, &found.1.tasks),
                    ("promises", &expected.1.promises, &found.1.promises),
                    ("report", &expected.1.report, &found.1.report),
                ] {
                    text += &differing_words(name, left, right);
                }
                text
            }
        }
    }
}

/// The first words in which two tables of this name differ.
pub(crate) fn differing_words(name: &str, left: &[u16], right: &[u16]) -> String {
    let mut text = String::new();
    let differing = || left.iter().zip(right).enumerate().filter(|(_, (l, r))| l != r);
    for (place, (l, r)) in differing().take(MOST_SHOWN) {
        text += &format!("    {name}[{place}]: {l} / {r}\n");
    }
    if differing().count() > MOST_SHOWN {
        text += &format!("    {name}: {} words differ in all\n", differing().count());
    }
    text
}

/// A line on some lent words: how many, and those that are not 0.
pub(crate) fn lent_words(name: &str, words: &[u16]) -> String {
    format!("  {name}: {} words, 0 but for:{}\n", words.len(), short(&runs(words)))
}

impl Case {
    pub fn describe(&self) -> String {
        let mut text = String::new();
        for (name, words) in [
            ("tasks", &self.lent.tasks),
            ("promises", &self.lent.promises),
            ("report", &self.lent.report),
            ("answer", &self.lent.answer),
        ] {
            text += &lent_words(name, words);
        }
        for (index, step) in self.steps.iter().enumerate() {
            text += &format!("  step {index}: {}\n", short(&format!("{step:?}")));
        }
        text
    }
}

/// The words that are not 0, as runs of equal ones.
fn runs(words: &[u16]) -> String {
    let mut text = String::new();
    let mut start = 0;
    for run in words.chunk_by(|a, b| a == b) {
        let last = start + run.len() - 1;
        match run {
            [0, ..] => {}
            [word] => text += &format!(" [{start}]={word}"),
            [word, ..] => text += &format!(" [{start}..={last}]={word}"),
            [] => {}
        }
        start = last + 1;
    }
    text
}

/// The text, or as much of it as is still worth reading.
fn short(text: &str) -> String {
    if text.len() <= 1200 {
        text.to_string()
    } else {
        format!("{} .. ({} characters)", &text[..1200], text.len())
    }
}

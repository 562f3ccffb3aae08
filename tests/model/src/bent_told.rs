//! The wrong ways to tell 17 in lines and in batches that the checks must find. Without a twist nothing is bent.

use crate::batch::{put, Batch, ANSWER_WORDS, ASYNC, RECORD_WORDS, SET};
use crate::{Answer, Model, Twist, BLAMED_BASE};

/// The values of a 17: the place, if it has one, and the task.
fn values_of_17(answer: Answer) -> Option<(Option<usize>, usize)> {
    match answer {
        Answer::RefusedBlamed(17, task) => Some((None, task)),
        Answer::RefusedBlamedAt(17, place, task) => Some((Some(place), task)),
        _ => None,
    }
}

impl Model {
    /// The fields of a line's answer, bent where a twist asks for it.
    pub(crate) fn bent_fields(&self, answer: Answer, fields: Vec<String>) -> Vec<String> {
        if self.is(Twist::LineNineTellsTask) && answer.words()[0] == 9 {
            return [fields, vec!["0".to_string()]].concat();
        }
        values_of_17(answer).and_then(|(place, task)| self.bent_17_fields(place, task, &fields)).unwrap_or(fields)
    }

    /// What a line tells instead of these fields of a 17, if a twist asks for it.
    fn bent_17_fields(&self, place: Option<usize>, task: usize, fields: &[String]) -> Option<Vec<String>> {
        let place_text = place.map(|place| place.to_string());
        let told = |values: &[Option<String>]| {
            let start = fields[..2].iter().cloned();
            Some(start.chain(values.iter().flatten().cloned()).collect())
        };
        let (task_text, zero) = (Some(task.to_string()), Some("0".to_string()));
        let beside = |text: String| place.map_or(text.clone(), |place| format!("{place} {text}"));
        match self.twist {
            Twist::LineBlamedUntold => told(&[place_text]),
            Twist::LineBlamedZeroUntold if task == 0 => told(&[place_text]),
            Twist::LineBlamedPlaceUntold => told(&[task_text]),
            Twist::LineBlamedPlaceZeroUntold if place == Some(0) => told(&[task_text]),
            Twist::LineBlamedBeforePlace => told(&[task_text, place_text]),
            Twist::LineBlamedSetTellsPlace if place.is_none() => told(&[zero, task_text]),
            Twist::LineBlamedAllWords if place.is_none() => told(&[task_text, zero.clone(), zero]),
            Twist::LineBlamedAllWords => told(&[place_text, task_text, zero]),
            Twist::LineBlamedNamed => told(&[place_text, Some("blamed".to_string()), task_text]),
            Twist::LineBlamedOneDigit => told(&[place_text, Some((task % 10).to_string())]),
            Twist::LineBlamedTwoDigits => told(&[place_text, Some(format!("{task:02}"))]),
            Twist::LineBlamedWord => told(&[place_text, Some((task + BLAMED_BASE as usize).to_string())]),
            Twist::LineBlamedBlank => told(&[Some(beside(task.to_string()))]),
            Twist::LineBlamedEndsWithTab => told(&[place_text, task_text, Some(String::new())]),
            Twist::LineBlamedIsAnswer => Some(vec!["blamed".to_string(), task.to_string()]),
            Twist::LineBlamedIsNine => {
                let nine = ["refused", "9"].map(str::to_string);
                Some(nine.into_iter().chain(place_text).collect())
            }
            _ => None,
        }
    }

    /// The outcome of a record in a batch, bent where a twist asks for it; `lent` holds the promises as lent.
    pub(crate) fn bent_told(
        &self,
        record: &[u16; RECORD_WORDS],
        (answer, words): (Answer, Vec<u16>),
        lent: &[u16],
        list: &[u16],
    ) -> (Answer, Vec<u16>) {
        let Some((place, task)) = values_of_17(answer) else {
            return (answer, words);
        };
        let refused = |number| place.map_or(Answer::Refused(number), |place| Answer::RefusedAt(number, place));
        let was_blamed = || {
            let p = place.map_or(record[2], |place| list[record[3] as usize + place]);
            lent[p as usize] == BLAMED_BASE + task as u16
        };
        let told = match self.twist {
            Twist::BatchBlamedUntold => refused(17),
            Twist::BatchBlamedUntoldInSet if record[0] == SET => refused(17),
            Twist::BatchBlamedUntoldInAsync if record[0] == ASYNC => refused(17),
            Twist::BatchBlamedIsNine => refused(9),
            Twist::BatchBlamedAsLent if !was_blamed() => refused(9),
            Twist::BatchBlamedPlaceUntold => Answer::RefusedBlamed(17, task),
            Twist::BatchBlamedBeforePlace if record[0] == ASYNC => {
                Answer::RefusedBlamedAt(17, task, place.unwrap_or(0))
            }
            _ => answer,
        };
        let words = if self.is(Twist::BatchBlamedReports) { vec![task as u16] } else { words };
        (told, words)
    }

    /// What a call returns that was carried out.
    pub(crate) fn bent_return(&self, lent: &Batch) -> u16 {
        let mut numbers = lent.answers.iter().step_by(ANSWER_WORDS).take(lent.records());
        match self.twist {
            Twist::BatchBlamedReturned if numbers.any(|&number| number == 17) => 17,
            _ => 0,
        }
    }

    /// Writes the words of a 17 in a batch otherwise, if a twist asks for it.
    pub(crate) fn bend_17_words(&self, index: usize, answer: Answer, lent: &mut Batch) {
        let Some((place, task)) = values_of_17(answer) else { return };
        let place = place.unwrap_or(0) as u16;
        match self.twist {
            Twist::BatchBlamedLastWord => put(lent.answers, ANSWER_WORDS * index, &[17, place, 0, task as u16]),
            Twist::BatchBlamedPlaceZero => put(lent.answers, ANSWER_WORDS * index, &[17, 0, task as u16, 0]),
            _ => {}
        }
    }
}

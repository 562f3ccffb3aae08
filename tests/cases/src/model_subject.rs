//! The model, twisted or not, as a subject of cases.

use crate::case::{Lent, Reply, Subject};
use model::{Model, Step, Twist, BLAMED_BASE};
use std::collections::HashMap;

/// The least answer a step can be lent.
pub const ANSWER_WORDS: usize = 4;

pub struct ModelSubject {
    model: Model,
    /// Which task made which promise: what one must remember to blame a promise handed on.
    makers: HashMap<u16, u16>,
}

impl ModelSubject {
    pub fn paper() -> ModelSubject {
        ModelSubject::twisted(Twist::None)
    }

    pub fn twisted(twist: Twist) -> ModelSubject {
        ModelSubject { model: Model::twisted(twist), makers: HashMap::new() }
    }

    /// The twist that needs a memory: end also blames what its task made and handed on.
    fn blame_handed(&mut self, step: &Step, number: u16, promises: &mut [u16]) {
        match (step, number) {
            (Step::New { t, p }, 101) => {
                self.makers.insert(*p, *t);
            }
            (Step::End { t }, 108) => {
                for (p, word) in promises.iter_mut().enumerate() {
                    let owned = (16..BLAMED_BASE).contains(word);
                    if owned && self.makers.get(&(p as u16)) == Some(t) {
                        *word = BLAMED_BASE + t;
                    }
                }
            }
            _ => {}
        }
    }
}

impl Subject for ModelSubject {
    fn begin(&mut self) {
        self.makers.clear();
    }

    fn step(&mut self, step: &Step, lent: &mut Lent) -> Reply {
        let refused = Reply { number: 1, strayed: false };
        if lent.answer.len() < ANSWER_WORDS {
            if self.model.twist == Twist::ShortAnswerSteps && lent.answer.len() == 3 {
                self.model.step(step, &mut lent.tasks, &mut lent.promises, &mut lent.report);
            }
            return refused;
        }
        let answer = self.model.step(step, &mut lent.tasks, &mut lent.promises, &mut lent.report).words();
        lent.answer[..ANSWER_WORDS].copy_from_slice(&answer);
        if self.model.twist == Twist::EndBlamesHanded {
            self.blame_handed(step, answer[0], &mut lent.promises);
        }
        let number = match (self.model.twist, answer[0]) {
            (Twist::BlamedReturnsNine, 17) => 9,
            (_, number) => number,
        };
        Reply { number, strayed: false }
    }

    fn is_sound(&mut self, tasks: &[u16], promises: &[u16]) -> u8 {
        u8::from(self.model.is_sound(tasks, promises))
    }

    fn fresh(&mut self, tasks: &mut Vec<u16>, promises: &mut Vec<u16>) -> Reply {
        let number = self.model.fresh(tasks, promises).err().unwrap_or(0);
        Reply { number, strayed: false }
    }
}

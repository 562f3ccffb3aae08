//! The model, twisted or not, as a subject of batches.

use crate::batch_case::{BatchCase, BatchSubject};
use crate::case::Reply;
use model::batch::Batch;
use model::{Model, Twist};

pub struct BatchModel {
    model: Model,
}

impl BatchModel {
    pub fn paper() -> BatchModel {
        BatchModel::twisted(Twist::None)
    }

    pub fn twisted(twist: Twist) -> BatchModel {
        BatchModel { model: Model::twisted(twist) }
    }
}

impl BatchSubject for BatchModel {
    fn batch(&mut self, lent: &mut BatchCase) -> Reply {
        let number = self.model.batch(&mut Batch {
            tasks: &mut lent.tasks,
            promises: &mut lent.promises,
            report: &mut lent.report,
            steps: &lent.steps,
            list: &lent.list,
            answers: &mut lent.answers,
        });
        Reply { number, strayed: false }
    }
}

//! A model of the registry of tasks and promises, written straight from its paper.
//!
//! It is meant to be read beside the paper, not to be fast: words are read into
//! meanings, the step is carried out on the meanings, and meanings are written back.
//! Every wrong change the checks must be able to find is a [`Twist`], consulted
//! at the one place it bends; with [`Twist::None`] this is the paper's registry.

mod answer;
pub mod batch;
mod bench;
mod bent_batch;
mod bent_blamed;
mod bent_call;
mod bent_column;
mod bent_forgiven;
mod bent_part;
mod bent_told;
mod bent_unblamed;
mod bent_walks;
mod column;
mod fields;
mod line;
mod promise_steps;
mod sound;
mod step;
mod tables;
mod task_steps;
mod twist;
mod words;

pub use answer::{Answer, Step};
pub use bench::{BENCH_LINES, LINE_BYTES};
pub use line::{Session, LINE_REPORT_WORDS};
pub use tables::Tables;
pub use twist::{Shows, Twist};
pub use words::{Promise, Task, BLAMED_BASE, MOST_PROMISES, MOST_TASKS, OWNED_BASE, WAITS_BASE};

/// The paper's registry, or the one that differs from it by one twist.
#[derive(Clone, Copy, Debug)]
pub struct Model {
    pub twist: Twist,
}

impl Model {
    /// The registry of the paper.
    pub const PAPER: Model = Model { twist: Twist::None };

    pub fn twisted(twist: Twist) -> Model {
        Model { twist }
    }

    /// Whether the named twist is in force.
    pub(crate) fn is(&self, twist: Twist) -> bool {
        self.twist == twist
    }

    /// 1 if the named twist is in force, 0 if not: for limits that are off by one.
    pub(crate) fn slip(&self, twist: Twist) -> usize {
        usize::from(self.is(twist))
    }
}

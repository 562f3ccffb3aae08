//! A plain, unverified registry: the measure for the proved one.

pub mod column;
pub mod registry;
pub mod session;
pub mod sound;

//! What is edition 2's own among sound and damaged jobs: effects of two halves.

mod effects;
mod faults;
mod sound;

pub(super) use faults::{spoil_a_further_word, spoil_a_wide_effect};
pub(super) use sound::{extreme_job, sound_job};

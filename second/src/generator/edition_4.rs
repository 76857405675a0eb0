//! What is edition 4's own among sound and damaged jobs: barriers with their
//! widths, and the eleven effects.

mod effects;
mod faults;
mod sound;

pub(super) use faults::{spoil_an_effect_word, take_a_width_outside, widen_to_no_band};
pub(super) use sound::sound_job;

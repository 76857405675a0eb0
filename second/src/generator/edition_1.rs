//! What editions 1 to 3 alone have among sound and damaged jobs: tables of
//! factors of their own.

mod chain_faults;
mod sound;
mod tables;

pub(super) use chain_faults::{name_an_effect_twice, return_to_a_record};
pub(super) use sound::{extreme_job, sound_job, sound_width};
pub(super) use tables::sound_factor;

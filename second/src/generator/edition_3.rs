//! What is edition 3's own among sound and damaged jobs: a second carriageway, and a
//! line within its limits.

mod faults;
mod sound;

pub(super) use faults::{
    spoil_the_header_of_two, spoil_the_ordinates_of_two, spoil_the_second_section,
};
pub(super) use sound::sound_job;

//! The stream of trains: sound ones of every shape and damaged ones for every
//! refusal.

mod axles;
mod damage;
mod sound;

pub use damage::{damaged, Fault};
pub use sound::sound_case;

use crate::rng::Rng;
use crate::train::TrainCase;

/// The case of a seed: somewhat more sound than damaged.
pub fn case(seed: u64) -> TrainCase {
    let mut rng = Rng::new(seed);
    if rng.below(20) < 11 {
        sound_case(&mut rng)
    } else {
        damage::damaged_case(&mut rng)
    }
}

//! Makes sound jobs of edition 2: edition 1's with effects of their own.

use super::effects::{extreme_value, sound_value};
use crate::edition::Edition;
use crate::generator::draws::sign;
use crate::generator::edition_1;
use crate::job::Job;
use crate::rng::Rng;

/// A job that no refusal is due for, given a long enough patch buffer.
pub fn sound_job(rng: &mut Rng) -> Job {
    if rng.one_in(16) {
        return extreme_job(rng);
    }
    let mut job = edition_1::sound_job(rng);
    for effect in &mut job.effects {
        effect.value = sound_value(rng);
    }
    of_edition_2(job)
}

fn of_edition_2(mut job: Job) -> Job {
    job.edition = Edition::Two;
    job.further_header = vec![0; 2];
    job
}

/// A job with every number at an end of its limits: rows of sixteen effects, each
/// of a sign of its own, or all of one and so the largest rows there are.
pub(crate) fn extreme_job(rng: &mut Rng) -> Job {
    let mut job = edition_1::extreme_job(rng);
    let of_all = sign(rng);
    let alike = rng.one_in(2);
    for effect in &mut job.effects {
        effect.value = extreme_value(if alike { of_all } else { sign(rng) });
    }
    of_edition_2(job)
}

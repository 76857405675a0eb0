//! Fills a job's table, so that its form has 512 records or nearly as many.

use super::spelling::spelled;
use crate::generator::edition_1::sound_factor;
use crate::job::{Effect, Job, MAY_BE_LEFT_OUT};
use crate::rng::Rng;

const MOST_EFFECTS: usize = 16;
const MOST_ROWS: usize = 32;

/// The job with 16 effects and 32 rows, and with every factor above 0 or nearly.
pub(super) fn fill(rng: &mut Rng, mut job: Job) -> Job {
    let another = Effect::new(rng.between(-1000, 1000), MAY_BE_LEFT_OUT);
    job.effects.resize(MOST_EFFECTS, another);
    let last = job.rows[job.rows.len() - 1];
    job.rows.resize(MOST_ROWS, last);
    let least = rng.pick(&[0, 1]);
    let of_all = rng.one_in(3).then(|| row(rng, least));
    let table = (0..MOST_ROWS)
        .map(|_| of_all.clone().unwrap_or_else(|| row(rng, least)))
        .collect();
    spelled(rng, &job, &table)
}

/// A row's factors, none below this.
fn row(rng: &mut Rng, least: i64) -> Vec<i64> {
    (0..MOST_EFFECTS)
        .map(|_| sound_factor(rng).max(least))
        .collect()
}

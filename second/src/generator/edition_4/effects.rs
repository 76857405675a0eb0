//! Makes the eleven effects of a farm job.

use crate::farm;
use crate::generator::draws::sign;
use crate::job::{Effect, ALWAYS_PRESENT};
use crate::rng::Rng;

/// The most that an effect is away from 0.
const MOST: i64 = 1_000_000_000;

type Values = [i64; farm::EFFECTS.len()];

pub(super) fn sound_effects(rng: &mut Rng) -> Vec<Effect> {
    farm::effects(match rng.below(8) {
        0 => values(|_| rng.between(-MOST, MOST)),
        1 => values(|_| rng.pick(&[-1, 0, 0, 1])),
        2 => values(|_| rng.pick(&[-MOST, 0, MOST])),
        _ => leaning_to_a_row(rng),
    })
}

/// Effects at their limits: each of a sign of its own, or all of one.
pub(super) fn extreme_effects(rng: &mut Rng) -> Vec<Effect> {
    let of_all = sign(rng);
    let alike = rng.one_in(2);
    farm::effects(values(|_| MOST * if alike { of_all } else { sign(rng) }))
}

/// A value for each effect, counted from 0.
fn values(value: impl FnMut(usize) -> i64) -> Values {
    std::array::from_fn(value)
}

/// Values that raise one built-in row, or lower it, and hold the others back:
/// the row's own effects of one sign, the others of the other or 0. DL, which
/// counts in every row, may be of either sign or 0; one effect of the row, not
/// always present, is often the largest by far.
fn leaning_to_a_row(rng: &mut Rng) -> Values {
    let rows = farm::combinations();
    let parts = &rows[rng.index(rows.len())].variants[0].parts;
    let own: Vec<usize> = parts.iter().map(|part| part.effect - 1).collect();
    let side = sign(rng);
    let most = rng.pick(&[1, 30, 20_000, 3_000_000, MOST / 20]);
    let mut values = values(|effect| {
        let size = side * rng.between(0, most);
        let against = rng.pick(&[0, -1, -1]);
        size * if own.contains(&effect) { 1 } else { against }
    });
    values[0] *= rng.pick(&[-1, 0, 1, 1]);
    let free: Vec<usize> = own
        .into_iter()
        .filter(|&effect| farm::mark(effect) != ALWAYS_PRESENT)
        .collect();
    if rng.one_in(2) {
        values[rng.pick(&free)] = side * most * rng.between(1, 20);
    }
    values
}

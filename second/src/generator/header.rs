//! Draws of the header's words that all editions have.

use crate::rng::Rng;

pub(super) fn sound_spacing(rng: &mut Rng) -> i64 {
    match rng.below(4) {
        0 => 10,
        1 => 50,
        _ => rng.between(10, 50),
    }
}

/// A dynamic kind and its value.
pub(super) fn sound_dynamic(rng: &mut Rng) -> (i64, i64) {
    match rng.below(4) {
        0 => (2, 0),
        1 => (1, rng.pick(&[1000, 1001, 1299, 1300])),
        2 => (1, rng.between(1000, 1300)),
        _ => {
            let around_100 = rng.between(97, 103);
            let any = rng.between(0, 5000);
            (
                3,
                rng.pick(&[0, 1, 50, 99, 100, 101, 5000, around_100, any]),
            )
        }
    }
}

/// The transverse ordinates that a width calls for.
pub(super) fn ordinates_across(width: i64, spacing: i64) -> usize {
    ((width + spacing - 1) / spacing) as usize + 1
}

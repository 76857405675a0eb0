//! Makes faults of edition 2's further header words and of its effects.

use crate::edition::Edition;
use crate::generator::draws::{outside, sign};
use crate::rng::Rng;
use crate::sections::RECORDS;
use crate::words::{halves, joined};

/// Puts something else than 0 into word 10 or 11.
pub(crate) fn spoil_a_further_word(rng: &mut Rng, words: &mut [i32]) {
    let place = rng.pick(&[RECORDS + 1, RECORDS + 2]);
    words[place] = outside(rng, 0, 0);
}

/// Gives an effect, as its three words, a value past its limits, a mark that is
/// none, or both.
pub(crate) fn spoil_a_wide_effect(rng: &mut Rng, effect: &mut [i32]) {
    let what = rng.below(6);
    if what != 0 {
        effect[..2].copy_from_slice(&halves(value_outside(rng)));
    }
    if what <= 1 {
        effect[2] = outside(rng, 1, 2);
    }
}

/// A value just past a limit, next to the high half that a limit has, or as far
/// as one can be; often with a low half that would be lawful by itself.
fn value_outside(rng: &mut Rng) -> i64 {
    let most = Edition::Two.most_effect();
    let side = sign(rng);
    let any = rng.number() as i32;
    let low = rng.pick(&[0, 1, -1, i32::MIN, i32::MAX, any]);
    let high = rng.between(23284, i32::MAX.into()) as i32;
    match rng.below(6) {
        0 | 1 => side * (most + 1),
        2 => side * (most + rng.between(1, 4_000_000_000)),
        3 => joined(low, rng.pick(&[23284, -23285])),
        4 => joined(low, rng.pick(&[i32::MIN, i32::MAX])),
        _ => joined(low, rng.pick(&[high, -high - 1])),
    }
}

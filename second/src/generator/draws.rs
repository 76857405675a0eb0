//! Draws that all streams share.

use crate::rng::Rng;
use std::ops::RangeInclusive;

pub(super) fn sign(rng: &mut Rng) -> i64 {
    rng.pick(&[-1, 1])
}

pub(super) fn first_last_or_any(rng: &mut Rng, length: usize) -> usize {
    let any = rng.index(length);
    rng.pick(&[0, length - 1, any])
}

/// A patch buffer of so many bytes or more.
pub(super) fn sufficient_patch(rng: &mut Rng, pieces: usize) -> Vec<u8> {
    let over = rng.pick(&[0, 0, 0, 1, 7, 100]);
    let length = if rng.one_in(4) {
        pieces.max(1000)
    } else {
        pieces + over
    };
    any_bytes(rng, length)
}

pub(super) fn any_bytes(rng: &mut Rng, length: usize) -> Vec<u8> {
    (0..length).map(|_| rng.number() as u8).collect()
}

/// A number outside a range, as `outside` has it.
pub(super) fn outside_limits(rng: &mut Rng, limits: &RangeInclusive<i32>) -> i32 {
    outside(rng, *limits.start(), *limits.end())
}

/// A number just outside limits or far from them.
pub(super) fn outside(rng: &mut Rng, from: i32, to: i32) -> i32 {
    let below = rng.between(i32::MIN.into(), i64::from(from) - 1) as i32;
    let above = rng.between(i64::from(to) + 1, i32::MAX.into()) as i32;
    rng.pick(&[
        from - 1,
        from - 1,
        to + 1,
        to + 1,
        i32::MIN,
        i32::MAX,
        below,
        above,
    ])
}

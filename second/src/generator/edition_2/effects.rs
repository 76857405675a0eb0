//! Makes the values of edition 2's effects, in N·U.

use crate::edition::Edition;
use crate::generator::draws::sign;
use crate::rng::Rng;
use crate::words::joined;

/// The value furthest from 0 on a side.
pub(super) fn extreme_value(side: i64) -> i64 {
    side * Edition::Two.most_effect()
}

/// A value of any size: at and near the limits, near the ends of a signed and of
/// an unsigned word, with a high half of -1, with the low half's top bit set, of
/// the size of the traffic, and near 0.
pub(super) fn sound_value(rng: &mut Rng) -> i64 {
    let most = Edition::Two.most_effect();
    let side = sign(rng);
    match rng.below(10) {
        0 => extreme_value(side),
        1 => extreme_value(side) - side * rng.between(1, 3),
        2 => side * (1 << 31) + rng.between(-2, 2),
        3 => side * (1 << 32) + rng.between(-2, 2),
        4 => joined(rng.number() as i32, -1),
        5 => joined(
            rng.number() as i32 | i32::MIN,
            rng.between(-23283, 23282) as i32,
        ),
        6 => rng.between(-most, most),
        7 => rng.between(-5, 5),
        _ => side * rng.between(0, 200_000_000_000),
    }
}

//! Makes the transverse influence line of a sound job, in one of many shapes.

use crate::rng::Rng;

#[derive(Clone, Copy)]
enum TransverseShape {
    Level,
    Slope,
    /// From 900 down to -900.
    Falling,
    AnyOrdinates,
    /// Each ordinate near the one before.
    Wandering,
    /// Each ordinate at a limit.
    Extremes,
    Peak,
    /// Zeros, and some ordinates between them.
    Sparse,
}

const TRANSVERSE_SHAPES: [TransverseShape; 8] = [
    TransverseShape::Level,
    TransverseShape::Slope,
    TransverseShape::Falling,
    TransverseShape::AnyOrdinates,
    TransverseShape::Wandering,
    TransverseShape::Extremes,
    TransverseShape::Peak,
    TransverseShape::Sparse,
];

pub(super) fn sound_transverse(rng: &mut Rng, ordinates: usize) -> Vec<i64> {
    let any = rng.between(-1000, 1000);
    let level = rng.pick(&[1000, -1000, any]);
    let (first, last) = (rng.between(-1000, 1000), rng.between(-1000, 1000));
    let peak = rng.index(ordinates);
    let shape = rng.pick(&TRANSVERSE_SHAPES);
    let mut wandering = rng.between(-1000, 1000);
    let between = |first: i64, last: i64, number: usize| {
        first + (last - first) * number as i64 / (ordinates as i64 - 1)
    };
    (0..ordinates)
        .map(|number| match shape {
            TransverseShape::Level => level,
            TransverseShape::Slope => between(first, last, number),
            TransverseShape::Falling => between(900, -900, number),
            TransverseShape::AnyOrdinates => rng.between(-1000, 1000),
            TransverseShape::Wandering => {
                wandering = (wandering + rng.between(-150, 150)).clamp(-1000, 1000);
                wandering
            }
            TransverseShape::Extremes => rng.pick(&[-1000, 1000]),
            TransverseShape::Peak if number == peak => level,
            TransverseShape::Sparse if rng.one_in(3) => rng.between(-1000, 1000),
            TransverseShape::Peak | TransverseShape::Sparse => 0,
        })
        .collect()
}

//! Makes the axles of a sound train.

use crate::rng::Rng;
use crate::train::Axle;

/// In decimetres.
const LONGEST_TRAIN: i64 = 500;

/// A train for pieces of this length and a line of so many.
pub(super) fn sound_train(rng: &mut Rng, h: i64, pieces: i64) -> Vec<Axle> {
    let any = rng.between(1, 12);
    let count = rng.pick(&[1, 2, 3, 12, any, any, any, any]) as usize;
    let distances = sound_distances(rng, count, LONGEST_TRAIN / h, pieces);
    let loads = sound_loads(rng, count);
    let axles = distances.into_iter().zip(loads);
    axles
        .map(|(distance, load)| Axle {
            load: load as u32,
            at: (distance * h) as u32,
        })
        .collect()
}

/// Distances from the first axle, in pieces, up to a most.
fn sound_distances(rng: &mut Rng, count: usize, most: i64, pieces: i64) -> Vec<i64> {
    let steps = count as i64 - 1;
    let scattered =
        |rng: &mut Rng, to: i64| -> Vec<i64> { (0..count).map(|_| rng.between(0, to)).collect() };
    let mut distances = match rng.below(12) {
        // All at the first.
        0 => vec![0; count],
        // Equal ones, often of a piece or two.
        kind @ 1..=3 => {
            let longest_step = most / steps.max(1);
            let to = if kind == 1 { longest_step } else { 2 };
            let step = rng.between(0, to.min(longest_step));
            (0..=steps).map(|number| number * step).collect()
        }
        // A short train.
        4..=6 => scattered(rng, most.min(8)),
        // One about as long as the line.
        7 | 8 => scattered(rng, most.min(pieces + 1)),
        // Two groups, as far apart as the line is long or farther.
        9 => {
            let apart = rng.between(pieces.min(most), most);
            let in_group = |rng: &mut Rng| rng.pick(&[0, apart]) + rng.between(0, 2);
            (0..count).map(|_| in_group(rng).min(most)).collect()
        }
        // The longest.
        10 => {
            let mut distances = scattered(rng, most);
            distances[count - 1] = most;
            distances
        }
        _ => scattered(rng, most),
    };
    distances.sort_unstable();
    distances[0] = 0;
    distances
}

/// Loads in kN.
fn sound_loads(rng: &mut Rng, count: usize) -> Vec<i64> {
    let level = rng.between(1, 400);
    let kind = rng.below(6);
    (0..count)
        .map(|_| match kind {
            0 => 1,
            1 => 400,
            2 => level,
            3 => rng.pick(&[1, 400]),
            4 => rng.pick(&[60, 80, 120]),
            _ => rng.between(1, 400),
        })
        .collect()
}

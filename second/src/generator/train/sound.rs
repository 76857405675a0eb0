//! Makes sound trains on sound lines, or sets every number at an end of its
//! limits.

use super::axles::sound_train;
use crate::generator::draws::{any_bytes, sign};
use crate::generator::line::{sound_line, sound_piece_length, sound_pieces, LONGEST_LINE};
use crate::job::Piece;
use crate::line::section_bytes;
use crate::rng::Rng;
use crate::train::{Axle, TrainCase, ALL_COUNT, RELIEVING_DROPPED, REPORT_BYTES};

/// A case that is not refused.
pub fn sound_case(rng: &mut Rng) -> TrainCase {
    if rng.one_in(32) {
        return extreme_case(rng);
    }
    let h = sound_piece_length(rng);
    let pieces = sound_pieces(rng, h);
    let train = sound_train(rng, h, pieces);
    let some_distance = i64::from(rng.pick(&train).at) / h;
    let line = sound_line(rng, pieces as usize, some_distance.max(1) as usize);
    of_parts(rng, h, &line, train)
}

/// A case whose values are the largest there are: all load in one place, the
/// line level or of either sign in halves.
fn extreme_case(rng: &mut Rng) -> TrainCase {
    let h = sound_piece_length(rng);
    let pieces = LONGEST_LINE / h;
    let sign_of_first = sign(rng);
    let first_of_other_sign = rng.pick(&[pieces / 2, pieces]);
    let line: Vec<Piece> = (0..pieces)
        .map(|number| {
            let side = if number < first_of_other_sign { 1 } else { -1 };
            let ordinate = 5000 * sign_of_first * side;
            Piece {
                left: ordinate,
                right: ordinate,
            }
        })
        .collect();
    let axle = Axle { load: 400, at: 0 };
    of_parts(rng, h, &line, vec![axle; 12])
}

fn of_parts(rng: &mut Rng, h: i64, line: &[Piece], train: Vec<Axle>) -> TrainCase {
    let mode = rng.pick(&[ALL_COUNT, RELIEVING_DROPPED]);
    let past = rng.pick(&[0, 0, 0, 1, 8, 100]);
    TrainCase {
        h: h as u64,
        pieces: line.len() as u64,
        line: section_bytes(line),
        train,
        mode,
        report: any_bytes(rng, REPORT_BYTES + past),
    }
}

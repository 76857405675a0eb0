//! Makes sound farm jobs: draws the header and puts the parts together, or sets
//! every number at an end of its limits.

use super::effects::{extreme_effects, sound_effects};
use crate::edition::Edition;
use crate::generator::draws::sign;
use crate::generator::header::{ordinates_across, sound_dynamic, sound_spacing};
use crate::generator::line::{sound_line, sound_piece_length, sound_pieces, LONGEST_LINE};
use crate::generator::transverse::sound_transverse;
use crate::job::{Job, Piece};
use crate::loads::AXLE_DISTANCE;
use crate::refusals::width_band;
use crate::rng::Rng;

/// A farm job that no refusal is due for, given a long enough patch buffer.
pub fn sound_job(rng: &mut Rng) -> Job {
    if rng.one_in(32) {
        return extreme_job(rng);
    }
    let piece_length = sound_piece_length(rng);
    let pieces = sound_pieces(rng, piece_length) as usize;
    let spacing = sound_spacing(rng);
    let barriers = rng.between(1, 3);
    let width = sound_width(rng, barriers);
    let (dynamic_kind, dynamic_value) = sound_dynamic(rng);
    let effects = sound_effects(rng);
    Job {
        edition: Edition::Four,
        piece_length,
        spacing,
        width,
        dynamic_kind,
        dynamic_value,
        further_header: vec![barriers],
        pieces: sound_line(rng, pieces, (AXLE_DISTANCE / piece_length) as usize),
        transverse: sound_transverse(rng, ordinates_across(width, spacing)),
        second_transverse: vec![],
        effects,
        rows: vec![],
        records: vec![],
    }
}

/// A farm job with every number at an end of its limits, so that the values are
/// the largest there are.
fn extreme_job(rng: &mut Rng) -> Job {
    let piece_length = sound_piece_length(rng);
    let spacing = rng.pick(&[10, 49, 50]);
    let barriers = rng.between(1, 3);
    let (narrowest, widest) = band(barriers);
    let width = rng.pick(&[narrowest, widest]);
    let ordinate = 5000 * sign(rng);
    let level = 1000 * sign(rng);
    let piece = Piece {
        left: ordinate,
        right: ordinate,
    };
    Job {
        edition: Edition::Four,
        piece_length,
        spacing,
        width,
        dynamic_kind: 1,
        dynamic_value: 1300,
        further_header: vec![barriers],
        pieces: vec![piece; (LONGEST_LINE / piece_length) as usize],
        transverse: vec![level; ordinates_across(width, spacing)],
        second_transverse: vec![],
        effects: extreme_effects(rng),
        rows: vec![],
        records: vec![],
    }
}

/// An end of the barriers' band, next to it, or between.
fn sound_width(rng: &mut Rng, barriers: i64) -> i64 {
    let (narrowest, widest) = band(barriers);
    let between = rng.between(narrowest, widest);
    rng.pick(&[
        narrowest,
        narrowest,
        narrowest + 1,
        widest - 1,
        widest,
        widest,
        between,
        between,
    ])
}

fn band(barriers: i64) -> (i64, i64) {
    let band = width_band(barriers as i32);
    ((*band.start()).into(), (*band.end()).into())
}

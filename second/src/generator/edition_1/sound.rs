//! Makes sound jobs: draws the header and puts the parts together, or sets
//! every number at an end of its limits.

use super::tables::{scramble_unused, sound_effects, sound_records, sound_rows};
use crate::edition::Edition;
use crate::generator::draws::sign;
use crate::generator::header::{ordinates_across, sound_dynamic, sound_spacing};
use crate::generator::line::{sound_line, sound_piece_length, sound_pieces, LONGEST_LINE};
use crate::generator::transverse::sound_transverse;
use crate::job::{
    Effect, Job, Piece, Record, Row, ALWAYS_PRESENT, LIVE_NORMAL, LIVE_OVERLOAD, MAY_BE_LEFT_OUT,
    SERVICE, ULTIMATE,
};
use crate::loads::AXLE_DISTANCE;
use crate::rng::Rng;

/// A job that 01 names no refusal for, given a long enough patch buffer.
pub fn sound_job(rng: &mut Rng) -> Job {
    if rng.one_in(32) {
        return extreme_job(rng);
    }
    let piece_length = sound_piece_length(rng);
    let pieces = sound_pieces(rng, piece_length);
    let spacing = sound_spacing(rng);
    let width = sound_width(rng);
    let (dynamic_kind, dynamic_value) = sound_dynamic(rng);
    let effects = sound_effects(rng);
    let mut records = sound_records(rng, effects.len());
    let rows = sound_rows(rng, records.len());
    scramble_unused(rng, &rows, &mut records, effects.len());
    Job {
        edition: Edition::One,
        piece_length,
        spacing,
        width,
        dynamic_kind,
        dynamic_value,
        further_header: vec![],
        pieces: sound_line(
            rng,
            pieces as usize,
            (AXLE_DISTANCE / piece_length) as usize,
        ),
        transverse: sound_transverse(rng, ordinates_across(width, spacing)),
        second_transverse: vec![],
        effects,
        rows,
        records,
    }
}

/// A job with every number at an end of its limits, so that the values are the
/// largest there are.
pub(crate) fn extreme_job(rng: &mut Rng) -> Job {
    let piece_length = sound_piece_length(rng);
    let spacing = rng.pick(&[10, 49, 50]);
    let width = rng.pick(&[1710, 2079]);
    let ordinate = 5000 * sign(rng);
    let level = 1000 * sign(rng);
    let value = 1_000_000_000 * sign(rng);
    let mark = rng.pick(&[ALWAYS_PRESENT, MAY_BE_LEFT_OUT]);
    let piece = Piece {
        left: ordinate,
        right: ordinate,
    };
    let row = |state, live_kind| Row {
        state,
        live_kind,
        live_factor: 3000,
        first: 1,
    };
    Job {
        edition: Edition::One,
        piece_length,
        spacing,
        width,
        dynamic_kind: 1,
        dynamic_value: 1300,
        further_header: vec![],
        pieces: vec![piece; (LONGEST_LINE / piece_length) as usize],
        transverse: vec![level; ordinates_across(width, spacing)],
        second_transverse: vec![],
        effects: vec![Effect { value, mark }; 16],
        rows: vec![row(SERVICE, LIVE_NORMAL), row(ULTIMATE, LIVE_OVERLOAD)],
        records: (1..=16)
            .map(|number| Record {
                effect: number,
                factor: 3000,
                next: if number < 16 { number + 1 } else { 0 },
            })
            .collect(),
    }
}

/// A width next to where the number of lanes changes, or any.
pub(crate) fn sound_width(rng: &mut Rng) -> i64 {
    const LANE_LIMITS: [i64; 10] = [300, 599, 600, 969, 970, 1339, 1340, 1709, 1710, 2079];
    match rng.below(3) {
        0 => rng.pick(&LANE_LIMITS),
        1 => (rng.pick(&LANE_LIMITS) + rng.between(-2, 2)).clamp(300, 2079),
        _ => rng.between(300, 2079),
    }
}

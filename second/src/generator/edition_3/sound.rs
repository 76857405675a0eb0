//! Makes sound jobs of edition 3: edition 2's, with spans by sign or without, on a line
//! within edition 3's limits and with a second carriageway.

use crate::edition::Edition;
use crate::generator::draws::sign;
use crate::generator::header::ordinates_across;
use crate::generator::transverse::sound_transverse;
use crate::generator::{edition_1, edition_2, spans};
use crate::job::{Job, Piece};
use crate::rng::Rng;

/// A job that no refusal is due for, given a long enough patch buffer.
pub fn sound_job(rng: &mut Rng) -> Job {
    if rng.one_in(16) {
        return extreme_job(rng);
    }
    let mut job = if rng.one_in(4) {
        spans::sound_job(rng)
    } else {
        edition_2::sound_job(rng)
    };
    lower_the_line(&mut job);
    let (width, transverse) = second_carriageway(rng, &job);
    let mut job = job.with_second_carriageway(width, transverse);
    // Now and then one side counts nothing.
    match rng.below(16) {
        0 => job.transverse.fill(0),
        1 => job.second_transverse.fill(0),
        _ => {}
    }
    job
}

/// Takes a tenth of each ordinate, cut off, where one is past edition 3's limits; those
/// of a piece stay of one sign.
fn lower_the_line(job: &mut Job) {
    let most = i64::from(Edition::Three.most_in_line());
    let past = |piece: &Piece| piece.left.abs().max(piece.right.abs()) > most;
    if job.pieces.iter().any(past) {
        for piece in &mut job.pieces {
            (piece.left, piece.right) = (piece.left / 10, piece.right / 10);
        }
    }
}

/// A width and its transverse ordinates: often as the first carriageway's, the same way
/// or mirrored, so that lanes tie across the median; else of their own.
fn second_carriageway(rng: &mut Rng, job: &Job) -> (i64, Vec<i64>) {
    let mut mirrored = job.transverse.clone();
    mirrored.reverse();
    match rng.below(6) {
        0 => (job.width, job.transverse.clone()),
        1 => (job.width, mirrored),
        _ => {
            let width = edition_1::sound_width(rng);
            let ordinates = ordinates_across(width, job.spacing);
            (width, sound_transverse(rng, ordinates))
        }
    }
}

/// A job with every number at an end of its limits, the two sides of one sign or of two,
/// so that the values are the largest there are.
fn extreme_job(rng: &mut Rng) -> Job {
    let mut job = edition_2::extreme_job(rng);
    lower_the_line(&mut job);
    let width = rng.pick(&[1710, 2079]);
    let level = 1000 * sign(rng);
    let transverse = vec![level; ordinates_across(width, job.spacing)];
    job.with_second_carriageway(width, transverse)
}

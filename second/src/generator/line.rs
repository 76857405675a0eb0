//! Makes a sound longitudinal influence line, in one of many shapes, and a fault
//! in one.

use super::draws::{first_last_or_any, sign};
use crate::job::Piece;
use crate::rng::Rng;
use crate::sections::WORDS_PER_PIECE;

/// In decimetres.
pub(super) const LONGEST_LINE: i64 = 1000;

pub(super) fn sound_piece_length(rng: &mut Rng) -> i64 {
    rng.pick(&[1, 2, 5, 10, 25, 50])
}

/// A number of pieces of this length, often a small one.
pub(super) fn sound_pieces(rng: &mut Rng, piece_length: i64) -> i64 {
    let most_pieces = LONGEST_LINE / piece_length;
    match rng.below(8) {
        0 => 1,
        1 => most_pieces,
        2 | 3 => rng.between(1, most_pieces.min(4)),
        4 => rng.between(1, most_pieces),
        _ => rng.between(1, most_pieces.min(60)),
    }
}

#[derive(Clone, Copy, PartialEq, Eq)]
enum LineShape {
    OneSigned,
    /// Of both signs, joined; 0 where a piece would have two.
    Mixed,
    /// As for the moment of a simple girder.
    Triangle,
    Level,
    /// Gaps and jumps between pieces.
    Jumps,
    /// Ordinates at their limits, and zeros beside them.
    Extremes,
    Spikes,
    /// A jump from one sign to the other, as for a shear force.
    Shear,
    /// Zero but for the line's two ends.
    EndsOnly,
    /// Each piece with one ordinate of 0.
    OneEndOfEach,
    /// One sign near an end and the other beyond, so that the far axle had
    /// better stand off the line.
    LeftOverhang,
    RightOverhang,
    Zero,
}

const LINE_SHAPES: [LineShape; 13] = [
    LineShape::OneSigned,
    LineShape::Mixed,
    LineShape::Triangle,
    LineShape::Level,
    LineShape::Jumps,
    LineShape::Extremes,
    LineShape::Spikes,
    LineShape::Shear,
    LineShape::EndsOnly,
    LineShape::OneEndOfEach,
    LineShape::LeftOverhang,
    LineShape::RightOverhang,
    LineShape::Zero,
];

/// A line of a shape drawn at random; no piece has ordinates of two signs. An
/// overhang is at most as many pieces as there are between the axles, 1 or more.
pub(super) fn sound_line(rng: &mut Rng, pieces: usize, between_axles: usize) -> Vec<Piece> {
    let most = rng.pick(&[1, 20, 500, 5000]);
    let sign_of_all = sign(rng);
    let mirrored = |left: i64, right: i64| Piece {
        left: sign_of_all * left,
        right: sign_of_all * right,
    };
    let last = pieces - 1;
    let peak = rng.index(pieces + 1);
    let overhang = rng.index(between_axles) + 1;
    let shape = rng.pick(&LINE_SHAPES);
    let joined = joined_ordinates(rng, shape, pieces, most, peak);
    (0..pieces)
        .map(|number| match shape {
            LineShape::OneSigned | LineShape::Triangle | LineShape::Level => {
                mirrored(joined[number], joined[number + 1])
            }
            LineShape::Mixed => Piece {
                left: joined[number],
                right: joined[number + 1],
            },
            LineShape::Jumps => {
                let side = sign(rng);
                Piece {
                    left: side * rng.between(0, most),
                    right: side * rng.between(0, most),
                }
            }
            LineShape::Extremes => {
                let side = sign(rng);
                Piece {
                    left: side * rng.pick(&[0, 5000, 4999]),
                    right: side * rng.pick(&[0, 5000, 4999]),
                }
            }
            LineShape::Spikes if rng.one_in(6) => {
                let height = sign(rng) * most;
                let (left, right) = rng.pick(&[(height, 0), (0, height), (height, height)]);
                Piece { left, right }
            }
            LineShape::Shear => {
                let along = |station: usize| most * station as i64 / pieces as i64;
                let before_jump = number < peak;
                let at_start = if before_jump { 0 } else { most };
                mirrored(at_start - along(number), at_start - along(number + 1))
            }
            LineShape::EndsOnly if number == 0 => mirrored(most, 0),
            LineShape::EndsOnly if number == last => mirrored(0, most),
            LineShape::OneEndOfEach => {
                let height = rng.between(-most, most);
                let (left, right) = rng.pick(&[(height, 0), (0, height)]);
                Piece { left, right }
            }
            LineShape::LeftOverhang | LineShape::RightOverhang => {
                let from_end = match shape {
                    LineShape::LeftOverhang => number,
                    _ => last - number,
                };
                let side = if from_end < overhang { 1 } else { -1 };
                mirrored(side * rng.between(0, most), side * rng.between(0, most))
            }
            LineShape::Spikes | LineShape::EndsOnly | LineShape::Zero => mirrored(0, 0),
        })
        .collect()
}

/// The ordinates at the stations of a joined line; zeros for other shapes.
fn joined_ordinates(
    rng: &mut Rng,
    shape: LineShape,
    pieces: usize,
    most: i64,
    peak: usize,
) -> Vec<i64> {
    let mut ordinates: Vec<i64> = (0..=pieces)
        .map(|station| match shape {
            LineShape::OneSigned => rng.between(0, most),
            LineShape::Mixed => rng.between(-most, most),
            LineShape::Triangle => {
                let (run, from_end) = if station <= peak {
                    (peak, station)
                } else {
                    (pieces - peak, pieces - station)
                };
                most * from_end as i64 / run.max(1) as i64
            }
            LineShape::Level => most,
            _ => 0,
        })
        .collect();
    for station in 1..ordinates.len() {
        if ordinates[station - 1] * ordinates[station] < 0 {
            ordinates[station] = 0;
        }
    }
    ordinates
}

/// Gives a piece of a line's section one ordinate above 0 and one below, at most so far
/// away from it.
pub(super) fn give_a_piece_two_signs(rng: &mut Rng, line: &mut [i32], most: i32) {
    let at = WORDS_PER_PIECE * first_last_or_any(rng, line.len() / WORDS_PER_PIECE);
    let side = sign(rng) as i32;
    line[at] = side * rng.pick(&[1, most, 17]);
    line[at + 1] = -side * rng.pick(&[1, most, 17]);
}

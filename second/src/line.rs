//! 01 "Longitudinal effect": the longitudinal influence line, the stands of
//! the axle pair, the patch and the effects of an element, in 75 N·U.

use crate::job::{Job, Piece};
use crate::loads::{Direction, Element, Question, Side, AXLE_DISTANCE, UNIFORM_LOAD};
use crate::sections::WORDS_PER_PIECE;
use crate::words;

/// The pieces of a line's section.
pub fn pieces_of(section: &[i32]) -> Vec<Piece> {
    section
        .chunks_exact(WORDS_PER_PIECE)
        .map(|piece| Piece {
            left: piece[0].into(),
            right: piece[1].into(),
        })
        .collect()
}

/// The pieces of a line that goes straight from each of these ordinates to the next.
pub fn pieces_between(ordinates: &[i64]) -> Vec<Piece> {
    ordinates
        .windows(2)
        .map(|two| Piece {
            left: two[0],
            right: two[1],
        })
        .collect()
}

/// The pieces of a line through these ordinates and back.
pub fn there_and_back(ordinates: &[i64]) -> Vec<Piece> {
    let back = ordinates.iter().rev().skip(1);
    let all: Vec<i64> = ordinates.iter().chain(back).copied().collect();
    pieces_between(&all)
}

/// The ordinates of a line's section, a left and a right one a piece.
pub fn ordinates_of(line: &[Piece]) -> impl Iterator<Item = i64> + '_ {
    line.iter().flat_map(|piece| [piece.left, piece.right])
}

/// The bytes of a line's section.
pub fn section_bytes(line: &[Piece]) -> Vec<u8> {
    let words: Vec<i32> = ordinates_of(line).map(|word| word as i32).collect();
    words::bytes_of(&words)
}

/// Where a pair or a train stands: the station of its leftmost axle, in pieces
/// from the line's left end, and the side from which all its axles count.
#[derive(Debug, Clone, Copy, PartialEq, Eq)]
pub struct Stand {
    pub station: i64,
    pub side: Side,
}

/// The ordinate just left or just right of a station; 0 outside the line.
pub fn ordinate(line: &[Piece], stand: Stand) -> i64 {
    let piece_at = |number: i64| {
        usize::try_from(number)
            .ok()
            .and_then(|number| line.get(number))
    };
    match stand.side {
        Side::Left => piece_at(stand.station - 1).map_or(0, |piece| piece.right),
        Side::Right => piece_at(stand.station).map_or(0, |piece| piece.left),
    }
}

/// Pieces between the two axles of a pair; whole for every lawful h.
pub fn pieces_between_axles(job: &Job) -> i64 {
    AXLE_DISTANCE / job.piece_length
}

/// The sum of the ordinates under both axles, which take the same side.
pub fn pair_ordinates(job: &Job, stand: Stand) -> i64 {
    let right_axle = Stand {
        station: stand.station + pieces_between_axles(job),
        side: stand.side,
    };
    ordinate(&job.pieces, stand) + ordinate(&job.pieces, right_axle)
}

/// The stations tried: from the right axle at the line's left end to the left
/// axle at its right end. Further off both axles count 0, as they do at the
/// outer sides of these two.
pub fn stations(job: &Job) -> std::ops::RangeInclusive<i64> {
    -pieces_between_axles(job)..=job.pieces.len() as i64
}

/// The best stand over all stations and sides; of equally good ones the lowest
/// station's, left before right. Between stations the sum runs straight, so
/// none there is better than both its ends.
pub fn best_stand(job: &Job, direction: Direction) -> Stand {
    let question = question_of(direction);
    let mut best = Stand {
        station: *stations(job).start(),
        side: Side::Left,
    };
    for station in stations(job) {
        for side in [Side::Left, Side::Right] {
            let stand = Stand { station, side };
            if question.beats(pair_ordinates(job, stand), pair_ordinates(job, best)) {
                best = stand;
            }
        }
    }
    best
}

/// The raising placement is the greatest over all, the lowering one the least.
fn question_of(direction: Direction) -> Question {
    match direction {
        Direction::Raising => Question::Greatest,
        Direction::Lowering => Question::Least,
    }
}

/// A piece's patch byte.
pub fn patch_byte(piece: &Piece) -> u8 {
    match piece.left + piece.right {
        sum if sum > 0 => 1,
        sum if sum < 0 => 2,
        _ => 0,
    }
}

/// The patch byte of the pieces that an element loads.
pub fn loaded_byte(direction: Direction) -> u8 {
    match direction {
        Direction::Raising => 1,
        Direction::Lowering => 2,
    }
}

/// The uniform load on the pieces loaded in this direction.
pub fn uniform_effect(job: &Job, direction: Direction) -> i64 {
    job.pieces
        .iter()
        .filter(|piece| patch_byte(piece) == loaded_byte(direction))
        .map(|piece| UNIFORM_LOAD * job.piece_length * (piece.left + piece.right))
        .sum()
}

/// The longitudinal effect of an element in its raising or lowering placement.
pub fn longitudinal_effect(job: &Job, element: Element, direction: Direction) -> i64 {
    let axles = pair_ordinates(job, best_stand(job, direction));
    uniform_effect(job, direction) + element.axle_load() * axles
}

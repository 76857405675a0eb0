//! 02 "Rating trucks": the refusals of a train's call, the line's own first.

use super::{TrainCase, ALL_COUNT, RELIEVING_DROPPED, REPORT_BYTES};
use crate::edition::Edition;
use crate::refusals::{
    ordinate_outside, piece_length_lawful, piece_of_two_signs, pieces_lawful, test, Refusal,
};
use crate::sections::WORDS_PER_PIECE;
use crate::words::{words_of, WORD_BYTES};

/// The refusal due for a case. Places of 4 and 5 count from the section's first
/// word, those of 10 from 1.
pub fn refusal(case: &TrainCase) -> Option<Refusal> {
    test_all(case).err()
}

fn test_all(case: &TrainCase) -> Result<(), Refusal> {
    test(2, argument_outside(case))?;
    let line = words_of(&case.line);
    // The limits of a line of edition 1.
    test(4, ordinate_outside(&line, Edition::One.most_in_line()))?;
    test(5, piece_of_two_signs(&line))?;
    test(10, train_at_fault(case))
}

/// 2: an argument outside its limits, or a section that is not 2 times N words.
fn argument_outside(case: &TrainCase) -> Option<usize> {
    let (h, pieces) = (i128::from(case.h), i128::from(case.pieces));
    let lawful = piece_length_lawful(h)
        && pieces_lawful(h, pieces)
        && case.line.len() == case.pieces as usize * WORDS_PER_PIECE * WORD_BYTES
        && [ALL_COUNT, RELIEVING_DROPPED].contains(&case.mode)
        && case.report.len() >= REPORT_BYTES;
    (!lawful).then_some(0)
}

/// 10: axles too few or too many, at 0; else the first axle at fault, from 1.
fn train_at_fault(case: &TrainCase) -> Option<usize> {
    if !(1..=12).contains(&case.train.len()) {
        return Some(0);
    }
    let at_fault = |&at: &usize| !axle_lawful(case, at);
    let axle = (0..case.train.len()).find(at_fault)?;
    Some(axle + 1)
}

fn axle_lawful(case: &TrainCase, at: usize) -> bool {
    let axle = case.train[at];
    let in_order = match at {
        0 => axle.at == 0,
        _ => axle.at >= case.train[at - 1].at,
    };
    (1..=400).contains(&axle.load)
        && (0..=500).contains(&axle.at)
        && in_order
        && u64::from(axle.at).is_multiple_of(case.h)
}
